/* The near end of the relay: `access_run` and `access_inspect` for a machine that
 * is no x86-64 one. Hands each call to the program that the environment's ACCESS_RELAY names
 * (serve.c under an emulator), and everything that it left in the lent buffers
 * back. For tests: a call costs a pipe, and a failure ends the program. */
#include "access_table.h"
#include "calls.h"

#include <errno.h>
#include <fcntl.h>
#include <pthread.h>
#include <stdio.h>
#include <stdlib.h>
#include <unistd.h>

static pthread_mutex_t one_at_a_time = PTHREAD_MUTEX_INITIALIZER;
static int to = -1, from = -1;

static void fail(const char *why) {
    perror(why);
    abort();
}

static void start(void) {
    const char *serve = getenv("ACCESS_RELAY");
    int calls[2], results[2];
    if (serve == NULL) {
        errno = EINVAL;
        fail("relay: ACCESS_RELAY names no program");
    }
    if (pipe(calls) != 0 || pipe(results) != 0) {
        fail("relay: pipe");
    }
    fcntl(calls[1], F_SETFD, FD_CLOEXEC);
    fcntl(results[0], F_SETFD, FD_CLOEXEC);
    pid_t child = fork();
    if (child < 0) {
        fail("relay: fork");
    }
    if (child == 0) {
        if (dup2(calls[0], 0) == 0 && dup2(results[1], 1) == 1) {
            close(calls[0]);
            close(results[1]);
            execl(serve, serve, (char *)NULL);
        }
        perror(serve);
        _exit(127);
    }
    close(calls[0]);
    close(results[1]);
    to = calls[1];
    from = results[0];
}

static void give(const void *bytes, size_t len) {
    for (size_t at = 0; at < len;) {
        ssize_t put = write(to, (const uint8_t *)bytes + at, len - at);
        if (put < 0 && errno != EINTR) {
            fail("relay: write");
        }
        at += put > 0 ? (size_t)put : 0;
    }
}

static void take(void *bytes, size_t len) {
    for (size_t at = 0; at < len;) {
        ssize_t got = read(from, (uint8_t *)bytes + at, len - at);
        if (got == 0 || (got < 0 && errno != EINTR)) {
            fail("relay: the program at the far end ended");
        }
        at += got > 0 ? (size_t)got : 0;
    }
}

/* Begins a call with its lengths. Nobody else has the pipes until it is done. */
static void begin(uint64_t which, const uint64_t *len, size_t parts) {
    pthread_mutex_lock(&one_at_a_time);
    if (to < 0) {
        start();
    }
    give(&which, sizeof which);
    give(len, parts * sizeof *len);
}

uint64_t access_run(const uint8_t *image, size_t image_len,
                    const uint8_t *schedule, size_t schedule_len,
                    uint8_t *answers, size_t answers_len,
                    uint8_t *image_out, size_t image_out_len,
                    uint64_t *lengths, size_t lengths_len) {
    uint64_t len[5] = {image_len, schedule_len, answers_len, image_out_len, lengths_len * sizeof *lengths};
    uint64_t number;
    begin(RELAY_RUN, len, 5);
    give(image, image_len);
    give(schedule, schedule_len);
    give(answers, answers_len);
    give(image_out, image_out_len);
    give(lengths, lengths_len * sizeof *lengths);
    take(&number, sizeof number);
    take(answers, answers_len);
    take(image_out, image_out_len);
    take(lengths, lengths_len * sizeof *lengths);
    pthread_mutex_unlock(&one_at_a_time);
    return number;
}

uint64_t access_inspect(const uint8_t *image, size_t image_len,
                        uint64_t *finding, size_t finding_len) {
    uint64_t len[2] = {image_len, finding_len * sizeof *finding};
    uint64_t number;
    begin(RELAY_INSPECT, len, 2);
    give(image, image_len);
    give(finding, finding_len * sizeof *finding);
    take(&number, sizeof number);
    take(finding, finding_len * sizeof *finding);
    pthread_mutex_unlock(&one_at_a_time);
    return number;
}
