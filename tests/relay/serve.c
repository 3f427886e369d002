/* The far end of the relay: an x86-64 program with the library in it. Reads
 * calls from standard input and writes what each gave to standard output. It
 * is compiled without a C library's headers, so what it needs is declared. */
#include "access_table.h"
#include "calls.h"

extern long read(int file, void *bytes, size_t len);
extern long write(int file, const void *bytes, size_t len);
extern void *malloc(size_t len);
extern void free(void *bytes);
extern void exit(int status);

enum { GUARD = 64, GUARD_BYTE = 0xc3 };

static void fail(const char *why, size_t len) {
    write(2, why, len);
    exit(1);
}

/* Reads all of `len` bytes; 0 at the end of input before the first. */
static int take(void *bytes, size_t len) {
    size_t at = 0;
    while (at < len) {
        long got = read(0, (uint8_t *)bytes + at, len - at);
        if (got == 0 && at == 0) {
            return 0;
        }
        if (got <= 0) {
            fail("serve: a call was cut off\n", 26);
        }
        at += (size_t)got;
    }
    return 1;
}

static void give(const void *bytes, size_t len) {
    size_t at = 0;
    while (at < len) {
        long put = write(1, (const uint8_t *)bytes + at, len - at);
        if (put <= 0) {
            exit(1);
        }
        at += (size_t)put;
    }
}

/* A buffer of just this length, filled from the input, between two guards. */
static uint8_t *lend(size_t len) {
    uint8_t *bytes = malloc(len + 2 * GUARD);
    if (bytes == NULL) {
        fail("serve: no memory\n", 17);
    }
    for (size_t at = 0; at < GUARD; at++) {
        bytes[at] = bytes[GUARD + len + at] = GUARD_BYTE;
    }
    if (len > 0 && !take(bytes + GUARD, len)) {
        fail("serve: a call was cut off\n", 26);
    }
    return bytes + GUARD;
}

static void give_back(uint8_t *bytes, size_t len) {
    for (size_t at = 0; at < GUARD; at++) {
        if (bytes[at - GUARD] != GUARD_BYTE || bytes[len + at] != GUARD_BYTE) {
            fail("serve: a byte beside a buffer was written\n", 42);
        }
    }
    free(bytes - GUARD);
}

/* A call whose parts are these: takes them, and gives the number that the call
 * returned and the parts from `written` on. */
static void serve(uint64_t which, int parts, int written) {
    uint64_t len[5], number;
    uint8_t *part[5];
    if (!take(len, (size_t)parts * sizeof *len)) {
        fail("serve: a call was cut off\n", 26);
    }
    for (int i = 0; i < parts; i++) {
        part[i] = lend(len[i]);
    }
    if (which == RELAY_RUN) {
        number = access_run(part[0], len[0], part[1], len[1], part[2], len[2], part[3], len[3],
                            (uint64_t *)part[4], len[4] / sizeof(uint64_t));
    } else {
        number = access_inspect(part[0], len[0], (uint64_t *)part[1], len[1] / sizeof(uint64_t));
    }
    give(&number, sizeof number);
    for (int i = written; i < parts; i++) {
        give(part[i], len[i]);
    }
    for (int i = 0; i < parts; i++) {
        give_back(part[i], len[i]);
    }
}

int main(void) {
    uint64_t which;
    while (take(&which, sizeof which)) {
        if (which == RELAY_RUN) {
            serve(which, 5, 2);
        } else if (which == RELAY_INSPECT) {
            serve(which, 2, 1);
        } else {
            fail("serve: no such call\n", 20);
        }
    }
    return 0;
}
