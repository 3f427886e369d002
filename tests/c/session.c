/* The session of document 01 from C: two calls, the table carried from the
 * first to the second by its image. Prints the answers. */
#include "access_table.h"

#include <stdio.h>
#include <string.h>

/* Up to here write 2.1 is held at desk 3, and so it is in the image. */
static const char before[] = "N 3 2\nW 1 1 2\nD 2 1 1\nR 2 1\nW 1 1 1\nD 2 1 2\nW 2 2 1\nD 3 2 1\n";
static const char after[] = "T 3 1 2\nD 3 1 1\nR 3 1\nT 3 1 2\nD 3 1 2\nT 3 1 2\nR 1 2\nD 1 1 1\nD 3 1 2\nD 1 2 2\n";

static uint8_t answers[ACCESS_ANSWERS_BOUND(sizeof before + sizeof after)];
static uint8_t images[2][ACCESS_MAX_IMAGE];

/* Runs a text from an image of `len` bytes, prints its answers, and gives the
 * length of the image behind it, or 0 on a refusal. */
static size_t run(const char *text, const uint8_t *image, size_t len, uint8_t *next) {
    uint64_t lengths[2];
    uint64_t number = access_run(image, len, (const uint8_t *)text, strlen(text), answers,
                                 sizeof answers, next, ACCESS_MAX_IMAGE, lengths, 2);
    if (number != ACCESS_DONE) {
        fprintf(stderr, "session: refused with %llu\n", (unsigned long long)number);
        return 0;
    }
    fwrite(answers, 1, lengths[0], stdout);
    return lengths[1];
}

int main(void) {
    size_t len = run(before, images[0], 0, images[1]);
    if (len == 0 || run(after, images[1], len, images[0]) == 0) {
        return 1;
    }
    return fflush(stdout) == 0 ? 0 : 1;
}
