/* What is wrong with an image, from C: makes an image by access_run, has it looked
 * at as it is and broken in six ways, and compares the five numbers. Says on
 * standard error which were others, and ends with 1 then. */
#include "access_table.h"

#include <stdio.h>
#include <string.h>

enum { BLOCK = 512, CHECK = 508 };

/* Three desks, five cells, two writes open: 1 + 3 + 3 + 1 blocks. */
static const char text[] = "N 3 5\nW 1 1 2\nW 2 5 1\n";
static const size_t blocks = 8;

static uint8_t answers[ACCESS_ANSWERS_BOUND(sizeof text)];
static uint8_t saved[ACCESS_MAX_IMAGE], image[ACCESS_MAX_IMAGE];
static int others;

/* Compares what is found in the first `len` bytes of `image`, which is then the
 * saved one again. */
static void expect(const char *what, size_t len, uint64_t number, uint64_t place,
                   uint64_t desks, uint64_t cells, uint64_t open) {
    const uint64_t right[ACCESS_FINDING] = {number, place, desks, cells, open};
    uint64_t found[ACCESS_FINDING + 1] = {9, 9, 9, 9, 9, 77};
    uint64_t gave = access_inspect(image, len, found, ACCESS_FINDING + 1);
    if (gave != ACCESS_DONE || memcmp(found, right, sizeof right) != 0 || found[ACCESS_FINDING] != 77) {
        fprintf(stderr, "inspect: %s: gave %d, and found %d at %d, %d desks, %d cells, %d open\n", what, (int)gave,
                (int)found[0], (int)found[1], (int)found[2], (int)found[3], (int)found[4]);
        others = 1;
    }
    memcpy(image, saved, sizeof image);
}

/* Puts the check of a block right, as the handbook draws it. */
static void seal(size_t block) {
    uint8_t *bytes = image + block * BLOCK;
    uint32_t so_far = 0, sums = 0;
    for (int j = CHECK; j-- > 0;) {
        so_far += bytes[j];
        sums += so_far;
    }
    sums += 1;
    for (int j = 0; j < 4; j++) {
        bytes[CHECK + j] = (uint8_t)(sums >> (8 * j));
    }
}

int main(void) {
    uint64_t lengths[2], four[4] = {9, 9, 9, 9};
    uint64_t number = access_run(image, 0, (const uint8_t *)text, strlen(text), answers, sizeof answers,
                                 saved, sizeof saved, lengths, 2);
    if (number != ACCESS_DONE || lengths[1] != blocks * BLOCK) {
        fprintf(stderr, "inspect: the schedule gave %d\n", (int)number);
        return 1;
    }
    memcpy(image, saved, sizeof image);
    size_t len = lengths[1];
    expect("as it is", len, 0, 0, 3, 5, 2);
    expect("no bytes", 0, ACCESS_CUT, 0, 0, 0, 0);

    /* The transfer was cut: inside a block, and at the end of block 4. */
    expect("cut inside a block", 700, ACCESS_CUT, 0, 0, 0, 0);
    expect("cut at a block's end", 5 * BLOCK, ACCESS_BROKEN, 5, 0, 0, 0);

    /* Blocks 3 and 6 went bad: the first is named. */
    image[6 * BLOCK + 40] ^= 1;
    image[3 * BLOCK + 9] ^= 0x80;
    expect("two bad blocks", len, ACCESS_DAMAGED, 3, 0, 0, 0);

    /* Blocks 2 and 5 were exchanged: each check is right, and no place is. */
    memcpy(image + 2 * BLOCK, saved + 5 * BLOCK, BLOCK);
    memcpy(image + 5 * BLOCK, saved + 2 * BLOCK, BLOCK);
    expect("two blocks exchanged", len, ACCESS_BROKEN, 2, 0, 0, 0);

    /* Block 1 has a kind that cannot stand there, and block 7 went bad: checks come first. */
    image[1 * BLOCK] = 1;
    seal(1);
    image[7 * BLOCK + CHECK] ^= 1;
    expect("a wrong kind, and a bad block behind it", len, ACCESS_DAMAGED, 7, 0, 0, 0);

    /* A program wrote 65 cells and a right check: every block is whole. */
    image[5] = 65;
    seal(0);
    expect("65 cells", len, ACCESS_BROKEN, blocks, 0, 0, 0);

    /* Four numbers are too few, and stay. */
    number = access_inspect(image, len, four, 4);
    if (number != ACCESS_SHORT || four[0] != 9 || four[1] != 9 || four[2] != 9 || four[3] != 9) {
        fprintf(stderr, "inspect: four numbers: gave %d\n", (int)number);
        others = 1;
    }
    return others;
}
