/* many: serves many farms at a time. Standard input is a run of deliveries, each of farm number (2 bytes), length (2 bytes) and so many
   bytes of that farm's book; lines go to standard output as farm number (2 bytes), length (2 bytes) and the line bytes. At the end
   standard error tells how each farm that was heard of stands. All numbers are big-endian. */
#include "herd_desk.h"

#include <stdio.h>

enum { FARMS = 400, PART = 65535 };

/* The state of no record is zeros, so the images need no start. */
static uint8_t images[FARMS][HERD_IMAGE_BYTES], part[PART], lines[4096];
static uint32_t codes[FARMS];
static int heard[FARMS];

/* 1 where a number is there, 0 where the input ends before it, -1 where it ends after one byte of it. */
static int get16(size_t *number) {
    int high = getchar(), low = high == EOF ? EOF : getchar();
    *number = (size_t)(high & 255) << 8 | (size_t)(low & 255);
    return low != EOF ? 1 : high == EOF ? 0 : -1;
}

static void put16(size_t number) {
    putchar((int)(number >> 8));
    putchar((int)(number & 255));
}

/* All of the part: where the buffer is full, its lines are written and the call goes on with the bytes not taken. */
static void deliver(size_t farm, size_t part_len) {
    size_t at = 0;
    uint64_t taken, answer;
    do {
        answer = herd_call(images[farm], HERD_IMAGE_BYTES, part + at, part_len - at, lines, sizeof lines, &taken);
        at += taken;
        if (herd_desk_written(answer) > 0) {
            put16(farm);
            put16(herd_desk_written(answer));
            fwrite(lines, 1, herd_desk_written(answer), stdout);
        }
    } while (herd_desk_code(answer) == HERD_DESK_FULL);
    codes[farm] = herd_desk_code(answer);
    heard[farm] = 1;
}

int main(void) {
    size_t farm, part_len;
    int got;
    while ((got = get16(&farm)) != 0) {
        if (got < 0 || get16(&part_len) <= 0 || farm >= FARMS || fread(part, 1, part_len, stdin) != part_len) {
            fputs("no such delivery\n", stderr);
            return 1;
        }
        deliver(farm, part_len);
    }
    for (farm = 0; farm < FARMS; farm++) {
        if (heard[farm]) {
            fprintf(stderr, "farm %zu: %u: %s\n", farm, (unsigned)codes[farm], herd_desk_words(codes[farm]));
        }
    }
    return fflush(stdout) != 0;
}
