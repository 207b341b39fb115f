/* farms BOOKS: four hundred farms at a time. The images of 400 farms stand in one array; their books, those of the file, are dealt in parts of
   random sizes and in random order, by one desk and then by two threads. What comes of each is compared with what the second program says. */
#include "herd_desk.h"
#include "trials.h"

#include <threads.h>

enum { FARMS = 400, MOST_PART = 40 };

/* A farm at the desk: its book and line buffer, how far both have come, and the last code. */
struct farm {
    struct trial trial;
    size_t line, at, written;
    uint32_t code;
    int done;
};

/* Who serves the farms from `first` to `last`; alone, it also sees to it that no other image is touched. */
struct desk {
    struct guarded images, shadow;
    struct farm *farms;
    size_t first, last, calls;
    uint64_t seed;
    int alone;
};

static uint64_t below(uint64_t *seed, uint64_t n) {
    *seed ^= *seed << 13;
    *seed ^= *seed >> 7;
    *seed ^= *seed << 17;
    return (*seed >> 20) % n;
}

/* One call with the next n bytes of the farm's book, copied between guards of their own. */
static void deal(struct farm *f, uint8_t *image, size_t n) {
    struct trial *t = &f->trial;
    struct guarded part = guarded_new(n, f->at % 8, 0);
    uint64_t taken = UINT64_MAX;
    if (n > 0) {
        memcpy(part.bytes, t->book.bytes + f->at, n);
    }
    uint64_t got = herd_call(image, HERD_IMAGE_BYTES, part.bytes, n, t->lines.bytes + f->written, t->lines.len - f->written, &taken);
    if (taken > n || herd_desk_written(got) > t->lines.len - f->written) {
        fail(f->line, "more is taken or written than there is");
    }
    if (!guards_stand(&part) || !guards_stand(&t->lines) || (n > 0 && memcmp(part.bytes, t->book.bytes + f->at, n) != 0)) {
        fail(f->line, "a guard byte or the part was touched");
    }
    free(part.whole);
    f->at += taken;
    f->written += herd_desk_written(got);
    f->code = herd_desk_code(got);
    f->done = f->code != HERD_DESK_UNFINISHED || f->at == t->book.len;
}

/* A farm that has ended answers the same again, takes and writes nothing, and its image stays. */
static void deal_again(struct farm *f, uint8_t *image) {
    uint8_t before[HERD_IMAGE_BYTES];
    size_t at = f->at, written = f->written;
    uint32_t code = f->code;
    memcpy(before, image, sizeof before);
    deal(f, image, f->trial.book.len - f->at);
    if (f->at != at || f->written != written || f->code != code || memcmp(before, image, sizeof before) != 0) {
        fail(f->line, "a farm that has ended goes on");
    }
}

static void compare(const struct farm *f) {
    const struct trial *t = &f->trial;
    uint64_t code = f->code == HERD_DESK_CLOSED && f->at < t->book.len ? HERD_DESK_MORE_BYTES : f->code;
    if ((code << 32 | f->written) != t->wanted) {
        fail(f->line, "another number");
    }
    if (f->written != t->wanted_lines_len || memcmp(t->lines.bytes, t->wanted_lines, f->written) != 0) {
        fail(f->line, "other lines");
    }
    if (!all_are(t->lines.bytes + f->written, t->lines.len - f->written, FILL)) {
        fail(f->line, "a byte past those written was touched");
    }
}

static int serve(void *of) {
    struct desk *d = of;
    size_t open = d->last - d->first;
    while (open > 0) {
        size_t i = d->first + below(&d->seed, d->last - d->first);
        struct farm *f = &d->farms[i];
        uint8_t *image = d->images.bytes + i * HERD_IMAGE_BYTES;
        size_t left = f->trial.book.len - f->at, n = below(&d->seed, MOST_PART);
        if (f->done) {
            continue;
        }
        deal(f, image, n < left ? n : left);
        d->calls++;
        open -= (size_t)f->done;
        if (d->alone) {
            memcpy(d->shadow.bytes + i * HERD_IMAGE_BYTES, image, HERD_IMAGE_BYTES);
            if (memcmp(d->shadow.bytes, d->images.bytes, d->images.len) != 0) {
                fail(f->line, "another farm's image was touched");
            }
        }
    }
    return 0;
}

/* Serves the farms by one desk, or by two at once, each with half of them; gives the calls. */
static size_t serve_all(struct farm *farms, int threads) {
    struct guarded images = guarded_new(FARMS * HERD_IMAGE_BYTES, 3, FILL), shadow = guarded_new(FARMS * HERD_IMAGE_BYTES, 0, 0);
    struct desk desks[2] = {{images, shadow, farms, 0, FARMS, 0, 88172645463325252u, 1}, {images, shadow, farms, FARMS / 2, FARMS, 0, 362436069u, 0}};
    thrd_t other;
    for (size_t i = 0; i < FARMS; i++) {
        if (herd_start(images.bytes + i * HERD_IMAGE_BYTES, HERD_IMAGE_BYTES) != 0) {
            fail(0, "no start");
        }
    }
    if (!all_are(images.bytes, images.len, 0) || !guards_stand(&images)) {
        fail(0, "the image of no record is not zeros");
    }
    if (threads == 2) {
        desks[0].last = FARMS / 2;
        desks[0].alone = 0;
        if (thrd_create(&other, serve, &desks[1]) != thrd_success) {
            fail(0, "no thread");
        }
    }
    serve(&desks[0]);
    if (threads == 2) {
        thrd_join(other, NULL);
    }
    for (size_t i = 0; i < FARMS; i++) {
        compare(&farms[i]);
        deal_again(&farms[i], images.bytes + i * HERD_IMAGE_BYTES);
    }
    if (!guards_stand(&images)) {
        fail(0, "a guard byte of the images was touched");
    }
    free(images.whole);
    free(shadow.whole);
    return desks[0].calls + desks[1].calls;
}

/* Another length is 13: image, lines and guards stay, and nothing is taken. */
static void run_lengths(void) {
    const uint8_t part[2] = {0, 3};
    uint8_t line = FILL;
    for (size_t n = 0; n <= 2 * HERD_IMAGE_BYTES; n++) {
        struct guarded image = guarded_new(n, n % 8, 0);
        uint64_t taken = 77, right = n == HERD_IMAGE_BYTES ? 0 : (uint64_t)HERD_DESK_NO_IMAGE << 32;
        if (herd_start(image.bytes, n) != right || !all_are(image.bytes, n, 0) || !guards_stand(&image)) {
            fail(0, "herd_start on an image of another length");
        }
        if (n != HERD_IMAGE_BYTES && (herd_call(image.bytes, n, part, 2, &line, 1, &taken) != right || taken != 0)) {
            fail(0, "herd_call on an image of another length");
        }
        if (!all_are(image.bytes, n, 0) || !guards_stand(&image) || line != FILL) {
            fail(0, "an image of another length is touched");
        }
        free(image.whole);
    }
}

/* A farm's image with some bytes changed: 13 and all untouched, or another state's; gives how many were none. */
static size_t run_damaged(struct farm *f, uint64_t *seed) {
    uint8_t image[HERD_IMAGE_BYTES] = {0}, before[HERD_IMAGE_BYTES], lines[256];
    uint64_t taken = 77, got;
    size_t len = f->trial.book.len, n = len > 0 ? below(seed, len) : 0;
    uint8_t *room = allocate(HERD_DESK_LINES_MAX);
    herd_call(image, sizeof image, f->trial.book.bytes, n, room, HERD_DESK_LINES_MAX, &taken);
    free(room);
    for (uint64_t k = 1 + below(seed, 3); k > 0; k--) {
        image[below(seed, sizeof image)] = (uint8_t)below(seed, 256);
    }
    memcpy(before, image, sizeof image);
    memset(lines, FILL, sizeof lines);
    got = herd_call(image, sizeof image, f->trial.book.bytes + taken, len - taken, lines, sizeof lines, &taken);
    if (herd_desk_code(got) != HERD_DESK_NO_IMAGE) {
        return 0;
    }
    if (herd_desk_written(got) != 0 || taken != 0 || memcmp(before, image, sizeof image) != 0 || !all_are(lines, sizeof lines, FILL)) {
        fail(f->line, "an image that is no state's is touched");
    }
    return 1;
}

/* The next 400 books of the file, or fewer at its end. */
static size_t next_farms(FILE *file, size_t line, struct farm *farms) {
    size_t count = 0;
    while (count < FARMS && next_trial(file, line + count, &farms[count].trial)) {
        farms[count].line = line + count;
        farms[count].at = farms[count].written = 0;
        farms[count].done = 0;
        count++;
    }
    return count;
}

int main(int argc, char **argv) {
    static struct farm farms[FARMS];
    FILE *file = argc == 2 ? fopen(argv[1], "r") : NULL;
    if (file == NULL) {
        fputs("usage: farms BOOKS\n", stderr);
        return 2;
    }
    size_t served = 0, calls = 0, none = 0, count;
    uint64_t seed = 521288629u;
    run_lengths();
    while ((count = next_farms(file, served + 1, farms)) == FARMS) {
        calls += serve_all(farms, served / FARMS % 2 == 0 ? 1 : 2);
        served += count;
        for (size_t i = 0; i < FARMS; i++) {
            none += run_damaged(&farms[i], &seed);
            trial_free(&farms[i].trial);
        }
    }
    fclose(file);
    if (served < 2 * FARMS || none == 0) {
        fail(0, "too few books for 400 farms, by one desk and by two");
    }
    printf("%zu farms agree, 400 at a time, in %zu calls; %zu damaged images are told by 13 and untouched\n", served, calls, none);
    return 0;
}
