/* host BOOKS: runs herd_desk on every book of the file and compares with what the second program says of it. */
#include "herd_desk.h"
#include "trials.h"

static void compare(const struct trial *t, const uint8_t *book_before, uint64_t got, size_t line) {
    size_t written = herd_desk_written(got);
    if (got != t->wanted) {
        fprintf(stderr, "host: %llx where %llx is right\n", (unsigned long long)got, (unsigned long long)t->wanted);
        fail(line, "another number");
    }
    if (written != t->wanted_lines_len || memcmp(t->lines.bytes, t->wanted_lines, written) != 0) {
        fail(line, "other lines");
    }
    if (!all_are(t->lines.bytes + written, t->lines.len - written, FILL)) {
        fail(line, "a byte past those written was touched");
    }
    if (!guards_stand(&t->lines) || !guards_stand(&t->book)) {
        fail(line, "a guard byte was touched");
    }
    if (memcmp(t->book.bytes, book_before, t->book.len) != 0) {
        fail(line, "the book was touched");
    }
}

static void run(struct trial *t, size_t line) {
    uint8_t *book_before = allocate(t->book.len);
    memcpy(book_before, t->book.bytes, t->book.len);
    uint64_t got = herd_desk(t->book.bytes, t->book.len, t->lines.bytes, t->lines.len);
    compare(t, book_before, got, line);
    free(book_before);
}

/* NULL is fine with length 0. */
static void run_null(void) {
    const uint8_t bad_length[2] = {0, 3};
    uint8_t line = FILL;
    if (herd_desk(NULL, 0, NULL, 0) != (uint64_t)HERD_DESK_UNFINISHED << 32) {
        fail(0, "no book and no buffer");
    }
    if (herd_desk(bad_length, 2, NULL, 0) != (uint64_t)HERD_DESK_NO_SUCH_LENGTH << 32) {
        fail(0, "a book and no buffer");
    }
    if (herd_desk(NULL, 0, &line, 1) != (uint64_t)HERD_DESK_UNFINISHED << 32 || line != FILL) {
        fail(0, "no book and a buffer");
    }
}

/* Below zero, at both ends, and above. */
static void run_signed(void) {
    const uint8_t words[5][8] = {{255, 255, 255, 255, 255, 253, 238, 87},
                                 {255, 255, 255, 255, 255, 255, 255, 255},
                                 {128},
                                 {127, 255, 255, 255, 255, 255, 255, 255},
                                 {0, 0, 0, 0, 0, 2, 17, 169}};
    const int64_t wanted[5] = {-135593, -1, INT64_MIN, INT64_MAX, 135593};
    for (int i = 0; i < 5; i++) {
        if (herd_desk_signed(words[i]) != wanted[i]) {
            fail(0, "another signed number");
        }
    }
}

int main(int argc, char **argv) {
    FILE *file = argc == 2 ? fopen(argv[1], "r") : NULL;
    if (file == NULL) {
        fputs("usage: host BOOKS\n", stderr);
        return 2;
    }
    size_t calls = 0, codes[HERD_DESK_MORE_BYTES + 1] = {0};
    struct trial t;
    run_null();
    run_signed();
    while (next_trial(file, calls + 1, &t)) {
        run(&t, ++calls);
        codes[herd_desk_code(t.wanted)]++;
        trial_free(&t);
    }
    fclose(file);
    if (calls == 0) {
        fail(0, "no books");
    }
    printf("host: %zu calls agree; by code:", calls);
    for (size_t code = 0; code <= HERD_DESK_MORE_BYTES; code++) {
        if (codes[code] > 0) {
            printf(" %zu: %zu", code, codes[code]);
        }
    }
    printf("\n");
    return 0;
}
