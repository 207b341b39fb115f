/* Shared by the two hosts: the second program's books, read from a file, and runs of bytes between guard bytes.

   A line of the file is `book room number lines`, bytes as hex or `-`, numbers in hex (docs/TRIALS.md). The book and the line
   buffer stand between guard bytes, at every alignment in turn. */
#ifndef TRIALS_H
#define TRIALS_H

#include <stdint.h>
#include <stdio.h>
#include <stdlib.h>
#include <string.h>

enum { GUARD = 64, GUARD_BYTE = 0xC3, FILL = 0xA5 };

/* A run of bytes between guards. */
struct guarded {
    uint8_t *whole;
    uint8_t *bytes;
    size_t len;
};

struct trial {
    struct guarded book;
    struct guarded lines;
    uint8_t *wanted_lines;
    size_t wanted_lines_len;
    uint64_t wanted;
};

static inline void fail(size_t line, const char *what) {
    fprintf(stderr, "host: line %zu: %s\n", line, what);
    exit(1);
}

static inline void *allocate(size_t size) {
    void *memory = malloc(size > 0 ? size : 1);
    if (memory == NULL) {
        fail(0, "no memory");
    }
    return memory;
}

static inline struct guarded guarded_new(size_t len, size_t shift, uint8_t fill) {
    struct guarded g = {allocate(len + 2 * GUARD + shift), NULL, len};
    memset(g.whole, GUARD_BYTE, len + 2 * GUARD + shift);
    g.bytes = g.whole + GUARD + shift;
    memset(g.bytes, fill, len);
    return g;
}

static inline int all_are(const uint8_t *bytes, size_t len, uint8_t value) {
    for (size_t i = 0; i < len; i++) {
        if (bytes[i] != value) {
            return 0;
        }
    }
    return 1;
}

static inline int guards_stand(const struct guarded *g) {
    return all_are(g->whole, (size_t)(g->bytes - g->whole), GUARD_BYTE) && all_are(g->bytes + g->len, GUARD, GUARD_BYTE);
}

static inline int digit(int c) {
    if (c >= '0' && c <= '9') {
        return c - '0';
    }
    return c >= 'a' && c <= 'f' ? c - 'a' + 10 : -1;
}

/* The next token of the file without its ending blank, or NULL at the end of the file. */
static inline char *token(FILE *file) {
    size_t len = 0, room = 64;
    char *text = allocate(room);
    int c = fgetc(file);
    if (c == EOF) {
        free(text);
        return NULL;
    }
    for (; c != ' ' && c != '\n' && c != EOF; c = fgetc(file)) {
        if (len + 1 == room) {
            room *= 2;
            text = realloc(text, room);
            if (text == NULL) {
                fail(0, "no memory");
            }
        }
        text[len++] = (char)c;
    }
    text[len] = 0;
    return text;
}

static inline size_t bytes_in(const char *text) {
    return strcmp(text, "-") == 0 ? 0 : strlen(text) / 2;
}

static inline void bytes_from(const char *text, uint8_t *bytes, size_t line) {
    size_t len = bytes_in(text);
    for (size_t i = 0; i < len; i++) {
        int high = digit(text[2 * i]), low = digit(text[2 * i + 1]);
        if (high < 0 || low < 0) {
            fail(line, "no hex");
        }
        bytes[i] = (uint8_t)(16 * high + low);
    }
}

/* Reads one line of the file; 0 at its end. */
static inline int next_trial(FILE *file, size_t line, struct trial *t) {
    char *book = token(file);
    if (book == NULL) {
        return 0;
    }
    char *room = token(file), *number = token(file), *lines = token(file);
    if (room == NULL || number == NULL || lines == NULL) {
        fail(line, "a token is missing");
    }
    t->book = guarded_new(bytes_in(book), line % 8, 0);
    bytes_from(book, t->book.bytes, line);
    t->lines = guarded_new(strtoull(room, NULL, 16), line / 8 % 8, FILL);
    t->wanted = strtoull(number, NULL, 16);
    t->wanted_lines_len = bytes_in(lines);
    t->wanted_lines = allocate(t->wanted_lines_len);
    bytes_from(lines, t->wanted_lines, line);
    free(book);
    free(room);
    free(number);
    free(lines);
    return 1;
}

static inline void trial_free(struct trial *t) {
    free(t->book.whole);
    free(t->lines.whole);
    free(t->wanted_lines);
}

#endif
