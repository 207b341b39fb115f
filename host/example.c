/* example: reads a book on standard input and writes its line records on standard output; what is wrong with the book is told on standard error. */
#include "herd_desk.h"

#include <stdio.h>

static uint8_t book[HERD_DESK_BOOK_MAX + 1], lines[HERD_DESK_LINES_MAX];

int main(void) {
    size_t book_len = fread(book, 1, sizeof book, stdin);
    if (ferror(stdin)) {
        perror("standard input");
        return 1;
    }
    uint64_t answer = herd_desk(book, book_len, lines, sizeof lines);
    uint32_t code = herd_desk_code(answer);
    if (code != HERD_DESK_CLOSED) {
        fprintf(stderr, "not a right book: %u: %s\n", (unsigned)code, herd_desk_words(code));
        return 1;
    }
    size_t written = herd_desk_written(answer);
    if (fwrite(lines, 1, written, stdout) != written || fflush(stdout) != 0) {
        perror("standard output");
        return 1;
    }
    return 0;
}
