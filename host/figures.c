/* figures: lists the lines of a book on standard input by herd_desk.h's functions, as the lister does, or why herd_call refuses it. */
#include "herd_desk.h"

#include <inttypes.h>
#include <stdio.h>

static uint8_t book[HERD_DESK_BOOK_MAX + 1], lines[HERD_DESK_LINES_MAX], image[HERD_IMAGE_BYTES];

static void put_line(const uint8_t *line) {
    printf("%u %u %" PRIu64 " %" PRIu64 " %" PRId64 " %" PRIu64 " %" PRIu64 " %" PRIu64, herd_line_kind(line), herd_line_group(line),
           herd_line_ch4(line), herd_line_n2o(line), herd_line_co2(line), herd_line_excreted(line), herd_line_land(line),
           herd_line_grazing(line));
    if (herd_line_kind(line) == 8) {
        printf(" %" PRId64, herd_line_co2e(line));
    }
    putchar('\n');
}

int main(void) {
    uint64_t taken, answer;
    size_t many = fread(book, 1, sizeof book, stdin), at = 0;
    answer = herd_call(image, sizeof image, book, many, lines, sizeof lines, &taken);
    for (; at < herd_desk_written(answer); at += herd_line_bytes(lines + at)) {
        put_line(lines + at);
    }
    if (herd_image_code(image) != 0) {
        printf("refused %u %u %u\n", herd_image_code(image), herd_image_accepted(image), herd_image_field(image));
    }
    return fflush(stdout) != 0;
}
