/* A plain C reader of the farm book, to measure against. */
#ifndef READER_H
#define READER_H

#include <stddef.h>
#include <stdint.h>

struct figures {
    uint64_t ch4, n2o;
    int64_t co2; /* below zero where tillage binds carbon */
    uint64_t excreted, land;
    uint64_t grazing; /* CO2e from the start */
};

struct heading {
    uint16_t group;
    uint8_t class;
    uint16_t head;
    uint16_t days[3]; /* of kinds 3, 4 and 5 */
    uint16_t grazed;  /* fractions of kind 10 */
};

enum stage { NO_RECORD, OPEN, CLOSED_BOOK, REFUSED_BOOK };

/* Starts all zero. */
struct reader {
    uint8_t stage;
    uint16_t records;
    uint16_t per_ch4, per_n2o; /* grams of CO2 that warm as much as a gram */
    struct heading heading;
    struct figures subtotal; /* of kinds 3 to 5 under the heading, so its CO2 and grazing stay 0 */
    struct figures sums;
    uint8_t code, field; /* of the refusal */
    uint8_t held_count;
    uint8_t held[28];
};

enum answer { MORE, FULL, CLOSED, REFUSED };

/* What one call gives beside the reader's new state. */
struct reply {
    enum answer answer;
    size_t taken, written;
};

struct reply reader_feed(struct reader *reader, const uint8_t *input, size_t input_len, uint8_t *lines, size_t lines_len);

/* The test of a state that document 01 asks of every call (13); reader_feed leaves it to its caller. */
int reader_in_range(const struct reader *reader);

/* As herd_desk: the whole book at once, or in parts of so many bytes. */
uint64_t plain_desk(const uint8_t *book, size_t book_len, uint8_t *lines, size_t lines_len);
uint64_t plain_parts(const uint8_t *book, size_t book_len, uint8_t *lines, size_t lines_len, size_t part);

/* The same, with the test of the state before each part. */
uint64_t tested_parts(const uint8_t *book, size_t book_len, uint8_t *lines, size_t lines_len, size_t part);

#endif
