/* The herd desk: a whole farm book in, lines out, one number back (herd_desk); or many farms at a time, each with an image of its
   state in bytes that the caller owns, and a part of its book in each call (herd_start, herd_call).

   Link with libdesk.a, which is for x86-64 and the System V calling convention; it wants nothing but memcpy and memset.

   herd_desk reads `book_len` bytes at `book`, writes lines from the start of `lines`, never more than `lines_len` bytes, and
   gives back code × 2^32 + bytes written. The codes have names below; herd_desk_code and herd_desk_written take the number
   apart, and herd_desk_words gives a code's words, for people. docs/FORMAT.md has the rules, and what to do about each number.

   herd_desk starts every book from no record: nothing is kept from one call to the next, and calls may run side by side.

   Many farms.  A farm's state is HERD_IMAGE_BYTES bytes, its image, which the caller keeps wherever it likes: an array, a file, a row
   of a table. An image may lie at any address, may be copied and stored, and has no pointers. The image of a farm without a
   record is all zeros, so a cleared array needs no herd_start. Each state has one image: two farms are in the same state exactly
   where their images are the same bytes.

       herd_start(image, image_len)    lays out the state of no record
       herd_call(image, image_len, part, part_len, lines, lines_len, &taken)
                                       reads the next part of the farm's book, of any size, and leaves the image of the state after it

   herd_call gives code × 2^32 + bytes written, and sets *taken, always. Its codes:

       17 (more)     the whole part is taken; call again with what comes next. A cut record is kept in the image
       16 (full)     the next record's lines do not fit: take the lines away, and call again with the part from *taken on. With 116
                     bytes of room (HERD_CALL_ROOM) a call that has a byte always takes one
       0 (closed)    the close is in; *taken is short where bytes stand behind it (there is no 18)
       1 to 12       refused; *taken counts the byte that decides it
       13            no image: another length than HERD_IMAGE_BYTES, or bytes that no state has. It is tried first; image, lines and part
                     are untouched and *taken is 0. herd_start gives 13 for a wrong length alone

   A closed or refused image gives its code again, takes nothing and writes nothing. However a book is cut into parts, and whatever
   the rooms are, the lines one after the other and the last code are those of herd_desk on the whole book, where herd_desk has room for
   all lines; but where bytes stand after the close the code is 0, and not 18.

   The layout, each number big-endian:

       bytes 0..26     the held bytes of an unfinished record, zeros behind them; byte 27 how many
       byte  28        stage: 0 no record yet, 1 open, 2 closed, 3 refused
       bytes 29..34    records accepted; CH4 factor; N2O factor; 2 bytes each
       bytes 35..39    heading: group 2, class 1, head 2
       bytes 40..47    its days of kinds 3, 4 and 5, and its grazed fraction, 2 bytes each
       bytes 48..79    its subtotal: CH4, N2O, excreted nitrogen, nitrogen for land, 8 bytes each
       bytes 80..127   the sums: CH4, N2O, CO2 (signed, herd_desk_signed), excreted, land, grazing, 8 bytes each
       bytes 128..131  the refusal: code 1, records accepted before it 2, field 1

   Calls on different images may run side by side; two calls on one image may not.

   Lines.  A detail record (enteric, cattle nitrogen, pig, energy, soil, tillage, grazing) gives a line of 54 bytes, the close a
   total of 62. Where a group ends, at the next heading or at the close, a subtotal of 54 bytes comes first: the heading then gives
   54 bytes in all, the close 116. The first heading gives nothing, and without any heading the close gives its 62 bytes alone.
   All numbers are big-endian. They are unsigned, but for CO2 and CO2e, which are below zero where less tillage binds more carbon
   than all else sets free: these are in two's complement, and herd_desk_signed takes them from their bytes.

       bytes 0..1    length of what follows: 52, or 60 for the total
       byte  2       version 1
       byte  3       kind: 3 to 7, 9 and 10 for a detail record, 16 for a subtotal, 8 for the total
       bytes 4..5    group, for a subtotal that of the group that ends; 0 for kinds 6 to 9
       bytes 6..45   grams of CH4, N2O, CO2 (bytes 22..29, signed), excreted nitrogen, nitrogen for land, 8 bytes each
       bytes 46..53  grams of CO2e of grazing, which is in no gas
       bytes 54..61  for the total: grams of CO2e (signed), with that of grazing

   A subtotal's grams are the sums over the group's records of kinds 3 to 5, all zero where it has none, and its CO2 and
   grazing are always 0; energy, soil and tillage belong to the farm. The total's grams are the sums over all detail records:
   subtotals are not added again.

   Lines given before a refusal, a full buffer or a missing close stay in the buffer and are counted. Only whole lines are
   written, and a close's subtotal never without its total. Bytes of the buffer past those written are untouched.

   Sizes.  A book has at most 4,096 records, a farm record and the close among them. Each detail record gives 54 bytes, and so does
   each heading, sooner or later, by its group's subtotal. So 4,094 × 54 bytes and the total's 62 always suffice:
   HERD_DESK_LINES_MAX. (A book without a close can have 4,095 × 54, which is 8 bytes less.) For a book of n bytes so do
   n / 8 × 54 + 62, since neither heading nor detail record is shorter than 8 bytes.

   Pointers.  All must be good for their lengths, `taken` for one number. NULL is fine with length 0, but not for `taken`. No two
   of them may overlap. Book and part are not changed. Nothing is allocated, no file is touched, and every call ends.

   host/example.c is a whole program for one book, host/many.c one that serves many farms; README.md has the lines that build one.
*/
#ifndef HERD_DESK_H
#define HERD_DESK_H

#include <stddef.h>
#include <stdint.h>

#ifdef __cplusplus
extern "C" {
#endif

/* The codes: 0, the numbers of refusals, and what a whole book can come to besides. */
enum {
    HERD_DESK_CLOSED = 0,               /* the book is right: it ends with its close */
    HERD_DESK_NO_SUCH_LENGTH = 1,       /* refused: a length that no record has */
    HERD_DESK_OTHER_VERSION = 2,        /* refused: neither version 1, nor 2 of a farm record */
    HERD_DESK_NO_SUCH_KIND = 3,         /* refused: no such kind of record, which is 1 to 10 */
    HERD_DESK_WRONG_LENGTH = 4,         /* refused: another length than the kind's */
    HERD_DESK_TOO_MANY_RECORDS = 5,     /* refused: more than 4,096 records */
    HERD_DESK_OUT_OF_PLACE = 6,         /* refused: a record out of its place */
    HERD_DESK_OUT_OF_RANGE = 7,         /* refused: a value out of its range */
    HERD_DESK_GROUP_NOT_ABOVE = 8,      /* refused: a group number not above that before */
    HERD_DESK_TOO_MANY_DAYS = 9,        /* refused: more than 366 days of a kind under a heading */
    HERD_DESK_WRONG_SHARES = 10,        /* refused: cattle shares or pig parts that do not add up, or too much grazing under a heading */
    HERD_DESK_NITROGEN_BELOW_ZERO = 11, /* refused: more nitrogen in milk and gain than in the feed */
    HERD_DESK_WRONG_COUNT = 12,         /* refused: the close counts other records than there are before it */
    HERD_DESK_NO_IMAGE = 13,            /* refused: the image is of another length, or no state's */
    HERD_DESK_FULL = 16,                /* no room: the lines of the next record do not fit */
    HERD_DESK_UNFINISHED = 17,          /* the bytes end before the close */
    HERD_DESK_MORE_BYTES = 18           /* the book is closed, and bytes stand behind its close */
};

/* The most bytes of a book, 4,096 records of 28 bytes, and room for the lines of any book. */
#define HERD_DESK_BOOK_MAX (4096 * 28)
#define HERD_DESK_LINES_MAX (4094 * 54 + 62)

/* The bytes of an image, and room in which a call that has a byte always takes one: a subtotal and the total. */
#define HERD_IMAGE_BYTES 132
#define HERD_CALL_ROOM (54 + 62)

uint64_t herd_desk(const uint8_t *book, size_t book_len, uint8_t *lines, size_t lines_len);

/* 0, or 13 × 2^32 where image_len is not HERD_IMAGE_BYTES. */
uint64_t herd_start(uint8_t *image, size_t image_len);

/* Code × 2^32 + bytes written; *taken = bytes taken. */
uint64_t herd_call(uint8_t *image, size_t image_len, const uint8_t *part, size_t part_len, uint8_t *lines, size_t lines_len,
                   uint64_t *taken);

static inline uint32_t herd_desk_code(uint64_t answer) {
    return (uint32_t)(answer >> 32);
}

static inline size_t herd_desk_written(uint64_t answer) {
    return (size_t)(answer & 0xffffffff);
}

/* The number in some bytes. */
static inline uint64_t herd_desk_number(const uint8_t *bytes, int count) {
    uint64_t word = 0;
    for (int i = 0; i < count; i++) {
        word = word << 8 | bytes[i];
    }
    return word;
}

/* The grams of CO2 or CO2e at eight bytes of a line: of CO2 at line + 22, of a total's CO2e at line + 54. */
static inline int64_t herd_desk_signed(const uint8_t *bytes) {
    uint64_t word = herd_desk_number(bytes, 8);
    return word <= INT64_MAX ? (int64_t)word : -(int64_t)(UINT64_MAX - word) - 1;
}

/* A line: its bytes, kind and group, and its grams. Of CO2e there is one in the total alone, whose kind is 8. */
static inline size_t herd_line_bytes(const uint8_t *line) { return 2 + (size_t)herd_desk_number(line, 2); }
static inline unsigned herd_line_kind(const uint8_t *line) { return line[3]; }
static inline unsigned herd_line_group(const uint8_t *line) { return (unsigned)herd_desk_number(line + 4, 2); }
static inline uint64_t herd_line_ch4(const uint8_t *line) { return herd_desk_number(line + 6, 8); }
static inline uint64_t herd_line_n2o(const uint8_t *line) { return herd_desk_number(line + 14, 8); }
static inline int64_t herd_line_co2(const uint8_t *line) { return herd_desk_signed(line + 22); }
static inline uint64_t herd_line_excreted(const uint8_t *line) { return herd_desk_number(line + 30, 8); }
static inline uint64_t herd_line_land(const uint8_t *line) { return herd_desk_number(line + 38, 8); }
static inline uint64_t herd_line_grazing(const uint8_t *line) { return herd_desk_number(line + 46, 8); }
static inline int64_t herd_line_co2e(const uint8_t *total) { return herd_desk_signed(total + 54); }

/* The refusal in an image: its code, 0 where the book is not refused, the records accepted before it, and the field, 0 but for code 7. */
static inline uint32_t herd_image_code(const uint8_t *image) { return image[128]; }
static inline unsigned herd_image_accepted(const uint8_t *image) { return (unsigned)herd_desk_number(image + 129, 2); }
static inline unsigned herd_image_field(const uint8_t *image) { return image[131]; }

/* The words of a code; they are never freed, and have no line's end. */
static inline const char *herd_desk_words(uint32_t code) {
    switch (code) {
    case HERD_DESK_CLOSED: return "closed";
    case HERD_DESK_NO_SUCH_LENGTH: return "a length that no record has: it is 4 to 26";
    case HERD_DESK_OTHER_VERSION: return "the version is not 1, nor 2 of a farm record";
    case HERD_DESK_NO_SUCH_KIND: return "no such kind of record: kinds are 1 to 10";
    case HERD_DESK_WRONG_LENGTH: return "a wrong length or count of values";
    case HERD_DESK_TOO_MANY_RECORDS: return "the book has 4096 records, and no more go in";
    case HERD_DESK_OUT_OF_PLACE: return "out of its place: the one farm record is first; "
                                    "enteric, cattle and grazing need a milking, dry or heifer heading, pig a pig heading";
    case HERD_DESK_OUT_OF_RANGE: return "a value is out of its range";
    case HERD_DESK_GROUP_NOT_ABOVE: return "the group number must be above that of the heading before";
    case HERD_DESK_TOO_MANY_DAYS: return "more than 366 days of this kind under the heading";
    case HERD_DESK_WRONG_SHARES: return "cattle shares must be 100.00 per cent together, grazing fractions under a heading at most that; "
                                    "a pig's volatilised and leached parts at most 1.000";
    case HERD_DESK_NITROGEN_BELOW_ZERO: return "more nitrogen in milk and gain than in the feed";
    case HERD_DESK_WRONG_COUNT: return "the close counts other records than there are before it; left out, the count is filled in";
    case HERD_DESK_NO_IMAGE: return "the image is no state's";
    case HERD_DESK_FULL: return "no room";
    case HERD_DESK_UNFINISHED: return "the bytes end before the close";
    case HERD_DESK_MORE_BYTES: return "bytes stand after the close";
    default: return "no such number";
    }
}

#ifdef __cplusplus
}
#endif
#endif
