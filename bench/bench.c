/* The proved reader against the plain one, on the same books, in one process.

   bench time ROUNDS DETAILS PART..    checks that both agree, then takes their times in turns and prints the best of each
   bench count DETAILS BOOK PART       runs each once on one book (m, 3..7, 9 or 10), for an instruction count
   bench stack DETAILS                 prints the stack that each uses
   bench farms DETAILS PART            deals the books of 400 farms in turn, a part to each, for an instruction count: herd_call on images, and
                                       plain C on structs of its own, without and with a test of the struct before each call
   bench book DETAILS BOOK             writes the book's bytes, for bench/ports

   A book is read in parts of PART bytes; 0 stands for the whole book at once, by herd_desk itself. */
#include "../host/herd_desk.h"
#include "reader.h"

#include <stdio.h>
#include <stdlib.h>
#include <string.h>
#include <time.h>

enum { WHOLE = 0, PART = 64, LARGE = 1 << 18, STACK = 1 << 16, PAINT = 0x5A };

uint64_t bench_parts(const uint8_t *book, size_t book_len, uint8_t *lines, size_t lines_len, size_t part);

/* A book with what it is called. */
struct book {
    const char *name;
    uint8_t *bytes;
    size_t len, records;
};

typedef uint64_t reading(const struct book *book, uint8_t *lines, size_t part);

/* Noinline and by these names: an instruction counter finds them so. */
__attribute__((noinline)) uint64_t proved_reading(const struct book *book, uint8_t *lines, size_t part) {
    return part == WHOLE ? herd_desk(book->bytes, book->len, lines, LARGE)
                         : bench_parts(book->bytes, book->len, lines, LARGE, part);
}

__attribute__((noinline)) uint64_t plain_reading(const struct book *book, uint8_t *lines, size_t part) {
    return part == WHOLE ? plain_desk(book->bytes, book->len, lines, LARGE)
                         : plain_parts(book->bytes, book->len, lines, LARGE, part);
}

/* Plain C that tests its state before each part, as document 01 asks of every call. */
__attribute__((noinline)) uint64_t tested_reading(const struct book *book, uint8_t *lines, size_t part) {
    return part == WHOLE ? plain_desk(book->bytes, book->len, lines, LARGE)
                         : tested_parts(book->bytes, book->len, lines, LARGE, part);
}

/* One book on one image, a part a call. */
__attribute__((noinline)) uint64_t image_reading(const struct book *book, uint8_t *lines, size_t part) {
    uint8_t image[HERD_IMAGE_BYTES] = {0};
    uint64_t number = 0, taken;
    size_t at = 0, written = 0;
    while (at < book->len) {
        size_t left = book->len - at;
        number = herd_call(image, sizeof image, book->bytes + at, part == WHOLE || left < part ? left : part, lines + written, LARGE - written, &taken);
        at += taken;
        written += herd_desk_written(number);
        if (herd_desk_code(number) != HERD_DESK_UNFINISHED) {
            break;
        }
    }
    return (uint64_t)herd_desk_code(number) << 32 | written;
}

static uint64_t seed = 88172645463325252u;

static uint64_t below(uint64_t n) {
    seed ^= seed << 13;
    seed ^= seed >> 7;
    seed ^= seed << 17;
    return (seed >> 20) % n;
}

static void put(struct book *b, unsigned width, uint64_t value) {
    for (unsigned i = width; i-- > 0;) {
        b->bytes[b->len++] = (uint8_t)(value >> (8 * i));
    }
}

static void start_record(struct book *b, unsigned kind) {
    static const uint8_t lengths[11] = {0, 9, 7, 10, 20, 26, 11, 6, 4, 11, 8};
    put(b, 2, lengths[kind]);
    put(b, 1, 1);
    put(b, 1, kind);
    b->records++;
}

/* Fields of two bytes, each from 0 to its highest. */
static void put_fields(struct book *b, const uint16_t *highest, unsigned count) {
    for (unsigned i = 0; i < count; i++) {
        put(b, 2, below(highest[i] + 1u));
    }
}

static void put_cattle(struct book *b) {
    static const uint16_t highest[3] = {3000, 300, 1000};
    uint64_t solid = below(5001), liquid = below(5001);
    put(b, 2, 4000 + below(1001));
    put(b, 2, 3000 + below(1001));
    put_fields(b, highest, 3);
    put(b, 2, solid);
    put(b, 2, liquid);
    put(b, 2, 10000 - solid - liquid);
}

static void put_detail(struct book *b, unsigned kind) {
    static const uint16_t pig_highest[11] = {1000, 5000, 2000, 1000, 4000, 2000, 10000, 500, 10000, 500, 10000};
    start_record(b, kind);
    if (kind <= 5) {
        put(b, 2, 1 + below(7));
    }
    if (kind == 3) {
        put(b, 4, below(100001));
        put(b, 2, below(2001));
    } else if (kind == 4) {
        put_cattle(b);
    } else if (kind == 5) {
        put_fields(b, pig_highest, 11);
    } else if (kind == 6) {
        put(b, 1, 1 + below(8));
        put(b, 4, below(10000001));
        put(b, 4, below(10000001));
    } else if (kind == 9) {
        put(b, 1, 1 + below(9));
        put(b, 1, 1 + below(3));
        put(b, 1, 1 + below(6));
        put(b, 2, 1 + below(100));
        put(b, 4, below(10000001));
    } else if (kind == 10) {
        put(b, 1, 1 + below(7));
        put(b, 1, 1 + below(3));
        put(b, 2, below(2001));
        put(b, 2, below(1001));
    } else {
        put(b, 4, below(10000001));
    }
}

static void put_heading(struct book *b, unsigned group, unsigned class) {
    start_record(b, 2);
    put(b, 2, group);
    put(b, 1, class);
    put(b, 2, below(20001));
}

/* Groups of ten records under a heading: one kind alone, or where `kind` is 0 kinds 3 to 7 as the heading allows;
   kinds 9 and 10 have books of their own. */
static struct book make_book(const char *name, unsigned kind, unsigned details) {
    struct book b = {name, malloc(LARGE), 0, 0};
    unsigned class = 1;
    if (b.bytes == NULL) {
        exit(2);
    }
    start_record(&b, 1);
    put(&b, 4, 7);
    put(&b, 2, 2010);
    put(&b, 1, 1);
    for (unsigned i = 0; i < details; i++) {
        if (i % 10 == 0) {
            class = kind == 5 || (kind == 0 && below(3) == 0) ? 4 : 1;
            put_heading(&b, 1 + i / 10, class);
        }
        static const uint8_t under_cattle[4] = {3, 4, 6, 7}, under_pigs[4] = {5, 5, 6, 7};
        unsigned drawn = class == 4 ? under_pigs[below(4)] : under_cattle[below(4)];
        put_detail(&b, kind == 0 ? drawn : kind);
    }
    start_record(&b, 8);
    put(&b, 2, b.records - 1);
    return b;
}

static uint8_t proved_lines[LARGE], plain_lines[LARGE];

/* What a reading in such parts is called: parts of 64 bytes are `parts` alone. */
static const char *mode_of(size_t part) {
    static char name[32];
    if (part == WHOLE || part == PART) {
        return part == WHOLE ? "whole" : "parts";
    }
    snprintf(name, sizeof name, "parts-%zu", part);
    return name;
}

/* Whether a reading gives what plain C has given. */
static void check_one(reading *read, const struct book *book, size_t part, uint64_t by_plain) {
    memset(proved_lines, PAINT, LARGE);
    uint64_t by_read = read(book, proved_lines, part);
    if (by_read != by_plain || memcmp(proved_lines, plain_lines, LARGE) != 0 || herd_desk_code(by_plain) != 0) {
        fprintf(stderr, "bench: %s, %s: different answers, %llx and %llx\n", book->name, mode_of(part), (unsigned long long)by_read,
                (unsigned long long)by_plain);
        exit(1);
    }
}

static void check_agreement(const struct book *book, size_t part) {
    memset(plain_lines, PAINT, LARGE);
    uint64_t by_plain = plain_reading(book, plain_lines, part);
    check_one(proved_reading, book, part, by_plain);
    check_one(tested_reading, book, part, by_plain);
    check_one(image_reading, book, part, by_plain);
}

static double now_ns(void) {
    struct timespec t;
    clock_gettime(CLOCK_MONOTONIC, &t);
    return (double)t.tv_sec * 1e9 + (double)t.tv_nsec;
}

static double time_of(reading *read, const struct book *book, uint8_t *lines, size_t part) {
    double before = now_ns();
    read(book, lines, part);
    return now_ns() - before;
}

/* In turns, the best of all rounds: other work on the machine then hits all alike. */
static void compare_times(const struct book *book, size_t part, int rounds) {
    double best_proved = 1e30, best_plain = 1e30, best_tested = 1e30, records = (double)book->records;
    check_agreement(book, part);
    for (int i = 0; i < rounds; i++) {
        double by_proved = time_of(proved_reading, book, proved_lines, part);
        double by_plain = time_of(plain_reading, book, plain_lines, part);
        double by_tested = time_of(tested_reading, book, plain_lines, part);
        best_proved = by_proved < best_proved ? by_proved : best_proved;
        best_plain = by_plain < best_plain ? by_plain : best_plain;
        best_tested = by_tested < best_tested ? by_tested : best_tested;
    }
    printf("%-7s %-10s %7.1f ns a record, plain C %7.1f, ratio %.2f; testing its state %7.1f, ratio %.2f\n", book->name, mode_of(part),
           best_proved / records, best_plain / records, best_proved / best_plain, best_tested / records, best_proved / best_tested);
}

/* A system call that does not exist: the emulator's log is cut there. */
static void mark(void) {
    long result;
    __asm__ volatile("syscall" : "=a"(result) : "a"(9999L) : "rcx", "r11", "memory");
}

/* Each has run once before, so that no loading of functions is counted. */
static void run_once(const struct book *book, size_t part) {
    size_t calls = part == WHOLE ? 1 : (book->len + part - 1) / part;
    check_agreement(book, part);
    mark();
    proved_reading(book, proved_lines, part);
    mark();
    plain_reading(book, plain_lines, part);
    mark();
    tested_reading(book, plain_lines, part);
    mark();
    image_reading(book, proved_lines, part);
    mark();
    printf("%s %s: %zu records %zu calls\n", book->name, mode_of(part), book->records, calls);
}

static __attribute__((noinline)) void paint_stack(void) {
    volatile uint8_t deep[STACK];
    for (size_t i = 0; i < STACK; i++) {
        deep[i] = PAINT;
    }
}

/* How far up from the painted stack's far end the paint still stands. */
static __attribute__((noinline)) size_t stack_touched(void) {
    volatile uint8_t deep[STACK];
    size_t untouched = 0;
    while (untouched < STACK && deep[untouched] == PAINT) {
        untouched++;
    }
    return STACK - untouched;
}

static size_t stack_of(reading *read, const struct book *book, size_t part) {
    read(book, proved_lines, part);
    paint_stack();
    read(book, proved_lines, part);
    return stack_touched();
}

static void print_stacks(const struct book *book) {
    static const size_t parts[2] = {WHOLE, PART};
    printf("state   plain C %zu bytes\n", sizeof(struct reader));
    for (int i = 0; i < 2; i++) {
        printf("stack   %s   %zu bytes, plain C %zu\n", mode_of(parts[i]), stack_of(proved_reading, book, parts[i]),
               stack_of(plain_reading, book, parts[i]));
    }
}

enum { FARMS = 400 };

static uint8_t images[FARMS][HERD_IMAGE_BYTES];
static struct reader readers[FARMS];

typedef struct reply farm_call(size_t farm, const uint8_t *part, size_t part_len, uint8_t *lines, size_t lines_len);

static inline struct reply call_image(size_t farm, const uint8_t *part, size_t part_len, uint8_t *lines, size_t lines_len) {
    uint64_t taken, number = herd_call(images[farm], HERD_IMAGE_BYTES, part, part_len, lines, lines_len, &taken);
    return (struct reply){herd_desk_code(number) == HERD_DESK_UNFINISHED ? MORE : CLOSED, taken, herd_desk_written(number)};
}

static inline struct reply call_plain(size_t farm, const uint8_t *part, size_t part_len, uint8_t *lines, size_t lines_len) {
    return reader_feed(&readers[farm], part, part_len, lines, lines_len);
}

static inline struct reply call_tested(size_t farm, const uint8_t *part, size_t part_len, uint8_t *lines, size_t lines_len) {
    if (!reader_in_range(&readers[farm])) {
        return (struct reply){REFUSED, 0, 0};
    }
    return reader_feed(&readers[farm], part, part_len, lines, lines_len);
}

/* A part to each farm in turn, until every book is read; gives the bytes written. */
static inline __attribute__((always_inline)) size_t serve(farm_call *call, const struct book *books, uint8_t *lines, size_t room, size_t part) {
    size_t at[FARMS] = {0}, written[FARMS] = {0}, open = FARMS, total = 0;
    while (open > 0) {
        open = 0;
        for (size_t i = 0; i < FARMS; i++) {
            size_t left = books[i].len - at[i];
            if (left > 0) {
                struct reply r = call(i, books[i].bytes + at[i], left < part ? left : part, lines + i * room + written[i], room - written[i]);
                at[i] += r.taken;
                written[i] += r.written;
                total += r.written;
                open += r.answer == MORE;
            }
        }
    }
    return total;
}

__attribute__((noinline)) size_t proved_farms(const struct book *books, uint8_t *lines, size_t room, size_t part) {
    memset(images, 0, sizeof images);
    return serve(call_image, books, lines, room, part);
}

__attribute__((noinline)) size_t plain_farms(const struct book *books, uint8_t *lines, size_t room, size_t part) {
    memset(readers, 0, sizeof readers);
    return serve(call_plain, books, lines, room, part);
}

__attribute__((noinline)) size_t tested_farms(const struct book *books, uint8_t *lines, size_t room, size_t part) {
    memset(readers, 0, sizeof readers);
    return serve(call_tested, books, lines, room, part);
}

/* Each twice: a run to check agreement, and one between marks. */
static void run_farms(unsigned details, size_t part) {
    static struct book books[FARMS];
    size_t room = (size_t)details * 2 * 54 + HERD_CALL_ROOM, records = 0, calls = 0;
    uint8_t *lines = calloc(FARMS, room), *wanted = calloc(FARMS, room);
    if (lines == NULL || wanted == NULL) {
        exit(2);
    }
    for (size_t i = 0; i < FARMS; i++) {
        books[i] = make_book("farm", 0, details);
        books[i].bytes = realloc(books[i].bytes, books[i].len);
        records += books[i].records;
        calls += (books[i].len + part - 1) / part;
    }
    size_t written = plain_farms(books, wanted, room, part);
    if (proved_farms(books, lines, room, part) != written || memcmp(lines, wanted, FARMS * room) != 0 ||
        tested_farms(books, lines, room, part) != written || memcmp(lines, wanted, FARMS * room) != 0) {
        fputs("bench: farms: different answers\n", stderr);
        exit(1);
    }
    mark();
    proved_farms(books, lines, room, part);
    mark();
    plain_farms(books, lines, room, part);
    mark();
    tested_farms(books, lines, room, part);
    mark();
    printf("farms %s: %zu records %zu calls\n", mode_of(part), records, calls);
}

static struct book book_named(const char *name, unsigned details) {
    static const char *names[11] = {"mixed", NULL, NULL, "kind 3", "kind 4", "kind 5", "kind 6", "kind 7", NULL, "kind 9", "kind 10"};
    int kind = atoi(name);
    if (kind < 0 || kind > 10 || names[kind] == NULL) {
        fprintf(stderr, "bench: there is no book %s\n", name);
        exit(2);
    }
    return make_book(names[kind], (unsigned)kind, details);
}

/* Every book in each of the parts, whose words end with NULL. */
static void time_all(int rounds, unsigned details, char **parts) {
    static const char *names[] = {"m", "3", "4", "5", "6", "7", "9", "10"};
    for (size_t i = 0; i < sizeof names / sizeof *names; i++) {
        struct book book = book_named(names[i], details);
        for (char **part = parts; *part; part++) {
            compare_times(&book, (size_t)atoi(*part), rounds);
        }
        free(book.bytes);
    }
}

int main(int argc, char **argv) {
    if (argc > 4 && strcmp(argv[1], "time") == 0) {
        time_all(atoi(argv[2]), (unsigned)atoi(argv[3]), argv + 4);
    } else if (argc == 5 && strcmp(argv[1], "count") == 0) {
        struct book book = book_named(argv[3], (unsigned)atoi(argv[2]));
        run_once(&book, (size_t)atoi(argv[4]));
        free(book.bytes);
    } else if (argc == 4 && strcmp(argv[1], "farms") == 0) {
        run_farms((unsigned)atoi(argv[2]), (size_t)atoi(argv[3]));
    } else if (argc == 4 && strcmp(argv[1], "book") == 0) {
        struct book book = book_named(argv[3], (unsigned)atoi(argv[2]));
        if (fwrite(book.bytes, 1, book.len, stdout) != book.len) {
            return 1;
        }
        free(book.bytes);
    } else if (argc == 3 && strcmp(argv[1], "stack") == 0) {
        struct book book = book_named("m", (unsigned)atoi(argv[2]));
        print_stacks(&book);
        free(book.bytes);
    } else {
        fputs("usage: bench time ROUNDS DETAILS PART.. | count DETAILS BOOK PART | stack DETAILS | farms DETAILS PART | book DETAILS BOOK\n", stderr);
        return 2;
    }
    return 0;
}
