/* The farm book as a careful C programmer would read it: records are judged where they lie in the input, and only one that is cut
   by the input's end is gathered first. Products are ordered so that none passes 64 bits; nothing is doubled to round. */
#include "reader.h"

#include <string.h>

enum { MOST_RECORDS = 4096, DETAIL_LINE = 54, TOTAL_LINE = 62, SUBTOTAL = 16 };

/* A fault is a refusal's code with its field above it; no fault is 0. */
#define FAULT(code) (code)
#define OUT_OF_RANGE(field) (7 | (field) << 8)

static const uint8_t lengths[11] = {0, 9, 7, 10, 20, 26, 11, 6, 4, 11, 8};

/* Of a farm record of version 2. */
enum { FACTORS_LENGTH = 12 };

static uint64_t be16(const uint8_t *p) {
    return (uint64_t)p[0] << 8 | p[1];
}

static uint64_t be32(const uint8_t *p) {
    return be16(p) << 16 | be16(p + 2);
}

static void put16(uint8_t *p, uint64_t v) {
    p[0] = (uint8_t)(v >> 8);
    p[1] = (uint8_t)v;
}

/* One swapped word: stores of single bytes are not always joined by the compiler, and would flatter whoever is compared. */
static void put64(uint8_t *p, uint64_t v) {
    uint64_t swapped = __builtin_bswap64(v);
    memcpy(p, &swapped, sizeof swapped);
}

/* Nearest whole number, a half going to the even one. */
static uint64_t rounded(uint64_t n, uint64_t d) {
    uint64_t whole = n / d, rest = n % d;
    return whole + (rest + (whole & 1) > d - rest);
}

/* The 2-byte fields of kinds 4 and 5: days first, the others from 0 up to their highest. */
static int read_fields(const uint8_t *p, const uint16_t *highest, int count, uint64_t *v) {
    for (int i = 0; i < count; i++) {
        v[i] = be16(p + 2 * i);
        if (v[i] > highest[i] || (i == 0 && v[i] == 0)) {
            return OUT_OF_RANGE(i + 1);
        }
    }
    return 0;
}

/* Version 2 has the two factors, version 1 a set. */
static int farm(struct reader *r, unsigned version, const uint8_t *p) {
    uint64_t year = be16(p + 4);
    if (year < 1900 || year > 2200) {
        return OUT_OF_RANGE(2);
    }
    if (version == 2) {
        uint64_t ch4 = be16(p + 6), n2o = be16(p + 8);
        if (ch4 < 1 || ch4 > 1000) {
            return OUT_OF_RANGE(3);
        }
        if (n2o < 1 || n2o > 1000) {
            return OUT_OF_RANGE(4);
        }
        r->per_ch4 = (uint16_t)ch4;
        r->per_n2o = (uint16_t)n2o;
    } else {
        if (p[6] < 1 || p[6] > 2) {
            return OUT_OF_RANGE(3);
        }
        r->per_ch4 = p[6] == 1 ? 21 : 23;
        r->per_n2o = p[6] == 1 ? 310 : 296;
    }
    r->stage = OPEN;
    return 0;
}

static int heading(const struct reader *r, const uint8_t *p, struct heading *h) {
    uint64_t group = be16(p), head = be16(p + 3);
    if (group == 0) {
        return OUT_OF_RANGE(1);
    }
    if (p[2] < 1 || p[2] > 4) {
        return OUT_OF_RANGE(2);
    }
    if (head > 20000) {
        return OUT_OF_RANGE(3);
    }
    if (group <= r->heading.group) {
        return FAULT(8);
    }
    *h = (struct heading){(uint16_t)group, p[2], (uint16_t)head, {0, 0, 0}, 0};
    return 0;
}

static int enteric(const struct reader *r, const uint8_t *p, struct figures *f, uint64_t *days) {
    uint64_t ge = be32(p + 2), ym = be16(p + 6);
    *days = be16(p);
    if (*days < 1 || *days > 366) {
        return OUT_OF_RANGE(1);
    }
    if (ge > 100000) {
        return OUT_OF_RANGE(2);
    }
    if (ym > 2000) {
        return OUT_OF_RANGE(3);
    }
    if (r->heading.days[0] + *days > 366) {
        return FAULT(9);
    }
    f->ch4 = rounded(ge * ym * r->heading.head * *days, 55650);
    return 0;
}

static int cattle(const struct reader *r, const uint8_t *p, struct figures *f, uint64_t *days) {
    static const uint16_t highest[9] = {366, 5000, 4000, 8000, 800, 3000, 10000, 10000, 10000};
    uint64_t v[9];
    int fault = read_fields(p, highest, 9, v);
    if (fault) {
        return fault;
    }
    uint64_t solid = v[6], liquid = v[7], pasture = v[8];
    *days = v[0];
    if (r->heading.days[1] + *days > 366) {
        return FAULT(9);
    }
    if (solid + liquid + pasture != 10000) {
        return FAULT(10);
    }
    uint64_t eaten = 160 * v[1] * v[2], kept = 157 * v[3] * v[4] + 27000 * v[5];
    if (eaten < kept) {
        return FAULT(11);
    }
    f->excreted = rounded((eaten - kept) * r->heading.head * *days, 1000000);
    f->n2o = rounded(f->excreted * 79 * (solid + liquid) * 11, 700000000) +
             rounded(f->excreted * (47 * solid + 63 * liquid) * 11, 700000000);
    return 0;
}

static int pig(const struct reader *r, const uint8_t *p, struct figures *f, uint64_t *days) {
    static const uint16_t highest[12] = {366, 1000, 5000, 2000, 1000, 4000, 2000, 10000, 1000, 10000, 1000, 10000};
    uint64_t v[12];
    int fault = read_fields(p, highest, 12, v);
    if (fault) {
        return fault;
    }
    uint64_t volatilised = v[8], leached = v[10], head_days;
    *days = v[0];
    if (r->heading.days[2] + *days > 366) {
        return FAULT(9);
    }
    if (volatilised + leached > 1000) {
        return FAULT(10);
    }
    head_days = r->heading.head * *days;
    uint64_t vs_mg = rounded(v[1] * v[2] * v[3], 1000);
    f->ch4 = rounded(vs_mg * v[4] * head_days * 201, 625000000);
    f->excreted = rounded(v[1] * v[5] * v[6] * head_days * 7, 62500000);
    f->n2o = rounded(f->excreted * v[7] * 11, 700000) +
             rounded(f->excreted * (volatilised * v[9] + leached * v[11]) * 11, 700000000);
    f->land = rounded(f->excreted * (1000 - volatilised - leached), 1000);
    return 0;
}

static int energy(const uint8_t *p, struct figures *f) {
    uint64_t amount = be32(p + 1), factor = be32(p + 5);
    if (p[0] < 1 || p[0] > 8) {
        return OUT_OF_RANGE(1);
    }
    if (amount > 10000000) {
        return OUT_OF_RANGE(2);
    }
    if (factor > 10000000) {
        return OUT_OF_RANGE(3);
    }
    f->co2 = (int64_t)rounded(amount * factor, 10);
    return 0;
}

static int soil(const uint8_t *p, struct figures *f) {
    uint64_t area = be32(p);
    if (area > 10000000) {
        return OUT_OF_RANGE(1);
    }
    f->co2 = (int64_t)rounded(area * 550000, 3);
    return 0;
}

/* Table A4-4 by zone, texture and change: lumCmax in g per square metre, k in ten-thousandths. */
static const struct {
    int16_t lum_c_max;
    uint16_t k;
} changes[9][3][6] = {
    /* Boreal Shield West */
    {{{143, 262}, {441, 284}, {584, 306}, {-143, 262}, {-441, 284}, {-584, 306}},
     {{217, 253}, {478, 282}, {695, 311}, {-217, 253}, {-478, 282}, {-695, 311}},
     {{155, 258}, {398, 331}, {553, 403}, {-155, 258}, {-398, 331}, {-553, 403}}},
    /* Atlantic Maritime */
    {{{232, 282}, {25, 252}, {257, 222}, {-232, 282}, {-25, 252}, {-257, 222}},
     {{246, 227}, {241, 219}, {486, 211}, {-246, 227}, {-241, 219}, {-486, 211}},
     {{349, 285}, {184, 291}, {533, 298}, {-349, 285}, {-184, 291}, {-533, 298}}},
    /* Boreal Plains */
    {{{221, 270}, {450, 283}, {671, 296}, {-221, 270}, {-450, 283}, {-671, 296}},
     {{233, 219}, {464, 238}, {698, 258}, {-233, 219}, {-464, 238}, {-698, 258}},
     {{163, 180}, {467, 231}, {630, 283}, {-163, 180}, {-467, 231}, {-630, 283}}},
    /* Boreal Shield East */
    {{{277, 295}, {665, 268}, {941, 242}, {-277, 295}, {-665, 268}, {-941, 242}},
     {{238, 266}, {311, 230}, {549, 193}, {-238, 266}, {-311, 230}, {-549, 193}},
     {{206, 228}, {235, 178}, {441, 127}, {-206, 228}, {-235, 178}, {-441, 127}}},
    /* Mixedwood Plains */
    {{{181, 307}, {435, 300}, {616, 293}, {-181, 307}, {-435, 300}, {-616, 293}},
     {{173, 262}, {264, 256}, {437, 250}, {-173, 262}, {-264, 256}, {-437, 250}},
     {{197, 208}, {207, 216}, {404, 223}, {-197, 208}, {-207, 216}, {-404, 223}}},
    /* Semiarid Prairies */
    {{{183, 226}, {316, 239}, {499, 252}, {-183, 226}, {-316, 239}, {-499, 252}},
     {{233, 193}, {261, 230}, {495, 266}, {-233, 193}, {-261, 230}, {-495, 266}},
     {{268, 149}, {193, 194}, {462, 240}, {-268, 149}, {-193, 194}, {-462, 240}}},
    /* Montane Cordillera */
    {{{51, 141}, {289, 138}, {340, 135}, {-51, 141}, {-289, 138}, {-340, 135}},
     {{446, 163}, {115, 159}, {561, 155}, {-446, 163}, {-115, 159}, {-561, 155}},
     {{31, 73}, {581, 101}, {613, 129}, {-31, 73}, {-581, 101}, {-613, 129}}},
    /* Pacific Maritime */
    {{{105, 175}, {638, 153}, {743, 132}, {-105, 175}, {-638, 153}, {-743, 132}},
     {{763, 120}, {807, 131}, {1570, 143}, {-763, 120}, {-1256, 219}, {-1570, 143}},
     {{533, 91}, {778, 106}, {1311, 121}, {-533, 91}, {-441, 310}, {-1311, 121}}},
    /* Subhumid Prairies */
    {{{256, 230}, {411, 266}, {667, 302}, {-256, 230}, {-411, 266}, {-667, 302}},
     {{331, 271}, {320, 287}, {651, 302}, {-331, 271}, {-320, 287}, {-651, 302}},
     {{196, 203}, {189, 230}, {385, 257}, {-196, 203}, {-189, 230}, {-385, 257}}},
};

#define ONE 1000000000000u

/* e^-x in units of 1/ONE for x in ten-thousandths: the series up to x^20 by Horner, each division rounded down. */
static uint64_t fading(uint64_t x) {
    uint64_t e = ONE;
    for (unsigned i = 20; i > 0; i--) {
        uint64_t less = e * x / (10000 * i);
        e = less < ONE ? ONE - less : 0;
    }
    return e;
}

/* A carbon rate is first rounded to mg per square metre, then the CO2 on the area to grams; both as amounts, the sign comes last. */
static int tillage(const uint8_t *p, struct figures *f) {
    static const uint8_t highest[3] = {9, 3, 6};
    uint64_t years = be16(p + 3), area = be32(p + 5);
    for (int i = 0; i < 3; i++) {
        if (p[i] < 1 || p[i] > highest[i]) {
            return OUT_OF_RANGE(i + 1);
        }
    }
    if (years < 1 || years > 100) {
        return OUT_OF_RANGE(4);
    }
    if (area > 10000000) {
        return OUT_OF_RANGE(5);
    }
    int lum = changes[p[0] - 1][p[1] - 1][p[2] - 1].lum_c_max;
    uint64_t k = changes[p[0] - 1][p[1] - 1][p[2] - 1].k;
    uint64_t mg = rounded((uint64_t)(lum < 0 ? -lum : lum) * (fading(k * (years - 1)) - fading(k * years)), 1000000000);
    int64_t grams = (int64_t)rounded(mg * area * 11, 30);
    f->co2 = lum < 0 ? grams : -grams;
    return 0;
}

/* Table 2.4.6 by region and column (cows, heifers, calves), in hundredths of a tonne of CO2e per tonne of live weight and year. */
static const uint8_t pasture_factors[7][3] = {
    {190, 134, 116}, /* Atlantic provinces */
    {190, 134, 116}, /* Quebec */
    {190, 134, 116}, /* Ontario */
    {187, 132, 115}, /* Manitoba */
    {183, 129, 112}, /* Saskatchewan */
    {180, 127, 110}, /* Alberta */
    {181, 128, 111}, /* British Columbia */
};

static int grazing(const struct reader *r, const uint8_t *p, struct figures *f, uint64_t *fraction) {
    uint64_t weight = be16(p + 2);
    *fraction = be16(p + 4);
    if (p[0] < 1 || p[0] > 7) {
        return OUT_OF_RANGE(1);
    }
    if (p[1] < 1 || p[1] > 3) {
        return OUT_OF_RANGE(2);
    }
    if (weight > 2000) {
        return OUT_OF_RANGE(3);
    }
    if (*fraction > 10000) {
        return OUT_OF_RANGE(4);
    }
    if (r->heading.grazed + *fraction > 10000) {
        return FAULT(10);
    }
    f->grazing = rounded(pasture_factors[p[0] - 1][p[1] - 1] * weight * *fraction * r->heading.head, 1000);
    return 0;
}

/* Version, kind, length, count and place: faults 2 to 6. */
static int misplaced(const struct reader *r, const uint8_t *record) {
    unsigned version = record[2], kind = record[3], class = r->heading.class;
    if (version != 1 && (version != 2 || kind != 1)) {
        return FAULT(2);
    }
    if (kind < 1 || kind > 10) {
        return FAULT(3);
    }
    if (be16(record) != (version == 2 ? FACTORS_LENGTH : lengths[kind])) {
        return FAULT(4);
    }
    if (r->records >= MOST_RECORDS) {
        return FAULT(5);
    }
    if ((r->stage == NO_RECORD) != (kind == 1)) {
        return FAULT(6);
    }
    if ((kind == 3 || kind == 4 || kind == 10) && (class < 1 || class > 3)) {
        return FAULT(6);
    }
    return kind == 5 && class != 4 ? FAULT(6) : 0;
}

static void put_line(uint8_t *line, unsigned length, unsigned kind, unsigned group, const struct figures *f) {
    put16(line, length);
    line[2] = 1;
    line[3] = (uint8_t)kind;
    put16(line + 4, group);
    put64(line + 6, f->ch4);
    put64(line + 14, f->n2o);
    put64(line + 22, (uint64_t)f->co2);
    put64(line + 30, f->excreted);
    put64(line + 38, f->land);
    put64(line + 46, f->grazing);
}

static enum answer refuse(struct reader *r, int fault) {
    r->stage = REFUSED_BOOK;
    r->code = (uint8_t)(fault & 255);
    r->field = (uint8_t)(fault >> 8);
    r->held_count = 0;
    return REFUSED;
}

/* The line of the group under the heading; groups are numbered from 1, and without a heading it has no bytes. */
static size_t subtotal_size(const struct reader *r) {
    return r->heading.group != 0 ? DETAIL_LINE : 0;
}

static void put_subtotal(const struct reader *r, uint8_t *line) {
    put_line(line, DETAIL_LINE - 2, SUBTOTAL, r->heading.group, &r->subtotal);
}

static enum answer new_group(struct reader *r, const uint8_t *p, uint8_t *line, size_t room, size_t *written) {
    struct heading next;
    int fault = heading(r, p, &next);
    size_t size = subtotal_size(r);
    if (fault) {
        return refuse(r, fault);
    }
    if (room < size) {
        return FULL;
    }
    if (size > 0) {
        put_subtotal(r, line);
        *written += size;
    }
    r->heading = next;
    r->subtotal = (struct figures){0, 0, 0, 0, 0, 0};
    r->records++;
    return MORE;
}

static enum answer close_book(struct reader *r, const uint8_t *p, uint8_t *line, size_t room, size_t *written) {
    const struct figures *sums = &r->sums;
    size_t size = subtotal_size(r);
    if (be16(p) != r->records) {
        return refuse(r, FAULT(12));
    }
    if (room < size + TOTAL_LINE) {
        return FULL;
    }
    if (size > 0) {
        put_subtotal(r, line);
        line += size;
    }
    uint64_t per_ch4 = r->per_ch4, per_n2o = r->per_n2o;
    put_line(line, TOTAL_LINE - 2, 8, 0, sums);
    put64(line + DETAIL_LINE, (uint64_t)(sums->co2 + (int64_t)(per_ch4 * sums->ch4 + per_n2o * sums->n2o + sums->grazing)));
    *written += size + TOTAL_LINE;
    r->stage = CLOSED_BOOK;
    r->records++;
    return CLOSED;
}

static void add(struct figures *sums, const struct figures *f) {
    sums->ch4 += f->ch4;
    sums->n2o += f->n2o;
    sums->co2 += f->co2;
    sums->excreted += f->excreted;
    sums->land += f->land;
    sums->grazing += f->grazing;
}

/* What the record says, by its kind; heading and close are not among them. `more` is what a heading sums: days, or a fraction. */
static int read_record(struct reader *r, unsigned kind, const uint8_t *p, struct figures *f, uint64_t *more) {
    switch (kind) {
    case 1:
        return farm(r, p[-2], p); /* the version stands two bytes before the fields */
    case 3:
        return enteric(r, p, f, more);
    case 4:
        return cattle(r, p, f, more);
    case 5:
        return pig(r, p, f, more);
    case 6:
        return energy(p, f);
    case 9:
        return tillage(p, f);
    case 10:
        return grazing(r, p, f, more);
    default:
        return soil(p, f);
    }
}

/* One whole record whose length is 4..26. MORE: accepted, and `written` grew by its lines. FULL: nothing has changed. */
static enum answer judge(struct reader *r, const uint8_t *record, uint8_t *line, size_t room, size_t *written) {
    struct figures f = {0, 0, 0, 0, 0, 0};
    uint64_t more = 0;
    unsigned kind = record[3];
    int fault = misplaced(r, record);
    if (!fault && kind == 2) {
        return new_group(r, record + 4, line, room, written);
    }
    if (!fault && kind == 8) {
        return close_book(r, record + 4, line, room, written);
    }
    if (!fault) {
        fault = read_record(r, kind, record + 4, &f, &more);
    }
    if (fault) {
        return refuse(r, fault);
    }
    if (kind > 1) {
        if (room < DETAIL_LINE) {
            return FULL;
        }
        put_line(line, DETAIL_LINE - 2, kind, kind < 6 || kind == 10 ? r->heading.group : 0, &f);
        *written += DETAIL_LINE;
        add(&r->sums, &f);
    }
    if (kind >= 3 && kind <= 5) {
        add(&r->subtotal, &f);
        r->heading.days[kind - 3] += (uint16_t)more;
    } else if (kind == 10) {
        r->heading.grazed += (uint16_t)more;
    }
    r->records++;
    return MORE;
}

static int bad_length(uint64_t length) {
    return length < 4 || length > 26;
}

/* Moves bytes to the held ones until they make a record, a bad length shows, or the input ends; gives how many it moved. */
static size_t gather(struct reader *r, const uint8_t *input, size_t len) {
    size_t moved = 0;
    while (r->held_count < 2 && moved < len) {
        r->held[r->held_count++] = input[moved++];
    }
    if (r->held_count < 2 || bad_length(be16(r->held))) {
        return moved;
    }
    size_t missing = be16(r->held) + 2 - r->held_count;
    if (missing > len - moved) {
        missing = len - moved;
    }
    memcpy(r->held + r->held_count, input + moved, missing);
    r->held_count += (uint8_t)missing;
    return moved + missing;
}

/* The held bytes, once they make a record or show a bad length. On FULL the last byte is given back. */
static enum answer judge_held(struct reader *r, uint8_t *line, size_t room, size_t *written, size_t *taken) {
    if (r->held_count < 2) {
        return MORE;
    }
    if (bad_length(be16(r->held))) {
        return refuse(r, FAULT(1));
    }
    if (r->held_count < be16(r->held) + 2) {
        return MORE;
    }
    enum answer answer = judge(r, r->held, line, room, written);
    if (answer == FULL) {
        r->held_count--;
        --*taken;
    } else {
        r->held_count = 0;
        memset(r->held, 0, sizeof r->held); /* unused places are zero: reader_in_range asks it */
    }
    return answer;
}

struct reply reader_feed(struct reader *r, const uint8_t *input, size_t input_len, uint8_t *lines, size_t lines_len) {
    struct reply reply = {MORE, 0, 0};
    if (r->stage >= CLOSED_BOOK) {
        reply.answer = r->stage == CLOSED_BOOK ? CLOSED : REFUSED;
        return reply;
    }
    size_t taken = 0, written = 0;
    while (reply.answer == MORE && taken < input_len) {
        const uint8_t *next = input + taken;
        size_t left = input_len - taken;
        int here = r->held_count == 0 && left >= 2 && !bad_length(be16(next)) && left >= be16(next) + 2;
        if (here && (reply.answer = judge(r, next, lines + written, lines_len - written, &written)) != FULL) {
            taken += be16(next) + 2;
            continue;
        }
        taken += gather(r, next, left);
        reply.answer = judge_held(r, lines + written, lines_len - written, &written, &taken);
    }
    reply.taken = taken;
    reply.written = written;
    return reply;
}

/* Sums and subtotal are bounded by the records, and CO2 on both sides of zero. */
static int within(const struct figures *f, uint64_t records) {
    uint64_t most = records * 100000000000u;
    int64_t co2_most = (int64_t)records * 10000000000000;
    return f->ch4 <= most && f->n2o <= most / 10 && f->co2 >= -co2_most && f->co2 <= co2_most && f->excreted <= most && f->land <= most &&
           f->grazing <= most;
}

static int heading_in_range(const struct reader *r) {
    const struct heading *h = &r->heading;
    const struct figures *t = &r->subtotal;
    if (h->group == 0) {
        return (h->class | h->head | h->days[0] | h->days[1] | h->days[2] | h->grazed) == 0 && (t->ch4 | t->n2o | t->excreted | t->land) == 0;
    }
    return r->records >= 2 && h->class >= 1 && h->class <= 4 && h->head <= 20000 && h->days[0] <= 366 && h->days[1] <= 366 &&
           h->days[2] <= 366 && h->grazed <= 10000 && within(t, r->records);
}

static int held_in_range(const struct reader *r) {
    static const uint8_t none[28];
    if (r->held_count > 27 || (r->stage >= CLOSED_BOOK && r->held_count > 0)) {
        return 0;
    }
    if (r->held_count >= 2 && (bad_length(be16(r->held)) || r->held_count >= be16(r->held) + 2)) {
        return 0;
    }
    return memcmp(r->held + r->held_count, none, sizeof r->held - r->held_count) == 0;
}

int reader_in_range(const struct reader *r) {
    unsigned least = r->stage == REFUSED_BOOK ? 0 : r->stage;
    if (r->stage > REFUSED_BOOK || r->records > MOST_RECORDS || r->records < least || (r->stage == NO_RECORD && r->records > 0)) {
        return 0;
    }
    if (r->per_ch4 > 1000 || r->per_n2o > 1000 || (r->per_ch4 == 0) != (r->records == 0) || (r->per_n2o == 0) != (r->records == 0)) {
        return 0;
    }
    if (r->stage == REFUSED_BOOK ? r->code < 1 || r->code > 12 || r->field > 12 || (r->code == 7) != (r->field > 0) : (r->code | r->field) != 0) {
        return 0;
    }
    return heading_in_range(r) && within(&r->sums, r->records) && held_in_range(r);
}

static uint64_t number(const struct reader *r, enum answer answer, int bytes_remain, size_t written) {
    static const uint64_t codes[] = {[MORE] = 17, [FULL] = 16, [CLOSED] = 0};
    uint64_t code = answer == REFUSED ? r->code : codes[answer];
    if (answer == CLOSED && bytes_remain) {
        code = 18;
    }
    return code << 32 | written;
}

uint64_t plain_desk(const uint8_t *book, size_t book_len, uint8_t *lines, size_t lines_len) {
    struct reader r = {0};
    struct reply reply = reader_feed(&r, book, book_len, lines, lines_len);
    return number(&r, reply.answer, reply.taken < book_len, reply.written);
}

static inline __attribute__((always_inline)) uint64_t parts_read(const uint8_t *book, size_t book_len, uint8_t *lines, size_t lines_len,
                                                                 size_t part, int tests) {
    struct reader r = {0};
    struct reply reply = {MORE, 0, 0};
    size_t taken = 0, written = 0;
    while (reply.answer == MORE && taken < book_len) {
        size_t offer = book_len - taken < part ? book_len - taken : part;
        if (tests && !reader_in_range(&r)) {
            return (uint64_t)13 << 32;
        }
        reply = reader_feed(&r, book + taken, offer, lines + written, lines_len - written);
        taken += reply.taken;
        written += reply.written;
    }
    return number(&r, reply.answer, taken < book_len, written);
}

uint64_t plain_parts(const uint8_t *book, size_t book_len, uint8_t *lines, size_t lines_len, size_t part) {
    return parts_read(book, book_len, lines, lines_len, part, 0);
}

uint64_t tested_parts(const uint8_t *book, size_t book_len, uint8_t *lines, size_t lines_len, size_t part) {
    return parts_read(book, book_len, lines, lines_len, part, 1);
}
