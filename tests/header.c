/* Every function, macro and constant of plq.h in use, as C and as C++. What is expected was worked out by hand: rows worked
 * on paper, constant messages (their chunks have the symbol in front and zeros behind it), slips written out bit by bit,
 * refusals. Prints what differs, and at the end how many facts hold. */
#include <plq.h>

#include <stdio.h>
#include <string.h>
#ifdef __cplusplus
#include <vector>
#endif

/* What a buffer holds before a call, so that one that was kept is seen. */
#define BEFORE 0xEE
#define COUNT_OF(array) (sizeof(array) / sizeof *(array))

static unsigned held, differ;

static void fact(const char *name, int holds) {
    if (holds) {
        held++;
    } else {
        differ++;
        printf("differs: %s\n", name);
    }
}

/* Number and detail of an answer of any call but plq_slip_read. */
static void answers(const char *name, uint64_t answer, enum plq_number number, size_t detail) {
    fact(name, PLQ_NUMBER(answer) == number && PLQ_DETAIL(answer) == detail);
    if (PLQ_NUMBER(answer) != number || PLQ_DETAIL(answer) != detail) {
        printf("  answered %u, detail %zu\n", PLQ_NUMBER(answer), PLQ_DETAIL(answer));
    }
}

static void holds(const char *name, const uint8_t *bytes, const void *expected, size_t count) {
    fact(name, memcmp(bytes, expected, count) == 0);
}

static void kept(const char *name, const uint8_t *bytes, size_t count) {
    int same = 1;
    for (size_t i = 0; i < count; i++) {
        same = same && bytes[i] == BEFORE;
    }
    fact(name, same);
}

/* Example 3 and example 16 of the paper: a row, the row with two chunks damaged to depth 1, and its slips. In edition 2 the header
 * is 0010 00 001 00000011 00000011 0000000. */
static const uint8_t four[4] = {0, 1, 2, 3};
static const uint8_t message[4] = {1, 2, 2, 1};
static const uint8_t sent[8] = {1, 2, 0, 3, 2, 1, 2, 0};
static const uint8_t received[8] = {1, 3, 0, 3, 2, 3, 2, 0};
static const uint8_t six[6] = {0x10, 0x83, 0x06, 0x1B, 0x73, 0xB8};
static const uint8_t seven[7] = {0x20, 0x81, 0x81, 0x80, 0x1B, 0x73, 0xB8};
static const char line[] = "0 2 | 1 2 2 1 | 1 0 1 0\n";

static uint8_t zeros[PLQ_MAX_ROW + 1];
static uint8_t row[PLQ_MAX_ROW], other[PLQ_MAX_ROW], slip[PLQ_MAX_SLIP + 1], text[PLQ_MAX_LINE + 1];

static void fresh(void) {
    memset(row, BEFORE, sizeof row);
    memset(other, BEFORE, sizeof other);
    memset(slip, BEFORE, sizeof slip);
    memset(text, BEFORE, sizeof text);
}

static void done_calls(void) {
    const uint8_t depths[4] = {1, 0, 1, 0};
    fresh();
    answers("encode", plq_encode(2, 2, 4, four, 4, message, 4, row, 8), PLQ_DONE, 0);
    holds("the row", row, sent, 8);
    fresh();
    answers("decode", plq_decode(2, 2, 4, four, 4, received, 8, row, 4, other, 4), PLQ_DONE, 2);
    holds("the message", row, message, 4);
    holds("the depths", other, depths, 4);
    answers("distance", plq_distance(2, sent, 8, received, 8), PLQ_DONE, 2);
}

/* The row of example 16 in both editions: written, read and printed. */
static void both_editions(void) {
    const uint8_t *slips[2] = {six, seven};
    for (size_t edition = 1; edition <= 2; edition++) {
        const uint8_t *expected = slips[edition - 1];
        size_t size = 5 + edition;
        uint64_t answer;
        fresh();
        answer = plq_slip_write(edition, 2, 2, 4, four, 4, received, 8, slip, size + 1);
        answers("slip_write", answer, PLQ_DONE, size);
        holds("the slip", slip, expected, size);
        kept("behind the slip", slip + size, 1);
        answers("line", plq_line(expected, size, text, sizeof text), PLQ_DONE, sizeof line - 1);
        holds("the line", text, line, sizeof line - 1);
        kept("behind the line", text + sizeof line - 1, 1);
        answer = plq_slip_read(expected, size, row, 5, other, 9);
        fact("slip_read", PLQ_NUMBER(answer) == PLQ_DONE && PLQ_SLIP_DETAIL(answer) == 0);
        fact("the edition read", PLQ_EDITION(answer) == edition);
        holds("the points read", row, four, 4);
        kept("behind the points", row + 4, 1);
        holds("the row read", other, received, 8);
        kept("behind the row", other + 8, 1);
        fresh();
        answer = plq_slip_write(edition, 2, 2, 4, four, 4, received, 8, slip, size - 1);
        answers("no room for the slip's last byte", answer, PLQ_BAD_LENGTH, 0);
        kept("no room for the slip's last byte", slip, sizeof slip);
    }
}

/* The six bytes as the seven, and back. */
static void over_and_back(void) {
    fresh();
    answers("to_new", plq_to_new(six, 6, slip, 8), PLQ_DONE, 7);
    holds("the slip of edition 2", slip, seven, 7);
    kept("behind the slip of edition 2", slip + 7, 1);
    fresh();
    answers("to_old", plq_to_old(seven, 7, slip, 7), PLQ_DONE, 6);
    holds("the slip of edition 1", slip, six, 6);
    kept("behind the slip of edition 1", slip + 6, 1);
    fresh();
    answers("to_new, room for six", plq_to_new(six, 6, slip, 6), PLQ_BAD_LENGTH, 0);
    answers("to_old, room for five", plq_to_old(seven, 7, slip, 5), PLQ_BAD_LENGTH, 0);
    answers("to_new of edition 2", plq_to_new(seven, 7, slip, sizeof slip), PLQ_SLIP_EDITION, 0);
    answers("to_old of edition 1", plq_to_old(six, 6, slip, sizeof slip), PLQ_SLIP_EDITION, 0);
    answers("to_new of three bytes of edition 2", plq_to_new(seven, 3, slip, sizeof slip), PLQ_SLIP_EDITION, 0);
    answers("to_old of three bytes of edition 2", plq_to_old(seven, 3, slip, sizeof slip), PLQ_SLIP_SHORT, 0);
    kept("a slip that was not turned", slip, sizeof slip);
}

/* A walk from slip to slip: the six bytes, the smallest slip of either edition (0001 00 000 0000000 0000000 0 and
 * 0010 00 000 00000000 00000000 0000000, point 0, symbol 1), the seven bytes, and the end. */
static void a_roll(void) {
    const uint8_t roll[23] = {0x10, 0x83, 0x06, 0x1B, 0x73, 0xB8, 0x10, 0x00, 0x00, 0x10, 0x20, 0x00,
                              0x00, 0x00, 0x10, 0x20, 0x81, 0x81, 0x80, 0x1B, 0x73, 0xB8, 0x20};
    const size_t sizes[5] = {6, 4, 5, 7, 0};
    size_t at = 0;
    for (size_t i = 0; i < COUNT_OF(sizes); i++) {
        uint64_t answer = plq_roll_first(roll + at, 22 - at);
        fact("a slip of a roll", PLQ_NUMBER(answer) == PLQ_DONE && PLQ_ROLL_SIZE(answer) == sizes[i]);
        at += PLQ_ROLL_SIZE(answer);
    }
    fact("the end of a roll", at == 22);
    answers("a byte behind the last slip", plq_roll_first(roll + 22, 1), PLQ_SLIP_SHORT, 0);
}

/* A slip with five different numbers: 0001 01 001 0000010 0000100 0, points 1 2 3, symbols 10 to 15. */
static void parts_of_a_word(void) {
    const uint8_t bytes[8] = {0x14, 0x82, 0x08, 0x12, 0x3A, 0xBC, 0xDE, 0xF0};
    const uint64_t word = UINT64_C(0x0002030405060709);
    uint64_t answer = plq_slip_read(bytes, 8, row, PLQ_MAX_ROW, other, PLQ_MAX_ROW);
    fact("m of a slip", PLQ_SLIP_M(answer) == 4);
    fact("r of a slip", PLQ_SLIP_R(answer) == 2);
    fact("n' of a slip", PLQ_SLIP_COUNT(answer) == 3);
    fact("k of a slip", PLQ_SLIP_K(answer) == 5);
    fact("edition of a slip", PLQ_EDITION(answer) == 1);
    fact("the whole word", answer == UINT64_C(0x0001000503020400));
    fact("number", PLQ_NUMBER(word) == 9);
    fact("detail", PLQ_DETAIL(word) == UINT64_C(0x0000020304050607));
    fact("m", PLQ_SLIP_M(word) == 7);
    fact("r", PLQ_SLIP_R(word) == 6);
    fact("n'", PLQ_SLIP_COUNT(word) == 5);
    fact("k", PLQ_SLIP_K(word) == 4);
    fact("detail of a slip", PLQ_SLIP_DETAIL(word) == 3);
    fact("edition", PLQ_EDITION(word) == 2);
    fact("sizes", sizeof PLQ_NUMBER(word) == sizeof(unsigned) && sizeof PLQ_DETAIL(word) == sizeof(size_t));
}

/* Calls that encode refuses. The message has one symbol throughout. */
static const struct {
    const char *name;
    size_t m, r, k;
    uint8_t points[5];
    size_t count, message_len, row_len;
    uint8_t symbol;
    enum plq_number number;
    size_t detail;
} refused[] = {
    {"m is 3", 3, 1, 1, {0}, 1, 1, 1, 3, PLQ_BAD_FIELD, 0},
    {"r above the deepest", 2, PLQ_MAX_DEPTH + 1, 1, {0}, 1, 1, 9, 3, PLQ_BAD_DEPTH, 0},
    {"five points of four", 2, 1, 1, {0, 1, 2, 3, 0}, 5, 1, 5, 3, PLQ_BAD_POINTS, 0},
    {"k is n + 1", 2, 1, 3, {0, 1}, 2, 3, 2, 3, PLQ_BAD_K, 0},
    {"point 4", 2, 1, 1, {0, 1, 4}, 3, 1, 3, 3, PLQ_POINT_HIGH, 2},
    {"a point twice", 2, 1, 1, {0, 1, 2, 1}, 4, 1, 4, 3, PLQ_POINT_TWICE, 3},
    {"a short message", 2, 1, 2, {0, 1}, 2, 1, 2, 3, PLQ_BAD_LENGTH, 0},
    {"a short buffer", 2, 1, 2, {0, 1}, 2, 2, 1, 3, PLQ_BAD_LENGTH, 0},
    {"symbol 4", 2, 1, 2, {0, 1}, 2, 2, 2, 4, PLQ_SYMBOL_HIGH, 0},
};

static void refused_codes(void) {
    uint8_t symbols[3];
    for (size_t i = 0; i < COUNT_OF(refused); i++) {
        uint64_t answer;
        fresh();
        memset(symbols, refused[i].symbol, sizeof symbols);
        answer = plq_encode(refused[i].m, refused[i].r, refused[i].k, refused[i].points, refused[i].count, symbols,
                            refused[i].message_len, row, refused[i].row_len);
        answers(refused[i].name, answer, refused[i].number, refused[i].detail);
        kept(refused[i].name, row, sizeof row);
    }
}

/* Slips that the reader refuses: too short, another edition, field code 3, five points of four, k = 2 of n = 1, short of
 * its size, a byte too long. Then the smallest slip, 0001 00 000 0000000 0000000 0 00 01 and 0000 for the fill, with a bit
 * set that holds nothing: the spare one, the first and the last of the fill. Then repeated points with such a bit and
 * without: points 1 1 and symbols 0 0 leave no fill, points 1 2 1 and symbols 0 0 0 leave four bits. Last, the same of edition 2:
 * 4 2 3 8 8 7 bits, and the smallest slip has one byte more. 43 chunks of 3, m 8, are n = 129, too much for edition 1 alone. */
static const struct {
    const char *name;
    uint8_t bytes[6];
    size_t count;
    enum plq_number number;
    size_t detail;
    const char *line;
    size_t first;
} refused_slips[] = {
    {"two bytes", {0x10, 0x00}, 2, PLQ_SLIP_SHORT, 0, "10 0\n", 0},
    {"two bytes of edition 3", {0x30, 0x00}, 2, PLQ_SLIP_SHORT, 0, "10 0\n", 0},
    {"edition 3", {0x30, 0x00, 0x00}, 3, PLQ_SLIP_EDITION, 0, "11 0\n", 0},
    {"edition 0", {0x00, 0x00, 0x00, 0x10}, 4, PLQ_SLIP_EDITION, 0, "11 0\n", 0},
    {"field code 3", {0x1C, 0x00, 0x00}, 3, PLQ_BAD_FIELD, 0, "1 0\n", 0},
    {"five points in a slip", {0x10, 0x04, 0x00}, 3, PLQ_BAD_POINTS, 0, "3 0\n", 0},
    {"k 2 and n 1 in a slip", {0x10, 0x00, 0x02}, 3, PLQ_BAD_K, 0, "4 0\n", 0},
    {"short of its size", {0x10, 0x00, 0x00}, 3, PLQ_SLIP_SHORT, 0, "10 0\n", 0},
    {"a byte too long", {0x10, 0x00, 0x00, 0x00, 0x00}, 5, PLQ_SLIP_LONG, 0, "12 0\n", 4},
    {"the spare bit and a byte too long", {0x10, 0x00, 0x01, 0x10, 0x00}, 5, PLQ_SLIP_LONG, 0, "12 0\n", 4},
    {"the spare bit", {0x10, 0x00, 0x01, 0x10}, 4, PLQ_SLIP_BITS, 0, "13 0\n", 4},
    {"the first bit of the fill", {0x10, 0x00, 0x00, 0x18}, 4, PLQ_SLIP_BITS, 0, "13 0\n", 4},
    {"the last bit of the fill", {0x10, 0x00, 0x00, 0x11}, 4, PLQ_SLIP_BITS, 0, "13 0\n", 4},
    {"the spare bit and points 1 1", {0x10, 0x01, 0x01, 0x50}, 4, PLQ_SLIP_BITS, 0, "13 0\n", 4},
    {"a bit of the fill and points 1 2 1", {0x10, 0x02, 0x00, 0x64, 0x01}, 5, PLQ_SLIP_BITS, 0, "13 0\n", 5},
    {"points 1 2 1", {0x10, 0x02, 0x00, 0x64, 0x00}, 5, PLQ_POINT_TWICE, 2, "6 2\n", 5},
    {"n 129 in edition 1", {0x19, 0x2A, 0x00}, 3, PLQ_BAD_POINTS, 0, "3 0\n", 0},
    {"n 129 in edition 2, short of its size", {0x29, 0x15, 0x00, 0x00}, 4, PLQ_SLIP_SHORT, 0, "10 0\n", 0},
    {"n 241 in edition 2", {0x28, 0x78, 0x00, 0x00}, 4, PLQ_BAD_POINTS, 0, "3 0\n", 0},
    {"three bytes of edition 2", {0x20, 0x00, 0x00}, 3, PLQ_SLIP_SHORT, 0, "10 0\n", 0},
    {"three bytes of edition 2, field code 3", {0x2C, 0x00, 0x00}, 3, PLQ_SLIP_SHORT, 0, "10 0\n", 0},
    {"field code 3 in edition 2", {0x2C, 0x00, 0x00, 0x00}, 4, PLQ_BAD_FIELD, 0, "1 0\n", 0},
    {"k 2 and n 1 in edition 2", {0x20, 0x00, 0x00, 0x80}, 4, PLQ_BAD_K, 0, "4 0\n", 0},
    {"edition 2, short of its size", {0x20, 0x00, 0x00, 0x00}, 4, PLQ_SLIP_SHORT, 0, "10 0\n", 0},
    {"a zero bit and a byte too long", {0x20, 0x00, 0x00, 0x01, 0x10, 0x00}, 6, PLQ_SLIP_LONG, 0, "12 0\n", 5},
    {"zero bit 0 of seven", {0x20, 0x00, 0x00, 0x40, 0x10}, 5, PLQ_SLIP_BITS, 0, "13 0\n", 5},
    {"zero bit 1 of seven", {0x20, 0x00, 0x00, 0x20, 0x10}, 5, PLQ_SLIP_BITS, 0, "13 0\n", 5},
    {"zero bit 2 of seven", {0x20, 0x00, 0x00, 0x10, 0x10}, 5, PLQ_SLIP_BITS, 0, "13 0\n", 5},
    {"zero bit 3 of seven", {0x20, 0x00, 0x00, 0x08, 0x10}, 5, PLQ_SLIP_BITS, 0, "13 0\n", 5},
    {"zero bit 4 of seven", {0x20, 0x00, 0x00, 0x04, 0x10}, 5, PLQ_SLIP_BITS, 0, "13 0\n", 5},
    {"zero bit 5 of seven", {0x20, 0x00, 0x00, 0x02, 0x10}, 5, PLQ_SLIP_BITS, 0, "13 0\n", 5},
    {"zero bit 6 of seven", {0x20, 0x00, 0x00, 0x01, 0x10}, 5, PLQ_SLIP_BITS, 0, "13 0\n", 5},
    {"a bit of the fill in edition 2", {0x20, 0x00, 0x00, 0x00, 0x11}, 5, PLQ_SLIP_BITS, 0, "13 0\n", 5},
    {"a zero bit and points 1 1", {0x20, 0x00, 0x80, 0x01, 0x50}, 5, PLQ_SLIP_BITS, 0, "13 0\n", 5},
    {"points 1 1 in edition 2", {0x20, 0x00, 0x80, 0x00, 0x50}, 5, PLQ_POINT_TWICE, 1, "6 1\n", 5},
};

/* The call that turns slips of this edition refuses what the reader refuses, the other one with 11 what says an edition. */
static void not_turned(const char *name, const uint8_t *bytes, size_t count, enum plq_number number, size_t detail) {
    uint64_t (*const turns[2])(const uint8_t *, size_t, uint8_t *, size_t) = {plq_to_new, plq_to_old};
    for (size_t edition = 1; edition <= 2; edition++) {
        const size_t rooms[2] = {0, sizeof slip};
        int own = count < 3 || bytes[0] / 16u == edition;
        for (size_t i = 0; i < 2; i++) {
            uint64_t answer = turns[edition - 1](bytes, count, slip, rooms[i]);
            answers(name, answer, own ? number : PLQ_SLIP_EDITION, own ? detail : 0);
        }
    }
    kept(name, slip, sizeof slip);
}

static void refused_by_the_reader(void) {
    const uint8_t spare[6] = {0x10, 0x83, 0x07, 0x1B, 0x73, 0xB8};
    uint64_t answer;
    for (size_t i = 0; i < COUNT_OF(refused_slips); i++) {
        const char *name = refused_slips[i].name, *expected = refused_slips[i].line;
        fresh();
        answer = plq_slip_read(refused_slips[i].bytes, refused_slips[i].count, row, 8, other, 8);
        fact(name, PLQ_NUMBER(answer) == refused_slips[i].number && PLQ_SLIP_DETAIL(answer) == refused_slips[i].detail);
        fact(name, PLQ_SLIP_M(answer) + PLQ_SLIP_R(answer) + PLQ_SLIP_COUNT(answer) + PLQ_SLIP_K(answer) == 0);
        fact(name, PLQ_EDITION(answer) == 0);
        kept(name, row, 8);
        kept(name, other, 8);
        /* a roll does not end with its first slip, and is not refused for its points, its zero bits or its fill */
        answer = plq_roll_first(refused_slips[i].bytes, refused_slips[i].count);
        if (refused_slips[i].first > 0) {
            fact(name, PLQ_NUMBER(answer) == PLQ_DONE && PLQ_ROLL_SIZE(answer) == refused_slips[i].first);
        } else {
            fact(name, PLQ_NUMBER(answer) == refused_slips[i].number && PLQ_ROLL_SIZE(answer) == 0);
        }
        not_turned(name, refused_slips[i].bytes, refused_slips[i].count, refused_slips[i].number, refused_slips[i].detail);
        answer = plq_line(refused_slips[i].bytes, refused_slips[i].count, text, sizeof text);
        answers(name, answer, PLQ_DONE, strlen(expected));
        holds(name, text, expected, strlen(expected));
    }
    answer = plq_slip_read(six, 6, row, 3, other, 8);
    fact("room for three points", PLQ_NUMBER(answer) == PLQ_BAD_LENGTH);
    answer = plq_slip_read(spare, 6, row, 3, other, 8);
    fact("room for three points, and the spare bit", PLQ_NUMBER(answer) == PLQ_SLIP_BITS);
    answers("room for half a line", plq_line(six, 6, text, 12), PLQ_BAD_LENGTH, 0);
    /* One chunk of three, k = 1: the row 1 2 3 lies nearest to that of the message 1, 1 0 0, and that is depth 2, not 1. */
    answers("too far", plq_decode(2, 3, 1, four, 1, four + 1, 3, row, 1, other, 1), PLQ_TOO_FAR, 0);
    answers("distance to depth 9", plq_distance(PLQ_MAX_DEPTH + 1, zeros, 9, zeros, 9), PLQ_BAD_DEPTH, 0);
}

/* More points and symbols than any row has: the points 0 1 2 .. and symbols 255. */
static uint8_t points[PLQ_MAX_ROW + 1], high[PLQ_MAX_ROW + 1];

static void points_and_symbols(void) {
    for (size_t i = 0; i < COUNT_OF(points); i++) {
        points[i] = 0xFF & i;
        high[i] = 0xFF;
    }
}

/* The limits are met and not passed: each call is done at the limit, and one more is refused. */
static void limits(void) {
    const uint8_t eight[8] = {200, 0, 0, 0, 0, 0, 0, 0};
    fresh();
    answers("depth 8", plq_encode(8, PLQ_MAX_DEPTH, 1, four, 1, eight, 1, row, PLQ_MAX_DEPTH), PLQ_DONE, 0);
    holds("the chunk of depth 8", row, eight, 8);
    answers("240 symbols", plq_distance(8, high, PLQ_MAX_ROW, zeros, PLQ_MAX_ROW), PLQ_DONE, 240);
    answers("241 symbols", plq_distance(1, zeros, PLQ_MAX_ROW + 1, zeros, PLQ_MAX_ROW + 1), PLQ_BAD_LENGTH, 0);
    answers("241 points", plq_encode(8, 1, 1, points, 241, high, 1, row, PLQ_MAX_ROW), PLQ_BAD_POINTS, 0);
}

/* Where the editions end, and that the writer looks at the edition before all else. */
static void limits_of_editions(void) {
    const uint8_t head[3] = {0x18, 0x7F, 0xFE};
    uint64_t answer;
    fresh();
    answers("128 in edition 1", plq_slip_write(1, 8, 1, 128, points, 128, high, 128, slip, 259), PLQ_DONE, 259);
    holds("its header, 0001 10 000 1111111 1111111 0", slip, head, 3);
    holds("its points", slip + 3, points, 128);
    kept("behind the longest slip of edition 1", slip + 259, 1);
    fresh();
    answer = plq_slip_write(1, 8, 1, 128, points, 129, high, 129, slip, PLQ_MAX_SLIP);
    answers("129 in edition 1", answer, PLQ_BAD_POINTS, 0);
    answer = plq_slip_write(2, 8, 1, 128, points, 241, high, 241, slip, PLQ_MAX_SLIP);
    answers("241 in edition 2", answer, PLQ_BAD_POINTS, 0);
    answers("edition 0, and m is 3", plq_slip_write(0, 3, 9, 0, points, 0, high, 1, slip, 0), PLQ_SLIP_EDITION, 0);
    answers("edition 3, and m is 3", plq_slip_write(3, 3, 9, 0, points, 0, high, 1, slip, 0), PLQ_SLIP_EDITION, 0);
    answers("edition 2^8 + 1", plq_slip_write(257, 2, 2, 4, four, 4, sent, 8, slip, 6), PLQ_SLIP_EDITION, 0);
    kept("a slip that was not written", slip, sizeof slip);
}

/* Edition 1 has room for 128 symbols: 0010 10 000 01111111 01111111 0000000 is turned, points and row as they stand, and 129 to
 * 240 are refused with 15, whatever room there is. */
static void limits_of_turning(void) {
    static uint8_t newer[PLQ_MAX_SLIP];
    const uint8_t head[3] = {0x18, 0x7F, 0xFE};
    const size_t longer[3] = {129, 239, 240};
    fresh();
    answers("128 in edition 2", plq_slip_write(2, 8, 1, 128, points, 128, high, 128, newer, 260), PLQ_DONE, 260);
    answers("128 to old", plq_to_old(newer, 260, slip, 260), PLQ_DONE, 259);
    holds("its header, 0001 10 000 1111111 1111111 0", slip, head, 3);
    holds("its points and row", slip + 3, newer + 4, 256);
    kept("behind it", slip + 259, 1);
    memset(newer, BEFORE, sizeof newer);
    answers("128 to new", plq_to_new(slip, 259, newer, 260), PLQ_DONE, 260);
    holds("its points and row again", newer + 4, slip + 3, 256);
    fresh();
    for (size_t i = 0; i < COUNT_OF(longer); i++) {
        size_t n = longer[i], size = 4 + 2 * n;
        answers("a longer row", plq_slip_write(2, 8, 1, 1, points, n, high, n, newer, size), PLQ_DONE, size);
        answers("a longer row to old", plq_to_old(newer, size, slip, sizeof slip), PLQ_ROW_LONG, 0);
        answers("a longer row to old, no room", plq_to_old(newer, size, slip, 0), PLQ_ROW_LONG, 0);
        answers("a longer row to old, a byte less", plq_to_old(newer, size - 1, slip, 0), PLQ_SLIP_SHORT, 0);
        newer[3] |= 1;
        answers("a longer row to old, a zero bit", plq_to_old(newer, size, slip, 0), PLQ_SLIP_BITS, 0);
    }
    kept("a slip that was not turned", slip, sizeof slip);
}

/* k = n = 240 points: any row is that of one message, here 255 in every coefficient. */
static void longest_row(void) {
    static char longest[PLQ_MAX_LINE + 1];
    const uint8_t head[4] = {0x28, 0x77, 0xF7, 0x80};
    fresh();
    answers("the longest row", plq_encode(8, 1, 240, points, 240, high, 240, row, 240), PLQ_DONE, 0);
    answers("the longest slip", plq_slip_write(2, 8, 1, 240, points, 240, row, 240, slip, PLQ_MAX_SLIP), PLQ_DONE, 484);
    holds("its header, 0010 10 000 11101111 11101111 0000000", slip, head, 4);
    holds("its points", slip + 4, points, 240);
    holds("its row", slip + 244, row, 240);
    kept("behind the longest slip", slip + PLQ_MAX_SLIP, 1);
    answers("no room for its last byte",
            plq_slip_write(2, 8, 1, 240, points, 240, row, 240, slip, PLQ_MAX_SLIP - 1), PLQ_BAD_LENGTH, 0);
    strcpy(longest, "0 0 | 255");
    for (size_t i = 1; i < PLQ_MAX_ROW; i++) {
        strcat(longest, " 255");
    }
    strcat(longest, " | 0");
    for (size_t i = 1; i < PLQ_MAX_ROW; i++) {
        strcat(longest, " 0");
    }
    strcat(longest, "\n");
    answers("no room for the last byte of a line", plq_line(slip, PLQ_MAX_SLIP, text, PLQ_MAX_LINE - 1), PLQ_BAD_LENGTH, 0);
    answers("the longest line", plq_line(slip, PLQ_MAX_SLIP, text, PLQ_MAX_LINE), PLQ_DONE, strlen(longest));
    holds("the longest line", text, longest, PLQ_MAX_LINE);
    kept("behind the longest line", text + PLQ_MAX_LINE, 1);
}

/* Rows and their levels, with m 2 and r 2: 4 a + b for the chunk a b. With m 8 and r 8 a level may be 2^64 - 1. */
static void levels(void) {
    static const char bench[] = "7\n3\n11\n8\n", most[] = "18446744073709551615\n";
    const size_t size = sizeof bench - 1;
    fresh();
    answers("levels_write", plq_levels_write(2, 2, received, 8, text, size + 1), PLQ_DONE, size);
    holds("the levels", text, bench, size);
    kept("behind the levels", text + size, 1);
    answers("levels_read", plq_levels_read(2, 2, text, size, row, 8), PLQ_DONE, 0);
    holds("the row of levels", row, received, 8);
    kept("behind the row of levels", row + 8, 1);
    fresh();
    answers("no room for the last newline", plq_levels_write(2, 2, received, 8, text, size - 1), PLQ_BAD_LENGTH, 0);
    kept("no room for the last newline", text, sizeof text);
    answers("2^64 - 1", plq_levels_write(8, 8, high, 8, text, sizeof text), PLQ_DONE, sizeof most - 1);
    holds("2^64 - 1", text, most, sizeof most - 1);
    answers("2^64 - 1 read", plq_levels_read(8, 8, text, sizeof most - 1, row, 8), PLQ_DONE, 0);
    holds("2^64 - 1 read", row, high, 8);
}

/* The longest text: 240 levels of three digits, 255 each. Chunks need no points here: with m 2 there may be as many. */
static void longest_levels(void) {
    fresh();
    answers("no room for the longest levels",
            plq_levels_write(8, 1, high, PLQ_MAX_ROW, text, PLQ_MAX_LEVELS - 1), PLQ_BAD_LENGTH, 0);
    answers("the longest levels", plq_levels_write(8, 1, high, PLQ_MAX_ROW, text, PLQ_MAX_LEVELS), PLQ_DONE, 960);
    holds("the last level", text + 956, "255\n", 4);
    kept("behind the longest levels", text + PLQ_MAX_LEVELS, 1);
    answers("the longest levels read", plq_levels_read(8, 1, text, PLQ_MAX_LEVELS, row, PLQ_MAX_ROW), PLQ_DONE, 0);
    holds("the longest levels read", row, high, PLQ_MAX_ROW);
    answers("240 chunks of m 2", plq_levels_write(2, 1, zeros, PLQ_MAX_ROW, text, 480), PLQ_DONE, 480);
    answers("241 chunks", plq_levels_write(2, 1, zeros, PLQ_MAX_ROW + 1, text, sizeof text), PLQ_BAD_LENGTH, 0);
}

/* Texts that are not read into a row of `room` symbols. */
static const struct {
    const char *text;
    size_t m, r, room;
    enum plq_number number;
    size_t detail;
} refused_levels[] = {
    {"x", 3, 9, 0, PLQ_BAD_FIELD, 0},
    {"x", 2, 9, 0, PLQ_BAD_DEPTH, 0},
    {"x", 2, 2, 0, PLQ_BAD_LENGTH, 0},
    {"x", 2, 2, 3, PLQ_BAD_LENGTH, 0},
    {"0\n", 2, 2, 4, PLQ_BAD_LENGTH, 0},
    {"0\n1\n2\n", 2, 2, 4, PLQ_BAD_LENGTH, 0},
    {"0\n1", 2, 2, 4, PLQ_LEVEL_LINE, 1},
    {"\n1\n", 2, 2, 4, PLQ_LEVEL_LINE, 0},
    {"0\n01\n", 2, 2, 4, PLQ_LEVEL_LINE, 1},
    {"0\n1\r\n", 2, 2, 4, PLQ_LEVEL_LINE, 1},
    {"0\n+1\n", 2, 2, 4, PLQ_LEVEL_LINE, 1},
    {"0\n-1\n", 2, 2, 4, PLQ_LEVEL_LINE, 1},
    {"0\n 1\n", 2, 2, 4, PLQ_LEVEL_LINE, 1},
    {"0\n1\n\n", 2, 2, 4, PLQ_LEVEL_LINE, 2},
    {"99999999999999999999x\n1\n", 2, 2, 4, PLQ_LEVEL_LINE, 0},
    {"16\nx\n", 2, 2, 4, PLQ_LEVEL_HIGH, 0},
    {"0\n16\n", 2, 2, 4, PLQ_LEVEL_HIGH, 1},
    {"0\n1\n16\n", 2, 2, 4, PLQ_LEVEL_HIGH, 2},
    {"18446744073709551616\n", 2, 2, 2, PLQ_LEVEL_HIGH, 0},
    {"18446744073709551616\n", 8, 8, 8, PLQ_LEVEL_HIGH, 0},
    {"340282366920938463463374607431768211456\n", 8, 8, 8, PLQ_LEVEL_HIGH, 0},
};

static void levels_refused(void) {
    uint8_t bytes[64];
    const uint8_t symbols[4] = {0, 3, 4, 1};
    for (size_t i = 0; i < COUNT_OF(refused_levels); i++) {
        size_t size = strlen(refused_levels[i].text);
        uint64_t answer;
        fresh();
        memcpy(bytes, refused_levels[i].text, size);
        answer = plq_levels_read(refused_levels[i].m, refused_levels[i].r, bytes, size, row, refused_levels[i].room);
        answers(refused_levels[i].text, answer, refused_levels[i].number, refused_levels[i].detail);
        kept(refused_levels[i].text, row, sizeof row);
    }
    answers("levels_write, m 3", plq_levels_write(3, 9, symbols, 3, text, 0), PLQ_BAD_FIELD, 0);
    answers("levels_write, r 9", plq_levels_write(2, 9, symbols, 3, text, 0), PLQ_BAD_DEPTH, 0);
    answers("levels_write, three symbols", plq_levels_write(2, 2, symbols, 3, text, 0), PLQ_BAD_LENGTH, 0);
    answers("levels_write, symbol 4", plq_levels_write(2, 2, symbols, 4, text, 0), PLQ_SYMBOL_HIGH, 2);
    answers("levels_write, no room", plq_levels_write(2, 2, symbols, 2, text, 1), PLQ_BAD_LENGTH, 0);
    kept("levels that were not written", text, sizeof text);
}

/* Each slice of each call with length 0 and a null pointer. */
static void null_slices(void) {
    uint64_t answer;
    fresh();
    answers("encode, no points", plq_encode(2, 2, 4, NULL, 0, message, 4, row, 8), PLQ_BAD_POINTS, 0);
    answers("encode, no message", plq_encode(2, 2, 4, four, 4, NULL, 0, row, 8), PLQ_BAD_LENGTH, 0);
    answers("encode, no row", plq_encode(2, 2, 4, four, 4, message, 4, NULL, 0), PLQ_BAD_LENGTH, 0);
    answers("decode, no points", plq_decode(2, 2, 4, NULL, 0, sent, 8, row, 4, other, 4), PLQ_BAD_POINTS, 0);
    answers("decode, no row", plq_decode(2, 2, 4, four, 4, NULL, 0, row, 4, other, 4), PLQ_BAD_LENGTH, 0);
    answers("decode, no message", plq_decode(2, 2, 4, four, 4, sent, 8, NULL, 0, other, 4), PLQ_BAD_LENGTH, 0);
    answers("decode, no depths", plq_decode(2, 2, 4, four, 4, sent, 8, row, 4, NULL, 0), PLQ_BAD_LENGTH, 0);
    answers("distance, no rows", plq_distance(1, NULL, 0, NULL, 0), PLQ_BAD_LENGTH, 0);
    answers("distance, no first row", plq_distance(1, NULL, 0, four, 4), PLQ_BAD_LENGTH, 0);
    answers("distance, no second row", plq_distance(1, four, 4, NULL, 0), PLQ_BAD_LENGTH, 0);
    answers("slip_write, no points", plq_slip_write(1, 2, 2, 4, NULL, 0, sent, 8, slip, 6), PLQ_BAD_POINTS, 0);
    answers("slip_write, no row", plq_slip_write(1, 2, 2, 4, four, 4, NULL, 0, slip, 6), PLQ_BAD_LENGTH, 0);
    answers("slip_write, no bytes", plq_slip_write(2, 2, 2, 4, four, 4, sent, 8, NULL, 0), PLQ_BAD_LENGTH, 0);
    answer = plq_slip_read(NULL, 0, NULL, 0, NULL, 0);
    fact("slip_read, nothing", PLQ_NUMBER(answer) == PLQ_SLIP_SHORT);
    answer = plq_slip_read(six, 6, NULL, 0, other, 8);
    fact("slip_read, no points", PLQ_NUMBER(answer) == PLQ_BAD_LENGTH);
    answer = plq_slip_read(six, 6, row, 4, NULL, 0);
    fact("slip_read, no row", PLQ_NUMBER(answer) == PLQ_BAD_LENGTH);
    kept("a buffer beside a null one", row, sizeof row);
    kept("another buffer beside a null one", other, sizeof other);
    kept("a slip beside a null row", slip, sizeof slip);
    answers("roll_first, no roll", plq_roll_first(NULL, 0), PLQ_DONE, 0);
    answers("to_new, no slip", plq_to_new(NULL, 0, slip, 7), PLQ_SLIP_SHORT, 0);
    answers("to_new, no bytes", plq_to_new(six, 6, NULL, 0), PLQ_BAD_LENGTH, 0);
    answers("to_old, no slip", plq_to_old(NULL, 0, slip, 6), PLQ_SLIP_SHORT, 0);
    answers("to_old, no bytes", plq_to_old(seven, 7, NULL, 0), PLQ_BAD_LENGTH, 0);
    kept("a slip beside a null one", slip, sizeof slip);
    answers("levels_read, no text", plq_levels_read(2, 2, NULL, 0, row, 2), PLQ_BAD_LENGTH, 0);
    answers("levels_read, no row", plq_levels_read(2, 2, four, 4, NULL, 0), PLQ_BAD_LENGTH, 0);
    answers("levels_write, no row", plq_levels_write(2, 2, NULL, 0, text, 9), PLQ_BAD_LENGTH, 0);
    answers("levels_write, no text", plq_levels_write(2, 2, four, 4, NULL, 0), PLQ_BAD_LENGTH, 0);
    kept("a row beside a null text", row, sizeof row);
    kept("a text beside a null row", text, sizeof text);
    answers("line, no text", plq_line(six, 6, NULL, 0), PLQ_BAD_LENGTH, 0);
    answers("line, no slip", plq_line(NULL, 0, text, 5), PLQ_DONE, 5);
    holds("the line of no slip", text, "10 0\n", 5);
#ifdef __cplusplus
    std::vector<uint8_t> none;
    answers("line, an empty vector", plq_line(none.data(), none.size(), text, 5), PLQ_DONE, 5);
    answers("line, an empty buffer", plq_line(six, 6, none.data(), none.size()), PLQ_BAD_LENGTH, 0);
#endif
}

int main(void) {
    points_and_symbols();
    done_calls();
    both_editions();
    over_and_back();
    a_roll();
    parts_of_a_word();
    refused_codes();
    refused_by_the_reader();
    limits();
    limits_of_editions();
    limits_of_turning();
    longest_row();
    levels();
    longest_levels();
    levels_refused();
    null_slices();
    printf("%u facts hold, %u differ\n", held, differ);
    return differ != 0;
}
