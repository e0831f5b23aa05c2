/* plq: codes with chunks of depth r, and the slips that store their rows.
 *
 * A message of k symbols becomes a row of n symbols. If the row arrives damaged, and the damage is not deeper than
 * floor((n - k) / 2) in all, decoding gives the message back and says how deep each chunk was damaged.
 *
 * THE CODE. A code is given by three numbers and a list of points:
 *   m       bits of a symbol: 2, 4 or 8. Symbols and points are the bytes 0 to 2^m - 1.
 *   r       symbols in a chunk, 1 to 8.
 *   k       symbols in a message, 1 to n.
 *   points  1 to 2^m different symbols, one for each chunk. Their number is called n'.
 * A row has n = r n' symbols, at most 240: chunk after chunk, r symbols each. Nothing need be checked before a call.
 *
 * DISTANCE. Two chunks agree to the depth at which their symbols first differ; a chunk whose first symbol is wrong is
 * damaged to depth r, one whose last alone is wrong to depth 1. The distance of two rows is the sum over the chunks.
 *
 * EDITIONS. A slip stores a code and a row. There are two layouts: edition 1 holds rows of at most 128 symbols, edition 2 of at
 * most 240. The writer is told which to write; the reader and the roll's call take both, also mixed in one roll. Two calls turn a
 * slip of one edition into the same slip of the other.
 *
 * SLICES. Each slice is a pointer and, behind it, its length. Input slices are read only; slices that are not `const`
 * are buffers that the call may write. A buffer may not overlap another slice of the same call. Reads and writes stay
 * within the lengths given, so a slice of length 0 may have any pointer, also a null one.
 *
 * ANSWERS. Each call answers one word: in its low 8 bits a number, 0 if the call was done, else the reason why it was
 * refused (enum below), and above it a detail. A refused call changes no buffer. Where several reasons hold, the one that is
 * tried first is given, each being tried on the whole input before the next (but for the lines of plq_levels_read, which are
 * tried one after another); each call below says its order.
 * Indices and numbers of lines in details count from 0.
 *
 * No call allocates memory, keeps a pointer or has state: any number of threads may call at once. A thread with a stack
 * of 128 KiB is enough for every call.
 */
#ifndef PLQ_H
#define PLQ_H

#include <stddef.h>
#include <stdint.h>

#ifdef __cplusplus
extern "C" {
#endif

/* No row, slip, line or text of a row's levels is longer than these; a chunk has at most PLQ_MAX_DEPTH symbols. */
#define PLQ_MAX_ROW 240
#define PLQ_MAX_DEPTH 8
#define PLQ_MAX_SLIP 484
#define PLQ_MAX_LINE 1448
#define PLQ_MAX_LEVELS 960

/* The number of an answer. */
enum plq_number {
    PLQ_DONE = 0,
    PLQ_BAD_FIELD = 1,      /* m is not 2, 4 or 8; in a slip: field code 3 */
    PLQ_BAD_DEPTH = 2,      /* r is 0 or above 8 */
    PLQ_BAD_POINTS = 3,     /* no points, more than 2^m, or n above 240; for a slip of edition 1, n above 128 */
    PLQ_BAD_K = 4,          /* k is 0 or above n */
    PLQ_POINT_HIGH = 5,     /* a point is 2^m or more; detail: the least such index */
    PLQ_POINT_TWICE = 6,    /* a point equals an earlier one; detail: the least such index */
    PLQ_BAD_LENGTH = 7,     /* a length is wrong or a buffer too short */
    PLQ_SYMBOL_HIGH = 8,    /* a symbol of the message or row is 2^m or more; detail: the least such index */
    PLQ_TOO_FAR = 9,        /* no message has a row within floor((n - k) / 2) of this one */
    PLQ_SLIP_SHORT = 10,    /* the slip is shorter than 3 bytes, its header or its own size */
    PLQ_SLIP_EDITION = 11,  /* the edition of the slip, or the one asked for, is neither 1 nor 2; plq_to_new: it is not 1,
                             * plq_to_old: it is not 2 */
    PLQ_SLIP_LONG = 12,     /* the slip is longer than its own size */
    PLQ_SLIP_BITS = 13,     /* a zero or fill bit of the slip is not 0 */
    PLQ_ROW_LONG = 15,      /* n is above 128, so edition 1 has no room for the row */
    PLQ_LEVEL_LINE = 17,    /* a line of a text is no level as it must be written; detail: its number */
    PLQ_LEVEL_HIGH = 18     /* a level of a text is 2^(m r) or more; detail: the number of its line */
};

/* A cast that is clean in either language; for the macros below alone. */
#ifdef __cplusplus
#define PLQ_CAST_(type, value) (static_cast<type>(value))
#else
#define PLQ_CAST_(type, value) ((type)(value))
#endif

/* The parts of an answer. PLQ_DETAIL is for every call but plq_slip_read and plq_roll_first, which have macros of their own. */
#define PLQ_NUMBER(answer) PLQ_CAST_(unsigned, (answer) & 0xFF)
#define PLQ_DETAIL(answer) PLQ_CAST_(size_t, (answer) >> 8)
#define PLQ_ROLL_SIZE(answer) PLQ_CAST_(size_t, (answer) >> 8)
#define PLQ_SLIP_M(answer) PLQ_CAST_(size_t, (answer) >> 8 & 0xFF)
#define PLQ_SLIP_R(answer) PLQ_CAST_(size_t, (answer) >> 16 & 0xFF)
#define PLQ_SLIP_COUNT(answer) PLQ_CAST_(size_t, (answer) >> 24 & 0xFF)
#define PLQ_SLIP_K(answer) PLQ_CAST_(size_t, (answer) >> 32 & 0xFF)
#define PLQ_SLIP_DETAIL(answer) PLQ_CAST_(size_t, (answer) >> 40 & 0xFF)
#define PLQ_EDITION(answer) PLQ_CAST_(size_t, (answer) >> 48 & 0xFF)

/* Writes the row of a message.
 *
 *   message  exactly k symbols, lowest coefficient first
 *   row      exactly n bytes
 *
 * Answers number | detail << 8; the detail of a done call is 0. Tries 1 to 8 in this order. */
uint64_t plq_encode(size_t m, size_t r, size_t k,
                    const uint8_t *points, size_t points_len,
                    const uint8_t *message, size_t message_len,
                    uint8_t *row, size_t row_len);

/* Finds the message whose row lies within floor((n - k) / 2) of a received row. There is at most one.
 *
 *   row      exactly n symbols
 *   message  exactly k bytes, gets the message
 *   depths   exactly n' bytes, gets the depth of damage in each chunk
 *
 * Answers number | detail << 8; the detail of a done call is the sum of the depths. Tries 1 to 9 in this order. */
uint64_t plq_decode(size_t m, size_t r, size_t k,
                    const uint8_t *points, size_t points_len,
                    const uint8_t *row, size_t row_len,
                    uint8_t *message, size_t message_len,
                    uint8_t *depths, size_t depths_len);

/* Measures the distance of two rows with chunks of r symbols. The symbols may be any bytes.
 *
 *   a, b     of one length, a positive multiple of r and at most 240
 *
 * Answers number | detail << 8; the detail of a done call is the distance. Tries 2, then 7. */
uint64_t plq_distance(size_t r,
                      const uint8_t *a, size_t a_len,
                      const uint8_t *b, size_t b_len);

/* Writes a code and a row as a slip. Its size is ceil((n' + n) m / 8) bytes and those of its header: 3 in edition 1, at most 259
 * in all, and 4 in edition 2, at most 484. No other bytes are a slip of this code, row and edition: the zero bits at the header's
 * end and the fill bits behind the last symbol are 0.
 *
 *   edition  1 or 2. Edition 1 takes codes with n at most 128
 *   row      exactly n symbols; any row, not only one that plq_encode made
 *   bytes    at least as long as the slip; bytes behind it are kept
 *
 * Answers number | detail << 8; the detail of a done call is the size of the slip. Tries 11 on the edition, then 1 to 8 in this
 * order. */
uint64_t plq_slip_write(size_t edition, size_t m, size_t r, size_t k,
                        const uint8_t *points, size_t points_len,
                        const uint8_t *row, size_t row_len,
                        uint8_t *bytes, size_t bytes_len);

/* Reads a slip of either edition. The row is not decoded, and need not be near that of any message.
 *
 *   bytes    the slip, nothing before it and nothing behind it
 *   points   at least n' bytes; bytes behind the points are kept (PLQ_MAX_ROW is always enough)
 *   row      at least n bytes; bytes behind the row are kept (PLQ_MAX_ROW is always enough)
 *
 * Answers number | m << 8 | r << 16 | n' << 24 | k << 32 | detail << 40 | edition << 48. On refusal edition, m, r, n' and k
 * are 0; the detail is that of number 6, else 0. Tries, in this order: fewer than 3 bytes 10, then 11, edition 2 and fewer than 4
 * bytes 10, then 1, 3, 4, shorter than its size 10, then 12, 13, 6, 7. A done call gives a code that the other calls take, and
 * plq_slip_write makes these bytes, and no others, from that edition, code and row. */
uint64_t plq_slip_read(const uint8_t *bytes, size_t bytes_len,
                       uint8_t *points, size_t points_len,
                       uint8_t *row, size_t row_len);

/* Reads a slip, decodes its row and writes the line that the program slipread prints, with its newline:
 *
 *   0 TOTAL | MESSAGE | DEPTHS      decoded: total depth of damage, k symbols, n' depths, in decimal
 *   NUMBER DETAIL                   refused, by the reader (10, 11, 10, 1, 3, 4, 10, 12, 13, 6, in this order) or with 9
 *                                   by the decoder
 *
 *   text     at least as long as the line; bytes behind it are kept (PLQ_MAX_LINE is always enough)
 *
 * Answers number | detail << 8. Number 0: the line was written, whatever it says; the detail is its length.
 * Number 7: the buffer is too short for the line. There is no other answer. */
uint64_t plq_line(const uint8_t *slip, size_t slip_len,
                  uint8_t *text, size_t text_len);

/* Finds the first slip of a roll: slips of either edition one behind another, as an office saves them in one file.
 *
 *   roll     any bytes, of any length; the first slip is roll[0] to roll[size - 1], and the rest of the roll stands behind it
 *
 * Answers number | size << 8. An empty roll is done with size 0: none is left. A done call on any other roll has a size of
 * 4 to PLQ_MAX_SLIP, so the rest is shorter and a walk from slip to slip ends. On a refusal the size is 0, the rest is the whole
 * roll, and the walk ends too. Tries, in this order: fewer than 3 bytes 10, then 11, edition 2 and fewer than 4 bytes 10, then 1,
 * 3, 4, shorter than its size 10. The header alone finds the end; its zero bits, the points, the row and the fill are not
 * looked at, and plq_slip_read may still refuse the slip with 13 or 6. */
uint64_t plq_roll_first(const uint8_t *roll, size_t roll_len);

/* Turns a slip of edition 1 into one of edition 2. m, r, k, points and row stay as they are, and so do the line and every answer of
 * plq_decode; plq_to_old gives the first bytes again.
 *
 *   slip     of edition 1, nothing before it and nothing behind it
 *   bytes    at least slip_len + 1, the size of the new slip; bytes behind it are kept (PLQ_MAX_SLIP is always enough)
 *
 * Answers number | detail << 8; the detail of a done call is the size of the new slip. Tries, in this order: fewer than 3 bytes 10,
 * another edition than 1 11, then 1, 3, 4, shorter than its size 10, then 12, 13, 6, 7. With room it is done for every slip of
 * edition 1 that plq_slip_read reads. */
uint64_t plq_to_new(const uint8_t *slip, size_t slip_len,
                    uint8_t *bytes, size_t bytes_len);

/* And back: turns a slip of edition 2 into one of edition 1, if its n is at most 128. m, r, k, points and row stay as they are, and
 * so do the line and every answer of plq_decode; plq_to_new gives the first bytes again.
 *
 *   slip     of edition 2, nothing before it and nothing behind it
 *   bytes    at least slip_len - 1, the size of the new slip; bytes behind it are kept (PLQ_MAX_SLIP is always enough)
 *
 * Answers number | detail << 8; the detail of a done call is the size of the new slip. Tries, in this order: fewer than 3 bytes 10,
 * another edition than 2 11, fewer than 4 bytes 10, then 1, 3, 4, shorter than its size 10, then 12, 13, 6, n above 128 15, then 7.
 * With room it is done for every slip of edition 2 that plq_slip_read reads and whose n is at most 128. */
uint64_t plq_to_old(const uint8_t *slip, size_t slip_len,
                    uint8_t *bytes, size_t bytes_len);

/* Reads a text of levels, as a tone bench exports it, into a row. The level of a chunk is the sum of symbol j times q^(r - 1 - j),
 * with q = 2^m: its symbols are the digits of a number to the base q, the first one highest. The text has a line for each chunk:
 * the level in decimal, with no leading zero unless it is 0 itself, and a newline. No code is needed, and a row may have more
 * chunks than the field has elements.
 *
 *   text     any bytes, of any length
 *   row      of the row's length, a positive multiple of r and at most 240; gets the symbols
 *
 * Answers number | line << 8. Tries 1, 2, then 7 on the length of row, then the lines in order, those behind the row's last chunk
 * too: 17 for one that is not written as above (blank, with a leading zero, with any byte that is no digit, also a carriage return, a
 * sign or a space, or the last one without its newline), however large its number is, 18 for a well-written level of q^r or more, with any number of digits; and then 7 for a
 * number of lines other than row_len / r. The detail of 17 and 18 is the number of the line, of which the word holds 56 bits: all of
 * it for every text below 2^57 bytes. The detail of every other answer is 0. A text that is read is the one that plq_levels_write
 * makes of the row. */
uint64_t plq_levels_read(size_t m, size_t r,
                         const uint8_t *text, size_t text_len,
                         uint8_t *row, size_t row_len);

/* Writes the levels of a row as a text, one to a line: what plq_levels_read reads back into this row.
 *
 *   row      a positive multiple of r symbols, at most 240
 *   text     at least as long as the text; bytes behind it are kept (PLQ_MAX_LEVELS is always enough)
 *
 * Answers number | detail << 8; the detail of a done call is the length of the text. Tries 1, 2, then 7 on the length of row, then 8,
 * then 7 for a short text buffer. */
uint64_t plq_levels_write(size_t m, size_t r,
                          const uint8_t *row, size_t row_len,
                          uint8_t *text, size_t text_len);

#ifdef __cplusplus
}
#endif

#endif
