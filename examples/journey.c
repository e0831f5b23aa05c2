/* A journey's digits are made into a row, the row is damaged on its way, and decoding gives the digits back.
 *
 *     gcc -Iinclude examples/journey.c target/staticlib/libplq.a -o target/journey && target/journey
 */
#include <plq.h>
#include <stdio.h>
#include <string.h>

/* 16-valued symbols, 6 chunks of 2: n = 12 and k = 6, so damage up to depth 3 in all is repaired. */
enum { M = 4, R = 2, K = 6, COUNT = 6, N = R * COUNT };

static const uint8_t points[COUNT] = {0, 1, 2, 3, 4, 5};

static void print(const char *name, const uint8_t *symbols, size_t count) {
    printf("%-9s", name);
    for (size_t i = 0; i < count; i++) {
        printf(" %u", (unsigned)symbols[i]);
    }
    printf("\n");
}

/* Prints why a call was refused and gives the program's status. */
static int refused(const char *call, uint64_t answer) {
    fprintf(stderr, "%s refused with %u, detail %zu\n", call, PLQ_NUMBER(answer), PLQ_DETAIL(answer));
    return 1;
}

int main(void) {
    const uint8_t message[K] = {3, 1, 4, 1, 5, 9};
    uint8_t row[N], found[K], depths[COUNT];

    uint64_t answer = plq_encode(M, R, K, points, COUNT, message, K, row, N);
    if (PLQ_NUMBER(answer) != PLQ_DONE) {
        return refused("plq_encode", answer);
    }
    print("message", message, K);
    print("row", row, N);

    row[0] ^= 7;         /* chunk 0, first symbol: depth 2 */
    row[2 * R + 1] ^= 1; /* chunk 2, last symbol: depth 1 */
    print("received", row, N);

    answer = plq_decode(M, R, K, points, COUNT, row, N, found, K, depths, COUNT);
    if (PLQ_NUMBER(answer) != PLQ_DONE) {
        return refused("plq_decode", answer);
    }
    print("decoded", found, K);
    print("depths", depths, COUNT);
    printf("damaged to depth %zu in all\n", PLQ_DETAIL(answer));
    return memcmp(found, message, K) != 0;
}
