// Times functions in turn on 64 MiB and on a million messages of 107 bytes, by the thread's own time, the best of several runs.
// usage: bench NAME.. (filuvendo, plain, openssl); prints for each: MiB per second, nanoseconds per message
#define _POSIX_C_SOURCE 199309L
#include <openssl/sha.h>
#include <stdint.h>
#include <stdio.h>
#include <stdlib.h>
#include <string.h>
#include <time.h>

enum { LARGE = 64 << 20, SMALL = 107, MESSAGES = 1000000, RUNS = 15, NAMES = 4 };

typedef void hash(const uint8_t *message, size_t length, uint8_t out[32]);

hash filuvendo_sha256, plain_sha256;

static void openssl_sha256(const uint8_t *message, size_t length, uint8_t out[32]) { SHA256(message, length, out); }

static double now(void) {
    struct timespec t;
    clock_gettime(CLOCK_THREAD_CPUTIME_ID, &t);
    return (double)t.tv_sec + 1e-9 * (double)t.tv_nsec;
}

static double timed(hash *f, const uint8_t *bytes, size_t length, size_t times) {
    uint8_t out[32] = {0};
    double start = now();
    for (size_t i = 0; i < times; i++)
        f(bytes + (out[0] & 7), length, out);
    return now() - start;
}

static hash *named(const char *name) {
    return !strcmp(name, "filuvendo") ? filuvendo_sha256 : !strcmp(name, "plain") ? plain_sha256 : openssl_sha256;
}

static int same(hash *f, const uint8_t *bytes, size_t length) {
    uint8_t mine[32], theirs[32];
    f(bytes, length, mine);
    openssl_sha256(bytes, length, theirs);
    return memcmp(mine, theirs, 32) == 0;
}

static double lesser(double x, double y) { return x < y ? x : y; }

int main(int argc, char **argv) {
    uint8_t *bytes = malloc(LARGE + 8);
    if (!bytes || argc > NAMES) return 2;
    for (size_t i = 0; i < LARGE + 8; i++)
        bytes[i] = (uint8_t)(i * 2654435761u >> 24);
    double large[NAMES], small[NAMES];
    for (int k = 1; k < argc; k++) {
        large[k] = small[k] = 1e9;
        for (size_t n = 0; n < 300; n++)
            if (!same(named(argv[k]), bytes, n)) return 1;
    }
    for (int run = 0; run < RUNS; run++)
        for (int k = 1; k < argc; k++) {
            large[k] = lesser(large[k], timed(named(argv[k]), bytes, LARGE, 1));
            small[k] = lesser(small[k], timed(named(argv[k]), bytes, SMALL, MESSAGES));
        }
    for (int k = 1; k < argc; k++)
        printf("%-10s %8.1f MiB/s %8.1f ns\n", argv[k], 64 / large[k], 1e9 / MESSAGES * small[k]);
    return 0;
}
