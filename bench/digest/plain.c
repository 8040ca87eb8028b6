// SHA-256 of FIPS 180-4 in plain C, by the same steps as the crate digest: a schedule of 64 words, eight rounds
// to a turn, and the padding in a buffer of two blocks.
#include <stddef.h>
#include <stdint.h>
#include <string.h>

typedef struct {
    uint32_t a, b, c, d, e, f, g, h;
} state;

static const uint32_t constants[64] = {
    0x428a2f98, 0x71374491, 0xb5c0fbcf, 0xe9b5dba5, 0x3956c25b, 0x59f111f1, 0x923f82a4, 0xab1c5ed5,
    0xd807aa98, 0x12835b01, 0x243185be, 0x550c7dc3, 0x72be5d74, 0x80deb1fe, 0x9bdc06a7, 0xc19bf174,
    0xe49b69c1, 0xefbe4786, 0x0fc19dc6, 0x240ca1cc, 0x2de92c6f, 0x4a7484aa, 0x5cb0a9dc, 0x76f988da,
    0x983e5152, 0xa831c66d, 0xb00327c8, 0xbf597fc7, 0xc6e00bf3, 0xd5a79147, 0x06ca6351, 0x14292967,
    0x27b70a85, 0x2e1b2138, 0x4d2c6dfc, 0x53380d13, 0x650a7354, 0x766a0abb, 0x81c2c92e, 0x92722c85,
    0xa2bfe8a1, 0xa81a664b, 0xc24b8b70, 0xc76c51a3, 0xd192e819, 0xd6990624, 0xf40e3585, 0x106aa070,
    0x19a4c116, 0x1e376c08, 0x2748774c, 0x34b0bcb5, 0x391c0cb3, 0x4ed8aa4a, 0x5b9cca4f, 0x682e6ff3,
    0x748f82ee, 0x78a5636f, 0x84c87814, 0x8cc70208, 0x90befffa, 0xa4506ceb, 0xbef9a3f7, 0xc67178f2,
};

static uint32_t rotr(uint32_t x, int n) { return x >> n | x << (32 - n); }
static uint32_t choose(uint32_t x, uint32_t y, uint32_t z) { return (x & y) ^ (~x & z); }
static uint32_t majority(uint32_t x, uint32_t y, uint32_t z) { return (x & y) ^ (x & z) ^ (y & z); }
static uint32_t big_sigma0(uint32_t x) { return rotr(x, 2) ^ rotr(x, 13) ^ rotr(x, 22); }
static uint32_t big_sigma1(uint32_t x) { return rotr(x, 6) ^ rotr(x, 11) ^ rotr(x, 25); }
static uint32_t sigma0(uint32_t x) { return rotr(x, 7) ^ rotr(x, 18) ^ x >> 3; }
static uint32_t sigma1(uint32_t x) { return rotr(x, 17) ^ rotr(x, 19) ^ x >> 10; }

static state round_at(state v, const uint32_t *ws, size_t t) {
    uint32_t t1 = v.h + big_sigma1(v.e) + choose(v.e, v.f, v.g) + constants[t] + ws[t];
    uint32_t t2 = big_sigma0(v.a) + majority(v.a, v.b, v.c);
    return (state){t1 + t2, v.a, v.b, v.c, v.d + t1, v.e, v.f, v.g};
}

static void schedule(uint32_t ws[64], const uint8_t *block) {
    for (size_t t = 0; t < 16; t++)
        ws[t] = (uint32_t)block[4 * t] << 24 | (uint32_t)block[4 * t + 1] << 16
              | (uint32_t)block[4 * t + 2] << 8 | block[4 * t + 3];
    for (size_t t = 16; t < 64; t++)
        ws[t] = sigma1(ws[t - 2]) + ws[t - 7] + sigma0(ws[t - 15]) + ws[t - 16];
}

static state compress(state s, const uint8_t *block) {
    uint32_t ws[64];
    schedule(ws, block);
    state v = s;
    for (size_t t = 0; t < 64; t += 8) {
        v = round_at(v, ws, t);
        v = round_at(v, ws, t + 1);
        v = round_at(v, ws, t + 2);
        v = round_at(v, ws, t + 3);
        v = round_at(v, ws, t + 4);
        v = round_at(v, ws, t + 5);
        v = round_at(v, ws, t + 6);
        v = round_at(v, ws, t + 7);
    }
    return (state){v.a + s.a, v.b + s.b, v.c + s.c, v.d + s.d, v.e + s.e, v.f + s.f, v.g + s.g, v.h + s.h};
}

static state absorb(state s, const uint8_t *bytes, size_t length) {
    for (size_t i = 0; i < length / 64; i++)
        s = compress(s, bytes + 64 * i);
    return s;
}

void plain_sha256(const uint8_t *message, size_t length, uint8_t out[32]) {
    state s = {0x6a09e667, 0xbb67ae85, 0x3c6ef372, 0xa54ff53a, 0x510e527f, 0x9b05688c, 0x1f83d9ab, 0x5be0cd19};
    size_t rest = length % 64, end = rest + 9 + (119 - rest) % 64;
    uint64_t bits = 8 * (uint64_t)length;
    uint8_t last[128] = {0};
    memcpy(last, message + (length - rest), rest);
    last[rest] = 128;
    for (int i = 0; i < 8; i++)
        last[end - 1 - i] = (uint8_t)(bits >> (8 * i));
    s = absorb(absorb(s, message, length), last, end);
    uint32_t words[8] = {s.a, s.b, s.c, s.d, s.e, s.f, s.g, s.h};
    for (int i = 0; i < 8; i++)
        for (int j = 0; j < 4; j++)
            out[4 * i + j] = (uint8_t)(words[i] >> (24 - 8 * j));
}
