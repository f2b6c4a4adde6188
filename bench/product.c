// The product of crates/ring in C, on the same numbers: n = 1018 coefficients by a secret of 254 positions, 20,000 times.
#include <stdint.h>
#include <stdio.h>
#include <stdlib.h>
#include <string.h>

enum { N = 1018, H = 254, ROUNDS = 20000 };

static void run(uint16_t *restrict dst, const uint16_t *restrict src, size_t len, int subtract) {
    if (subtract) {
        for (size_t i = 0; i < len; i++) dst[i] -= src[i];
    } else {
        for (size_t i = 0; i < len; i++) dst[i] += src[i];
    }
}

__attribute__((noipa)) static void multiply(const uint16_t *restrict poly, size_t n, const uint16_t *restrict secret, size_t h, uint16_t *restrict out) {
    memset(out, 0, (n + 1) * sizeof *out);
    for (size_t j = 0; j < h; j++) {
        size_t p = secret[j];
        size_t split = n < n + 1 - p ? n : n + 1 - p;
        run(out + p, poly, split, j % 2 != 0);
        run(out, poly + split, n - split, j % 2 != 0);
    }
}

static uint32_t next(uint32_t state) { return state * 1664525u + 1013904223u; }

int main(void) {
    uint16_t *poly = malloc(N * sizeof *poly), *secret = malloc(H * sizeof *secret), *out = malloc((N + 1) * sizeof *out);
    if (!poly || !secret || !out) return 1;
    uint32_t state = 1, sum = 0;
    for (size_t i = 0; i < N; i++) {
        state = next(state);
        poly[i] = (uint16_t)(state >> 16);
    }
    for (size_t i = 0; i < H; i++) {
        state = next(state);
        secret[i] = (uint16_t)((state >> 16) % N);
    }
    for (size_t i = 0; i < ROUNDS; i++) {
        multiply(poly, N, secret, H, out);
        uint16_t x = out[i % (N + 1)];
        poly[i % N] += x;
        sum = sum * 31 + x;
    }
    printf("%u\n", sum);
    return 0;
}
