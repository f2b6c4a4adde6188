// The same work as the program packbench, by the same method: 64 bits of accumulator, four bytes at a time.
#include <stdint.h>
#include <stdio.h>
#include <string.h>

enum { FIELDS = 1200, MOST_BYTES = 2250, MANY = 200000, FEW = 10 };

__attribute__((noinline)) static void pack(unsigned w, const uint16_t *xs, size_t n, uint8_t *out, size_t len)
{
    uint64_t acc = 0;
    unsigned held = 0;
    size_t at = 0;
    for (size_t i = 0; i < n; i++) {
        acc = acc << w | (xs[i] & ((1u << w) - 1));
        held += w;
        if (held >= 32) {
            held -= 32;
            uint32_t word = (uint32_t)(acc >> held);
            out[at] = word >> 24;
            out[at + 1] = word >> 16;
            out[at + 2] = word >> 8;
            out[at + 3] = word;
            at += 4;
        }
    }
    unsigned fill = (8 - held % 8) % 8;
    acc <<= fill;
    held += fill;
    while (at < len) {
        held -= 8;
        out[at++] = acc >> held;
    }
}

__attribute__((noinline)) static void fields(unsigned w, const uint8_t *bytes, size_t len, uint16_t *xs, size_t n)
{
    uint64_t acc = 0;
    unsigned held = 0;
    size_t at = 0;
    for (size_t i = 0; i < n; i++) {
        if (held < w) {
            if (len - at >= 4) {
                uint32_t word = (uint32_t)bytes[at] << 24 | bytes[at + 1] << 16 | bytes[at + 2] << 8 | bytes[at + 3];
                acc = acc << 32 | word;
                held += 32;
                at += 4;
            } else {
                while (held < w) {
                    acc = acc << 8 | bytes[at++];
                    held += 8;
                }
            }
        }
        held -= w;
        xs[i] = acc >> held & ((1u << w) - 1);
    }
}

static uint32_t mixed(uint32_t sum, uint32_t x)
{
    return sum * 31 + x;
}

int main(int argc, char **argv)
{
    static uint16_t xs[FIELDS];
    static uint8_t bytes[MOST_BYTES];
    uint32_t x = 12345, sum = 0, part = 0;
    unsigned w = 6, pack_times = FEW, unpack_times = FEW;
    if (argc > 1) {
        w = 11;
        pack_times = strcmp(argv[1], "pack") ? 1 : MANY;
        unpack_times = strcmp(argv[1], "pack") ? MANY : 1;
    }
    size_t len = (FIELDS * w + 7) / 8;
    for (size_t i = 0; i < FIELDS; i++) {
        x = x * 1103515245 + 12345;
        xs[i] = x >> 16 & 63;
    }
    for (uint32_t r = 0; r < pack_times; r++) {
        xs[r % FIELDS] = r & 63;
        pack(w, xs, FIELDS, bytes, len);
        sum = mixed(sum, bytes[len - 1]);
    }
    for (size_t i = 0; i < len; i++)
        part = mixed(part, bytes[i]);
    printf("packed %u, ", mixed(sum, part));
    sum = part = 0;
    for (uint32_t r = 0; r < unpack_times; r++) {
        if (r % 900 < len)
            bytes[r % 900] ^= 1;
        fields(w, bytes, len, xs, FIELDS);
        sum = mixed(sum, xs[FIELDS - 1]);
    }
    for (size_t i = 0; i < FIELDS; i++)
        part = mixed(part, xs[i]);
    printf("unpacked %u\n", mixed(sum, part));
    return 0;
}
