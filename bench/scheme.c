// The calls of the kit in plain C, with a SHAKE256 of its own: the same inputs and the same words as the program kitbench, for bench/kit.py.
#include <stdint.h>
#include <stdio.h>
#include <stdlib.h>
#include <string.h>

enum {
    MOST_N = 1200,
    AREA_WORDS = MOST_N + 1,
    MOST_CHECKS = 10,
    SEED_BYTES = 32,
    COINS_BYTES = 3 * SEED_BYTES,
    LIST_BYTES = 65536,
    LONGEST_KEY = 33 + MOST_N * 15 / 8,
    LONGEST_PARCEL = 33 + MOST_N * 29 / 8,
    LONGEST_MESSAGE = 32,
    KEY_KIND = 0x4b,
    PARCEL_KIND = 0x50,
    RUNS = 4,
};

// ---- SHAKE256 ----

enum { RATE = 136, LANES = RATE / 8 };

typedef struct {
    uint64_t lane[25];
    size_t at;
} sponge;

static const uint64_t round_constant[24] = {
    0x0000000000000001, 0x0000000000008082, 0x800000000000808a, 0x8000000080008000, 0x000000000000808b, 0x0000000080000001,
    0x8000000080008081, 0x8000000000008009, 0x000000000000008a, 0x0000000000000088, 0x0000000080008009, 0x000000008000000a,
    0x000000008000808b, 0x800000000000008b, 0x8000000000008089, 0x8000000000008003, 0x8000000000008002, 0x8000000000000080,
    0x000000000000800a, 0x800000008000000a, 0x8000000080008081, 0x8000000000008080, 0x0000000080000001, 0x8000000080008008,
};

static inline uint64_t rotated(uint64_t x, unsigned by)
{
    return by == 0 ? x : x << by | x >> (64 - by);
}

// Row y of the next state: five lanes of the old one, each with its column's parity added and rotated, then combined.
#define ROW(to, from, y, i0, r0, i1, r1, i2, r2, i3, r3, i4, r4)         \
    do {                                                                 \
        uint64_t b0 = rotated(from[i0] ^ d[(i0) % 5], r0);               \
        uint64_t b1 = rotated(from[i1] ^ d[(i1) % 5], r1);               \
        uint64_t b2 = rotated(from[i2] ^ d[(i2) % 5], r2);               \
        uint64_t b3 = rotated(from[i3] ^ d[(i3) % 5], r3);               \
        uint64_t b4 = rotated(from[i4] ^ d[(i4) % 5], r4);               \
        to[5 * (y)] = b0 ^ (~b1 & b2);                                   \
        to[5 * (y) + 1] = b1 ^ (~b2 & b3);                               \
        to[5 * (y) + 2] = b2 ^ (~b3 & b4);                               \
        to[5 * (y) + 3] = b3 ^ (~b4 & b0);                               \
        to[5 * (y) + 4] = b4 ^ (~b0 & b1);                               \
    } while (0)

#define COLUMN(from, x) (from[x] ^ from[(x) + 5] ^ from[(x) + 10] ^ from[(x) + 15] ^ from[(x) + 20])

#define ROUND(to, from, constant)                                        \
    do {                                                                 \
        uint64_t c0 = COLUMN(from, 0), c1 = COLUMN(from, 1), c2 = COLUMN(from, 2), c3 = COLUMN(from, 3), c4 = COLUMN(from, 4); \
        uint64_t d[5] = {c4 ^ rotated(c1, 1), c0 ^ rotated(c2, 1), c1 ^ rotated(c3, 1), c2 ^ rotated(c4, 1), c3 ^ rotated(c0, 1)}; \
        ROW(to, from, 0, 0, 0, 6, 44, 12, 43, 18, 21, 24, 14);           \
        ROW(to, from, 1, 3, 28, 9, 20, 10, 3, 16, 45, 22, 61);           \
        ROW(to, from, 2, 1, 1, 7, 6, 13, 25, 19, 8, 20, 18);             \
        ROW(to, from, 3, 4, 27, 5, 36, 11, 10, 17, 15, 23, 56);          \
        ROW(to, from, 4, 2, 62, 8, 55, 14, 39, 15, 41, 21, 2);           \
        to[0] ^= (constant);                                             \
    } while (0)

static void permute(uint64_t lane[25])
{
    uint64_t a[25], e[25];
    memcpy(a, lane, sizeof a);
    for (size_t i = 0; i < 24; i += 2) {
        ROUND(e, a, round_constant[i]);
        ROUND(a, e, round_constant[i + 1]);
    }
    memcpy(lane, a, sizeof a);
}

static inline uint64_t load64(const uint8_t *from)
{
    uint64_t x = 0;
    for (unsigned i = 0; i < 8; i++)
        x |= (uint64_t)from[i] << 8 * i;
    return x;
}

static inline void store64(uint8_t *to, uint64_t x)
{
    for (unsigned i = 0; i < 8; i++)
        to[i] = (uint8_t)(x >> 8 * i);
}

static void add_byte(sponge *s, uint8_t byte)
{
    s->lane[s->at / 8] ^= (uint64_t)byte << 8 * (s->at % 8);
    s->at++;
}

static void absorb(sponge *s, const uint8_t *from, size_t len)
{
    while (len > 0) {
        if (s->at % 8 == 0 && len >= 8) {
            s->lane[s->at / 8] ^= load64(from);
            s->at += 8;
            from += 8;
            len -= 8;
        } else {
            add_byte(s, *from++);
            len--;
        }
        if (s->at == RATE) {
            permute(s->lane);
            s->at = 0;
        }
    }
}

// Ends the input. The first block of output is made when it is asked for.
static void finish(sponge *s)
{
    add_byte(s, 0x1f);
    s->lane[LANES - 1] ^= (uint64_t)0x80 << 56;
    s->at = RATE;
}

// The next whole block.
static void squeeze_block(sponge *s, uint8_t block[RATE])
{
    permute(s->lane);
    for (size_t i = 0; i < LANES; i++)
        store64(block + 8 * i, s->lane[i]);
}

static void squeeze(sponge *s, uint8_t *to, size_t len)
{
    uint8_t block[RATE];
    while (len > 0) {
        squeeze_block(s, block);
        size_t part = len < RATE ? len : RATE;
        memcpy(to, block, part);
        to += part;
        len -= part;
    }
}

// SHAKE256 of a byte and two strings.
static void hash(uint8_t label, const uint8_t *first, size_t first_len, const uint8_t *second, size_t second_len, uint8_t *to, size_t len)
{
    sponge s = {0};
    absorb(&s, &label, 1);
    absorb(&s, first, first_len);
    absorb(&s, second, second_len);
    finish(&s);
    squeeze(&s, to, len);
}

// ---- sets ----

typedef struct {
    const char *name;
    size_t n, h;
    unsigned qb, pb, tb;
    size_t kappa, f;
    int block;
    size_t lengths[MOST_CHECKS];
} set;

static const set sets[] = {
    {"small", 10, 2, 8, 6, 3, 8, 0, 0, {0}},
    {"coded", 946, 388, 11, 8, 5, 256, 5, 1, {16, 16, 17, 19, 21, 23, 25, 29, 31, 37}},
    {"wide", 1170, 222, 14, 10, 4, 256, 0, 0, {0}},
    {"noisy", 946, 700, 11, 7, 3, 256, 5, 1, {16, 16, 17, 19, 21, 23, 25, 29, 31, 37}},
    {"least", 8, 8, 3, 2, 1, 8, 0, 0, {0}},
    {"most", 1200, 1200, 16, 15, 14, 256, 0, 0, {0}},
};

enum { SETS = sizeof sets / sizeof *sets };

static size_t symbol_count(const set *set)
{
    size_t mu = set->kappa;
    for (size_t j = 0; j < 2 * set->f; j++)
        mu += set->lengths[j];
    return mu;
}

static size_t key_length(const set *set)
{
    return 33 + (set->n * set->pb + 7) / 8;
}

static size_t parcel_length(const set *set)
{
    return 33 + (set->n * set->pb + symbol_count(set) * set->tb + 7) / 8;
}

// ---- expanding seeds: the first 65,536 bytes of SHAKE256 of the label and the seed, two bytes at a time ----

typedef struct {
    sponge sponge;
    uint8_t block[RATE];
    size_t at, drawn;
} book;

static void start(book *book, uint8_t label, const uint8_t seed[SEED_BYTES])
{
    memset(&book->sponge, 0, sizeof book->sponge);
    absorb(&book->sponge, &label, 1);
    absorb(&book->sponge, seed, SEED_BYTES);
    finish(&book->sponge);
    book->at = RATE;
    book->drawn = 0;
}

// The next value, or -1 where the list is at its end.
static inline int32_t draw(book *book)
{
    if (book->drawn == LIST_BYTES)
        return -1;
    if (book->at == RATE) {
        squeeze_block(&book->sponge, book->block);
        book->at = 0;
    }
    int32_t value = book->block[book->at] | book->block[book->at + 1] << 8;
    book->at += 2;
    book->drawn += 2;
    return value;
}

static void expand_polynomial(const set *set, const uint8_t *sigma, uint16_t *a)
{
    book book;
    start(&book, 1, sigma);
    for (size_t i = 0; i < set->n; i++)
        a[i] = (uint16_t)draw(&book) & ((1u << set->qb) - 1);
}

// The h positions of a secret; 0 where the list is too short.
static int expand_secret(const set *set, const uint8_t *seed, uint16_t *positions)
{
    uint8_t marked[MOST_N] = {0};
    book book;
    start(&book, 2, seed);
    uint32_t each = 65536 / (uint32_t)set->n;
    size_t kept = 0;
    while (kept < set->h) {
        int32_t value = draw(&book);
        if (value < 0)
            return 0;
        uint32_t position = (uint32_t)value / each;
        if (position >= set->n || marked[position])
            continue;
        marked[position] = 1;
        positions[kept++] = (uint16_t)position;
    }
    return 1;
}

// ---- products by a secret: the positions have the signs + and - by turn ----

#define PRODUCT(name, word)                                                                                             \
    static void name(const word *restrict poly, size_t n, const uint16_t *restrict secret, size_t h, word *restrict out) \
    {                                                                                                                   \
        memset(out, 0, (n + 1) * sizeof *out);                                                                          \
        for (size_t j = 0; j < h; j++) {                                                                                \
            size_t shift = secret[j], head = n + 1 - shift < n ? n + 1 - shift : n;                                     \
            if (j % 2 == 0) {                                                                                           \
                for (size_t i = 0; i < head; i++)                                                                       \
                    out[shift + i] += poly[i];                                                                          \
                for (size_t i = head; i < n; i++)                                                                       \
                    out[i - head] += poly[i];                                                                           \
            } else {                                                                                                    \
                for (size_t i = 0; i < head; i++)                                                                       \
                    out[shift + i] -= poly[i];                                                                          \
                for (size_t i = head; i < n; i++)                                                                       \
                    out[i - head] -= poly[i];                                                                           \
            }                                                                                                           \
        }                                                                                                               \
    }

PRODUCT(multiply, uint16_t)
PRODUCT(multiply_signed, uint32_t)

// ---- rounding and symbols ----

static uint16_t half_step(const set *set)
{
    return (uint16_t)(1u << (set->qb - set->pb - 1));
}

// The reduced product, rounded.
static void round_product(const set *set, const uint16_t *restrict product, uint16_t *restrict out)
{
    uint16_t h1 = half_step(set), top = product[set->n], mask = (uint16_t)((1u << set->pb) - 1);
    unsigned shift = set->qb - set->pb;
    for (size_t i = 0; i < set->n; i++)
        out[i] = (uint16_t)(product[i] - top + h1) >> shift & mask;
}

static void make_symbols(const set *set, const uint16_t *restrict x, const uint8_t *restrict bits, size_t mu, uint16_t *restrict v)
{
    uint16_t h1 = half_step(set), mask = (uint16_t)((1u << set->tb) - 1);
    unsigned shift = set->pb - set->tb;
    for (size_t i = 0; i < mu; i++)
        v[i] = (uint16_t)(((uint16_t)(x[i] + h1) >> shift) + (bits[i] << (set->tb - 1))) & mask;
}

static void raw_bits(const set *set, const uint16_t *restrict v, const uint16_t *restrict x, size_t mu, uint8_t *restrict bits)
{
    uint16_t h2 = (uint16_t)((1u << (set->pb - set->tb - 1)) + (1u << set->pb) / 4 - half_step(set));
    unsigned shift = set->pb - set->tb, top = set->pb - 1;
    for (size_t i = 0; i < mu; i++)
        bits[i] = (uint16_t)((v[i] << shift) - x[i] + h2) >> top & 1;
}

// ---- the correcting code ----

// Adds the parities of the payload to the check bits that follow it. Places go round with the payload: a run of it at a time, with no division.
static void add_checks(const set *set, uint8_t *restrict word)
{
    const uint8_t *payload = word;
    uint8_t *check = word + set->kappa;
    for (size_t j = 0; j < 2 * set->f; check += set->lengths[j++]) {
        size_t len = set->lengths[j];
        if (j == 0 && set->block) {
            size_t each = set->kappa / len;
            for (size_t i = 0; i < len; i++)
                for (size_t k = 0; k < each; k++)
                    check[i] ^= payload[i * each + k];
            continue;
        }
        for (size_t from = 0; from < set->kappa; from += len) {
            size_t run = set->kappa - from < len ? set->kappa - from : len;
            for (size_t i = 0; i < run; i++)
                check[i] ^= payload[from + i];
        }
    }
}

// For each payload position, in how many checks its bit differs.
static void count_votes(const set *set, const uint8_t *restrict check, uint8_t *restrict votes)
{
    for (size_t j = 0; j < 2 * set->f; check += set->lengths[j++]) {
        size_t len = set->lengths[j];
        if (j == 0 && set->block) {
            size_t each = set->kappa / len;
            for (size_t i = 0; i < len; i++)
                for (size_t k = 0; k < each; k++)
                    votes[i * each + k] += check[i];
            continue;
        }
        for (size_t from = 0; from < set->kappa; from += len) {
            size_t run = set->kappa - from < len ? set->kappa - from : len;
            for (size_t i = 0; i < run; i++)
                votes[from + i] += check[i];
        }
    }
}

static void encode(const set *set, const uint8_t *message, uint8_t *word, size_t mu)
{
    memset(word, 0, mu);
    for (size_t k = 0; k < set->kappa; k++)
        word[k] = message[k / 8] >> (7 - k % 8) & 1;
    add_checks(set, word);
}

// The message of a word that was received.
static void correct(const set *set, uint8_t *word, uint8_t *message)
{
    uint8_t votes[8 * LONGEST_MESSAGE] = {0};
    add_checks(set, word);
    count_votes(set, word + set->kappa, votes);
    memset(message, 0, set->kappa / 8);
    for (size_t k = 0; k < set->kappa; k++)
        message[k / 8] |= (uint8_t)((word[k] ^ (votes[k] > set->f)) << (7 - k % 8));
}

// ---- bytes ----

typedef struct {
    uint8_t *to;
    uint64_t held;
    unsigned bits;
} writer;

static void write_fields(writer *w, const uint16_t *xs, size_t count, unsigned width)
{
    for (size_t i = 0; i < count; i++) {
        w->held = w->held << width | xs[i];
        w->bits += width;
        if (w->bits >= 32) {
            w->bits -= 32;
            uint32_t four = (uint32_t)(w->held >> w->bits);
            w->to[0] = (uint8_t)(four >> 24);
            w->to[1] = (uint8_t)(four >> 16);
            w->to[2] = (uint8_t)(four >> 8);
            w->to[3] = (uint8_t)four;
            w->to += 4;
        }
    }
}

static void write_end(writer *w)
{
    unsigned fill = (8 - w->bits % 8) % 8;
    w->held <<= fill;
    w->bits += fill;
    while (w->bits > 0) {
        w->bits -= 8;
        *w->to++ = (uint8_t)(w->held >> w->bits);
    }
}

typedef struct {
    const uint8_t *from, *end;
    uint64_t held;
    unsigned bits;
} reader;

static void read_fields(reader *r, uint16_t *xs, size_t count, unsigned width)
{
    uint16_t mask = (uint16_t)((1u << width) - 1);
    for (size_t i = 0; i < count; i++) {
        if (r->bits < width) {
            if (r->end - r->from >= 4) {
                uint32_t four = (uint32_t)r->from[0] << 24 | (uint32_t)r->from[1] << 16 | (uint32_t)r->from[2] << 8 | r->from[3];
                r->held = r->held << 32 | four;
                r->from += 4;
                r->bits += 32;
            } else {
                for (; r->bits < width; r->bits += 8)
                    r->held = r->held << 8 | *r->from++;
            }
        }
        r->bits -= width;
        xs[i] = (uint16_t)(r->held >> r->bits) & mask;
    }
}

// The kind byte is right, and so many bits of fields from byte `first` on leave only zeros in their last byte.
static int well_formed(const uint8_t *bytes, uint8_t kind, size_t first, size_t bits)
{
    size_t fill = (8 - bits % 8) % 8, last = first + (bits + 7) / 8 - 1;
    return bytes[0] == kind && (bytes[last] & ((1u << fill) - 1)) == 0;
}

static void write_key(const set *set, const uint8_t *sigma, const uint16_t *b, uint8_t *key)
{
    key[0] = KEY_KIND;
    memcpy(key + 1, sigma, SEED_BYTES);
    writer w = {key + 1 + SEED_BYTES, 0, 0};
    write_fields(&w, b, set->n, set->pb);
    write_end(&w);
}

// ---- the calls; each answers 0 where it refuses, and leaves the areas all zeros ----

typedef struct {
    uint16_t secret[AREA_WORDS], product[AREA_WORDS];
} areas;

static int wiped(areas *areas, int answer)
{
    memset(areas, 0, sizeof *areas);
    __asm__ volatile("" : : "r"(areas) : "memory");
    return answer;
}

// Expands the coins' seeds, and makes b and the key of them.
static int make_key(const set *set, const uint8_t *coins, areas *areas, uint16_t *a, uint16_t *b, uint8_t *key)
{
    expand_polynomial(set, coins, a);
    if (!expand_secret(set, coins + SEED_BYTES, areas->secret))
        return 0;
    multiply(a, set->n, areas->secret, set->h, areas->product);
    round_product(set, areas->product, b);
    write_key(set, coins, b, key);
    return 1;
}

static int publish(const set *set, const uint8_t *coins, uint8_t *key, areas *areas)
{
    uint16_t a[MOST_N], b[MOST_N];
    return wiped(areas, make_key(set, coins, areas, a, b, key));
}

// Writes the parcel of a message, and l.
static int encrypt(const set *set, const uint16_t *a, const uint16_t *b, const uint8_t *key, const uint8_t *message, uint8_t *parcel, uint8_t *l, areas *areas)
{
    uint16_t u[MOST_N], v[MOST_N];
    uint8_t word[MOST_N], parts[96];
    size_t mu = symbol_count(set);
    hash(0x10, message, set->kappa / 8, key, key_length(set), parts, sizeof parts);
    if (!expand_secret(set, parts + 64, areas->secret))
        return 0;
    multiply(a, set->n, areas->secret, set->h, areas->product);
    round_product(set, areas->product, u);
    multiply(b, set->n, areas->secret, set->h, areas->product);
    encode(set, message, word, mu);
    make_symbols(set, areas->product, word, mu, v);
    parcel[0] = PARCEL_KIND;
    writer w = {parcel + 1, 0, 0};
    write_fields(&w, u, set->n, set->pb);
    write_fields(&w, v, mu, set->tb);
    write_end(&w);
    memcpy(w.to, parts + 32, 32);
    memcpy(l, parts, 32);
    return 1;
}

static int seal(const set *set, const uint8_t *key, const uint8_t *message, uint8_t *parcel, uint8_t *secret, areas *areas)
{
    uint16_t a[MOST_N], b[MOST_N];
    uint8_t l[32];
    if (!well_formed(key, KEY_KIND, 33, set->n * set->pb))
        return wiped(areas, 0);
    reader r = {key + 33, key + key_length(set), 0, 0};
    read_fields(&r, b, set->n, set->pb);
    expand_polynomial(set, key + 1, a);
    if (!encrypt(set, a, b, key, message, parcel, l, areas))
        return wiped(areas, 0);
    hash(0x11, l, 32, parcel, parcel_length(set), secret, 32);
    return wiped(areas, 1);
}

// The bits that a parcel's symbols are read as.
static void read_parcel(const set *set, const uint8_t *parcel, areas *areas, size_t mu, uint8_t *bits)
{
    uint16_t u[MOST_N], v[MOST_N];
    reader r = {parcel + 1, parcel + parcel_length(set) - 32, 0, 0};
    read_fields(&r, u, set->n, set->pb);
    read_fields(&r, v, mu, set->tb);
    multiply(u, set->n, areas->secret, set->h, areas->product);
    raw_bits(set, v, areas->product, mu, bits);
}

static int open(const set *set, const uint8_t *coins, const uint8_t *parcel, uint8_t *secret, areas *areas)
{
    uint16_t a[MOST_N], b[MOST_N];
    uint8_t key[LONGEST_KEY], again[LONGEST_PARCEL], word[MOST_N], message[LONGEST_MESSAGE], l[32];
    size_t mu = symbol_count(set), len = parcel_length(set);
    if (!well_formed(parcel, PARCEL_KIND, 1, set->n * set->pb + mu * set->tb) || !make_key(set, coins, areas, a, b, key))
        return wiped(areas, 0);
    read_parcel(set, parcel, areas, mu, word);
    correct(set, word, message);
    if (!encrypt(set, a, b, key, message, again, l, areas))
        return wiped(areas, 0);
    uint8_t difference = 0;
    for (size_t i = 0; i < len; i++)
        difference |= again[i] ^ parcel[i];
    uint8_t mask = (uint8_t)-(difference != 0);
    for (size_t i = 0; i < 32; i++)
        l[i] ^= mask & (l[i] ^ coins[64 + i]);
    hash(0x11, l, 32, parcel, len, secret, 32);
    return wiped(areas, 1);
}

static int raw_read(const set *set, const uint8_t *parcel, const uint8_t *seed, uint8_t *raw, areas *areas)
{
    size_t mu = symbol_count(set);
    if (!well_formed(parcel, PARCEL_KIND, 1, set->n * set->pb + mu * set->tb) || !expand_secret(set, seed, areas->secret))
        return wiped(areas, 0);
    read_parcel(set, parcel, areas, mu, raw);
    return wiped(areas, 1);
}

// The slips of the rounding of a reduced product.
static void make_slips(const set *set, const uint16_t *restrict product, uint32_t *restrict out)
{
    uint16_t h1 = half_step(set), top = product[set->n], mask = (uint16_t)((1u << (set->qb - set->pb)) - 1);
    for (size_t i = 0; i < set->n; i++)
        out[i] = (uint32_t)h1 - ((uint16_t)(product[i] - top + h1) & mask);
}

static int gauge(const set *set, const uint8_t *seeds, int32_t *noise, size_t *count, areas *areas)
{
    uint16_t a[MOST_N], b[MOST_N], station[MOST_N];
    uint32_t till_slips[MOST_N], station_slips[MOST_N], first[AREA_WORDS], second[AREA_WORDS];
    size_t mu = symbol_count(set), n = set->n, h = set->h;
    expand_polynomial(set, seeds, a);
    if (!expand_secret(set, seeds + 32, areas->secret) || !expand_secret(set, seeds + 64, station))
        return wiped(areas, 0);
    multiply(a, n, areas->secret, h, areas->product);
    round_product(set, areas->product, b);
    make_slips(set, areas->product, till_slips);
    multiply(a, n, station, h, areas->product);
    make_slips(set, areas->product, station_slips);
    multiply_signed(till_slips, n, station, h, first);
    multiply_signed(station_slips, n, areas->secret, h, second);
    multiply(b, n, station, h, areas->product);
    uint32_t q = 1u << set->qb, half = 1u << (set->qb - set->tb - 1), step = 1u << (set->qb - set->pb);
    uint16_t h1 = half_step(set), mask = (uint16_t)((1u << (set->pb - set->tb)) - 1);
    size_t out = 0;
    for (size_t i = 0; i < mu; i++) {
        uint32_t w = first[i] - second[i] + half - step * ((uint16_t)(areas->product[i] + h1) & mask);
        noise[i] = (int32_t)w;
        out += ((w + q / 4) & (q - 1)) >= q / 2;
    }
    *count = out;
    memset(station, 0, sizeof station);
    __asm__ volatile("" : : "r"(station) : "memory");
    return wiped(areas, 1);
}

// ---- the runs ----

// A station and a till that share one set, with the buffers of their calls.
typedef struct {
    const set *set;
    uint8_t coins[COINS_BYTES], key[LONGEST_KEY], message[LONGEST_MESSAGE], parcel[LONGEST_PARCEL], secret[32], raw[MOST_N];
    int32_t noise[MOST_N];
    size_t outside;
    areas areas;
} pair;

static void need(int answer)
{
    if (!answer) {
        fputs("a call was refused\n", stderr);
        exit(1);
    }
}

enum { POLYNOMIAL = 1, TILL, REJECTION, STATION };

// A seed that no other use or run has: the run's number, then zeros, then what the seed is for.
static void write_seed(uint8_t *seed, uint32_t run, uint8_t use)
{
    memset(seed, 0, SEED_BYTES);
    for (unsigned i = 0; i < 4; i++)
        seed[i] = (uint8_t)(run >> 8 * i);
    seed[31] = use;
}

// σ and the seed of s, then z or the seed of r.
static void write_seeds(uint8_t *seeds, uint32_t run, uint8_t third)
{
    write_seed(seeds, run, POLYNOMIAL);
    write_seed(seeds + 32, run, TILL);
    write_seed(seeds + 64, run, third);
}

static void write_message(pair *pair, uint32_t run)
{
    for (uint32_t i = 0; i < pair->set->kappa / 8; i++)
        pair->message[i] = (uint8_t)(run * 31 + i * 17 + 5);
}

static void pair_publish(pair *pair)
{
    need(publish(pair->set, pair->coins, pair->key, &pair->areas));
}

static void pair_seal(pair *pair)
{
    need(seal(pair->set, pair->key, pair->message, pair->parcel, pair->secret, &pair->areas));
}

static void pair_open(pair *pair)
{
    need(open(pair->set, pair->coins, pair->parcel, pair->secret, &pair->areas));
}

static void pair_gauge(pair *pair, uint32_t run)
{
    uint8_t seeds[COINS_BYTES];
    write_seeds(seeds, run, STATION);
    need(gauge(pair->set, seeds, pair->noise, &pair->outside, &pair->areas));
}

// A key and a parcel of the run's seeds and message.
static void prepare(pair *pair, uint32_t run)
{
    write_seeds(pair->coins, run, REJECTION);
    write_message(pair, run);
    pair_publish(pair);
    pair_seal(pair);
}

static void absorb_noise(sponge *sum, const pair *pair)
{
    uint8_t count[8];
    store64(count, pair->outside);
    absorb(sum, count, sizeof count);
    for (size_t i = 0; i < symbol_count(pair->set); i++) {
        uint32_t x = (uint32_t)pair->noise[i];
        uint8_t bytes[4] = {(uint8_t)x, (uint8_t)(x >> 8), (uint8_t)(x >> 16), (uint8_t)(x >> 24)};
        absorb(sum, bytes, sizeof bytes);
    }
}

// Every call with the run's seeds and message, and open and raw read of a parcel with one bit changed.
static void run_all(pair *pair, uint32_t run, sponge *sum)
{
    prepare(pair, run);
    absorb(sum, pair->key, key_length(pair->set));
    absorb(sum, pair->parcel, parcel_length(pair->set));
    absorb(sum, pair->secret, 32);
    for (int turn = 0; turn < 2; turn++) {
        pair_open(pair);
        absorb(sum, pair->secret, 32);
        need(raw_read(pair->set, pair->parcel, pair->coins + 32, pair->raw, &pair->areas));
        absorb(sum, pair->raw, symbol_count(pair->set));
        pair->parcel[1] ^= 0x80;
    }
    pair_gauge(pair, run);
    absorb_noise(sum, pair);
}

static void all_many(pair *pair, sponge *sum, uint32_t count)
{
    for (uint32_t run = 0; run < count; run++)
        run_all(pair, run, sum);
}

static void publish_many(pair *pair, sponge *sum, uint32_t count)
{
    for (uint32_t run = 0; run < count; run++)
        pair_publish(pair);
    absorb(sum, pair->key, key_length(pair->set));
}

static void seal_many(pair *pair, sponge *sum, uint32_t count)
{
    for (uint32_t run = 0; run < count; run++) {
        write_message(pair, run);
        pair_seal(pair);
    }
    absorb(sum, pair->parcel, parcel_length(pair->set));
    absorb(sum, pair->secret, 32);
}

static void open_many(pair *pair, sponge *sum, uint32_t count)
{
    for (uint32_t run = 0; run < count; run++)
        pair_open(pair);
    absorb(sum, pair->secret, 32);
}

static void gauge_many(pair *pair, sponge *sum, uint32_t count)
{
    for (uint32_t run = 0; run < count; run++)
        pair_gauge(pair, run);
    absorb_noise(sum, pair);
}

static const struct {
    const char *name;
    void (*many)(pair *pair, sponge *sum, uint32_t count);
} calls[] = {{"all", all_many}, {"publish", publish_many}, {"seal", seal_many}, {"open", open_many}, {"gauge", gauge_many}};

enum { CALLS = sizeof calls / sizeof *calls };

// One call so many times, and the checksum of what the last of them wrote; `all` is every call, and the checksum of all that they wrote.
static void repeat(size_t call, const set *set, uint32_t count)
{
    static pair pair;
    sponge sum = {0};
    uint8_t digest[16];
    pair.set = set;
    prepare(&pair, 0);
    calls[call].many(&pair, &sum, count);
    finish(&sum);
    squeeze(&sum, digest, sizeof digest);
    printf("%s %s %u ", calls[call].name, set->name, count);
    for (size_t i = 0; i < sizeof digest; i++)
        printf("%02x", digest[i]);
    putchar('\n');
}

int main(int argc, char **argv)
{
    if (argc == 1) {
        for (size_t i = 0; i < SETS; i++)
            repeat(0, &sets[i], RUNS);
        return 0;
    }
    for (size_t call = 0; argc == 4 && call < CALLS; call++)
        for (size_t i = 0; i < SETS; i++)
            if (strcmp(argv[1], calls[call].name) == 0 && strcmp(argv[2], sets[i].name) == 0) {
                repeat(call, &sets[i], (uint32_t)strtoul(argv[3], NULL, 10));
                return 0;
            }
    fputs("usage: scheme [all|publish|seal|open|gauge SET COUNT]\n", stderr);
    return 1;
}
