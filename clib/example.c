/*
 * One exchange between a packing station and a till, and two refusals. Each step is a line; the status is 0 only if all is as expected.
 *
 * The coins and the message are fixed bytes, so that the output is the same each time. Real ones are random bytes that the caller brings.
 */
#include <stdio.h>
#include <string.h>

#include "keyseal.h"

/* The set R5ND_5CCA_5d, and the sizes that its facts tell. */
static const uint16_t lengths[10] = {16, 16, 17, 19, 21, 23, 25, 29, 31, 37};
static keyseal_numbers numbers = {.n = 946, .h = 388, .qb = 11, .pb = 8, .tb = 5, .kappa = 256, .f = 5, .block = true};
enum { SYMBOLS = 490, MESSAGE = 32, KEY = 979, PARCEL = 1286, QUARTER = 2048 / 4 };

/* What every call is lent. */
static uint16_t secret_area[KEYSEAL_AREA_WORDS], product_area[KEYSEAL_AREA_WORDS];
static uint64_t refusal[4];
#define SET &numbers, lengths, 10
#define LENT secret_area, KEYSEAL_AREA_WORDS, product_area, KEYSEAL_AREA_WORDS, refusal

static int failed;

/* Ends the line of a step: it went well if it is as expected and both working areas are all zeros. */
static void expect(bool good)
{
    for (int i = 0; i < KEYSEAL_AREA_WORDS; i++)
        good = good && secret_area[i] == 0 && product_area[i] == 0;
    failed += !good;
    puts(good ? "" : "  NOT AS EXPECTED");
}

/* Prints the first bytes of a hash of what was written. */
static void print_digest(const char *name, const uint8_t *bytes, size_t count)
{
    uint8_t digest[16];
    keyseal_shake256(bytes, count, digest, sizeof digest);
    printf("%s ", name);
    for (size_t i = 0; i < sizeof digest; i++)
        printf("%02x", digest[i]);
}

/* Whether the answer and the words tell this refusal and nothing more. */
static bool refused(uint32_t answer, uint64_t number, uint64_t value)
{
    printf("refused %u %u", (unsigned)refusal[0], (unsigned)refusal[1]);
    return answer == number && refusal[0] == number && refusal[1] == value && refusal[2] == 0 && refusal[3] == 0;
}

int main(void)
{
    static keyseal_place places[KEYSEAL_PLACES];
    static uint8_t coins[96], message[MESSAGE], key[KEY], parcel[PARCEL], till[32], station[32], raw[SYMBOLS];
    static uint8_t sealing[1 + MESSAGE + KEY], made[96], seeds[96];
    static int32_t noise[SYMBOLS];
    static keyseal_facts facts;
    uint32_t out_of_band = 0;
    int differ = 0, wrong = 0;

    for (int i = 0; i < 96; i++)
        coins[i] = (uint8_t)(i + 1);
    for (int i = 0; i < MESSAGE; i++)
        message[i] = (uint8_t)(7 * i);

    uint32_t answer = keyseal_set(SET, &facts, refusal);
    printf("set: q %u, p %u, t %u, %u symbols, message %u, key %u, parcel %u, bound %u, line %u %s %u", facts.q, facts.p, facts.t,
           facts.symbols, facts.message_len, facts.key_len, facts.parcel_len, facts.bound, facts.line_left,
           facts.below_line ? "below" : "not below", facts.line_right);
    expect(answer == 0 && facts.symbols == SYMBOLS && facts.message_len == MESSAGE && facts.key_len == KEY && facts.parcel_len == PARCEL);

    memset(secret_area, 0xff, sizeof secret_area);
    memset(product_area, 0xff, sizeof product_area);
    answer = keyseal_issue(SET, KEYSEAL_SPONGE, places, 0, coins, sizeof coins, LENT);
    printf("issue: place 0 %s", places[0].held ? "holds coins" : "is empty");
    expect(answer == 0 && memcmp(places[0].coins, coins, sizeof coins) == 0 && places[0].held && !places[1].held);

    answer = keyseal_publish(SET, KEYSEAL_SPONGE, places, 0, key, KEY, LENT);
    print_digest("publish: key", key, KEY);
    expect(answer == 0);

    answer = keyseal_seal(SET, KEYSEAL_SPONGE, key, KEY, message, MESSAGE, parcel, PARCEL, station, sizeof station, LENT);
    print_digest("seal: parcel", parcel, PARCEL);
    expect(answer == 0);

    /* The seed of the station's secret: the last 32 of the 96 bytes that sealing makes of message and key. */
    sealing[0] = 0x10;
    memcpy(sealing + 1, message, MESSAGE);
    memcpy(sealing + 1 + MESSAGE, key, KEY);
    keyseal_shake256(sealing, sizeof sealing, made, sizeof made);
    memcpy(seeds, coins, 64);
    memcpy(seeds + 64, made + 64, 32);
    answer = keyseal_gauge(SET, KEYSEAL_SPONGE, seeds, sizeof seeds, noise, SYMBOLS, &out_of_band, LENT);
    printf("gauge: %u symbols out of band, the first noise %d", out_of_band, noise[0]);
    expect(answer == 0);

    /* A bit is read wrongly exactly if its noise is out of band. */
    answer = keyseal_raw_read(SET, KEYSEAL_SPONGE, parcel, PARCEL, coins + 32, 32, raw, SYMBOLS, LENT);
    for (int k = 0; k < 8 * MESSAGE; k++) {
        bool changed = raw[k] != (message[k / 8] >> (7 - k % 8) & 1);
        differ += changed;
        wrong += changed != (noise[k] < -QUARTER || noise[k] >= QUARTER);
    }
    printf("raw read: %d payload bits differ", differ);
    expect(answer == 0 && wrong == 0);

    answer = keyseal_open(SET, KEYSEAL_SPONGE, places, 0, parcel, PARCEL, till, sizeof till, LENT);
    print_digest("open: secret", till, sizeof till);
    expect(answer == 0 && memcmp(till, station, sizeof till) == 0);

    answer = keyseal_retire(places, 0, refusal);
    printf("retire: place 0 %s", places[0].held ? "holds coins" : "is empty");
    expect(answer == 0 && memcmp(&places[0], &places[1], sizeof places[0]) == 0);

    answer = keyseal_open(SET, KEYSEAL_SPONGE, places, 0, parcel, PARCEL, till, sizeof till, LENT);
    printf("open: ");
    expect(refused(answer, 19, 0) && memcmp(till, station, sizeof till) == 0);

    numbers.n = 1202;
    secret_area[0] = product_area[0] = 1;
    answer = keyseal_publish(SET, KEYSEAL_SPONGE, places, 0, key, KEY, LENT);
    printf("publish with n = 1202: ");
    expect(refused(answer, 11, 1));
    return failed != 0;
}
