/*
 * keyseal: the key-sealing kit for C.
 *
 * Every function is proved in Rattle against the same definitions as the kit's own calls. It takes any lengths, tests them, and answers
 * 0, or the number of its refusal; a refusal's number and values, as many as it has, and then zeros are in refusal[4] (all four are 0
 * where nothing was refused). On a refusal every output and every place is as it was. Both working areas are all zeros after every call,
 * refusals included. docs/calls.md and docs/sets.md list the refusals.
 *
 * What C must keep to, and nothing checks: a pointer is valid for the length given with it and aligned, a bool holds 0 or 1, and nothing
 * that is written to overlaps anything else that is passed in the same call. A pointer is never NULL, also where its length is 0.
 *
 * No function allocates, keeps state or reads anything but its arguments.
 */
#ifndef KEYSEAL_H
#define KEYSEAL_H

#include <stdbool.h>
#include <stddef.h>
#include <stdint.h>

#ifdef __cplusplus
extern "C" {
#endif

/* The words of a working area. */
#define KEYSEAL_AREA_WORDS 1201

/* The places of a rack. */
#define KEYSEAL_PLACES 4

/* Where the bytes come from that seeds expand to: the sponge, as stations and tills use it, or a tape of the caller's bytes. Each stands
   for the three arguments tape, tape_len, taped. */
#define KEYSEAL_SPONGE ((const uint8_t *)""), 0, false
#define KEYSEAL_TAPE(bytes, len) (bytes), (len), true

/* The numbers of a parameter set as a caller proposes them; the check lengths go beside them, 2 f of them. Every call makes the set anew
   and refuses one that is not lawful by 11 or 12. */
typedef struct {
    uint16_t n, h, qb, pb, tb, kappa, f;
    bool block;
} keyseal_numbers;

/* What the numbers of a lawful set tell. */
typedef struct {
    uint32_t q, p, t;
    uint32_t symbols;                 /* mu: symbols of a parcel, bytes of a raw read, numbers of a noise buffer */
    uint32_t message_len, key_len, parcel_len;
    uint32_t bound;                   /* B = q/(2t) + hq/p */
    uint32_t line_left, line_right;   /* 2p + 4ht and pt */
    bool below_line;                  /* line_left < line_right, which is so exactly if B < q/4 */
} keyseal_facts;

/* A place of a rack: empty, or with coins (sigma, the seed of the till's secret, z; 32 bytes each). All zeros is an empty place. */
typedef struct {
    bool held;
    uint8_t coins[96];
} keyseal_place;

/* Makes a set and tells its facts. */
uint32_t keyseal_set(const keyseal_numbers *numbers, const uint16_t *lengths, size_t lengths_len,
                     keyseal_facts *facts, uint64_t refusal[4]);

/* Station: seals a message of kappa/8 bytes to a key; writes the parcel and the station's secret of 32 bytes. */
uint32_t keyseal_seal(const keyseal_numbers *numbers, const uint16_t *lengths, size_t lengths_len,
                      const uint8_t *tape, size_t tape_len, bool taped,
                      const uint8_t *key, size_t key_len, const uint8_t *message, size_t message_len,
                      uint8_t *parcel, size_t parcel_len, uint8_t *secret, size_t secret_len,
                      uint16_t *secret_area, size_t secret_area_len, uint16_t *product_area, size_t product_area_len,
                      uint64_t refusal[4]);

/* Till: keeps coins of 96 bytes at an empty place, if both their seeds expand. */
uint32_t keyseal_issue(const keyseal_numbers *numbers, const uint16_t *lengths, size_t lengths_len,
                       const uint8_t *tape, size_t tape_len, bool taped,
                       keyseal_place places[4], uint8_t place, const uint8_t *coins, size_t coins_len,
                       uint16_t *secret_area, size_t secret_area_len, uint16_t *product_area, size_t product_area_len,
                       uint64_t refusal[4]);

/* Till: writes the key of the coins at a place. */
uint32_t keyseal_publish(const keyseal_numbers *numbers, const uint16_t *lengths, size_t lengths_len,
                         const uint8_t *tape, size_t tape_len, bool taped,
                         const keyseal_place places[4], uint8_t place, uint8_t *key, size_t key_len,
                         uint16_t *secret_area, size_t secret_area_len, uint16_t *product_area, size_t product_area_len,
                         uint64_t refusal[4]);

/* Till: writes the secret of 32 bytes that the coins at a place make of a parcel. */
uint32_t keyseal_open(const keyseal_numbers *numbers, const uint16_t *lengths, size_t lengths_len,
                      const uint8_t *tape, size_t tape_len, bool taped,
                      const keyseal_place places[4], uint8_t place, const uint8_t *parcel, size_t parcel_len,
                      uint8_t *secret, size_t secret_len,
                      uint16_t *secret_area, size_t secret_area_len, uint16_t *product_area, size_t product_area_len,
                      uint64_t refusal[4]);

/* Till: empties a place. */
uint32_t keyseal_retire(keyseal_place places[4], uint8_t place, uint64_t refusal[4]);

/* Publish and open for coins that the caller keeps, as if they stood at a place of a rack. */
uint32_t keyseal_publish_coins(const keyseal_numbers *numbers, const uint16_t *lengths, size_t lengths_len,
                               const uint8_t *tape, size_t tape_len, bool taped,
                               const uint8_t coins[96], uint8_t *key, size_t key_len,
                               uint16_t *secret_area, size_t secret_area_len, uint16_t *product_area, size_t product_area_len,
                               uint64_t refusal[4]);
uint32_t keyseal_open_coins(const keyseal_numbers *numbers, const uint16_t *lengths, size_t lengths_len,
                            const uint8_t *tape, size_t tape_len, bool taped,
                            const uint8_t coins[96], const uint8_t *parcel, size_t parcel_len,
                            uint8_t *secret, size_t secret_len,
                            uint16_t *secret_area, size_t secret_area_len, uint16_t *product_area, size_t product_area_len,
                            uint64_t refusal[4]);

/* Laboratory: the raw bits, mu bytes of 0 or 1, that the secret of a seed of 32 bytes reads from a parcel. */
uint32_t keyseal_raw_read(const keyseal_numbers *numbers, const uint16_t *lengths, size_t lengths_len,
                          const uint8_t *tape, size_t tape_len, bool taped,
                          const uint8_t *parcel, size_t parcel_len, const uint8_t *seed, size_t seed_len,
                          uint8_t *raw, size_t raw_len,
                          uint16_t *secret_area, size_t secret_area_len, uint16_t *product_area, size_t product_area_len,
                          uint64_t refusal[4]);

/* Laboratory: the noise of each symbol, from sigma and the seeds of s and r (96 bytes), and how many are out of band. */
uint32_t keyseal_gauge(const keyseal_numbers *numbers, const uint16_t *lengths, size_t lengths_len,
                       const uint8_t *tape, size_t tape_len, bool taped,
                       const uint8_t *seeds, size_t seeds_len, int32_t *noise, size_t noise_len, uint32_t *out_of_band,
                       uint16_t *secret_area, size_t secret_area_len, uint16_t *product_area, size_t product_area_len,
                       uint64_t refusal[4]);

/* SHAKE256 of the input, as many bytes as the output has room for. */
void keyseal_shake256(const uint8_t *input, size_t input_len, uint8_t *output, size_t output_len);

#ifdef __cplusplus
}
#endif

#endif
