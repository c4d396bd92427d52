/* Data units, session keys and connection set-up of SUBSET-037-2 over the DES of other libraries, to compare with. */
#ifndef OTHERS_H
#define OTHERS_H

#include "kmac.h"

/* What one library's DES does, key set-up included in each. */
struct cipher {
    /* The MAC of 6.2.2.7 over whole blocks. */
    void (*mac)(const uint8_t key[KMAC_KEY_LEN], const uint8_t *blocks, size_t length, uint8_t mac[KMAC_MAC_LEN]);
    /* The three formulas of 6.2.3.2.3.15, without the parity. */
    void (*derive)(const uint8_t kmac[KMAC_KEY_LEN], const uint8_t left[8], const uint8_t right[8], uint8_t keys[KMAC_KEY_LEN]);
    /* One block. */
    void (*encipher)(const uint8_t key[8], const uint8_t block[8], uint8_t result[8]);
};

extern const struct cipher over_openssl, over_nettle;

/* As the functions of kmac.h, for lengths that are right. */
int32_t others_build(const struct cipher *cipher, const uint8_t *key, const uint8_t *destination, uint8_t direction,
                     const uint8_t *data, size_t data_len, uint8_t *out);
int32_t others_check(const struct cipher *cipher, const uint8_t *unit, size_t unit_len, const uint8_t *key,
                     const uint8_t *destination, uint8_t direction);
void others_session_keys(const struct cipher *cipher, const uint8_t *kmac, const uint8_t *ra, const uint8_t *rb, uint8_t *keys);

/* What a set-up makes: the four units one behind the other, then the session keys of the caller and of the called side. */
enum { AU2_AT = 13, AU3_AT = 34, AR_AT = 43, CALLER_KEYS_AT = 52, CALLED_KEYS_AT = 76, SET_UP_LEN = 100 };

/* A set-up of both sides on a KMAC at hand: no search, no states, no events. Answers 0, or H8 where a MAC differs. */
int32_t others_set_up(const struct cipher *cipher, const uint8_t *kmac, uint32_t caller, uint32_t called, const uint8_t *ra,
                      const uint8_t *rb, uint8_t made[SET_UP_LEN]);

#endif
