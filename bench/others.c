#define OPENSSL_SUPPRESS_DEPRECATED
#include "others.h"

#include <nettle/des.h>
#include <openssl/des.h>
#include <string.h>

/* ---- OpenSSL */

static void openssl_schedules(const uint8_t *key, DES_key_schedule schedules[3])
{
    for (int i = 0; i < 3; i++)
        DES_set_key_unchecked((const_DES_cblock *)(key + 8 * i), &schedules[i]);
}

static void openssl_mac(const uint8_t *key, const uint8_t *blocks, size_t length, uint8_t *mac)
{
    DES_key_schedule schedules[3];
    DES_cblock start = {0}, last;
    openssl_schedules(key, schedules);
    DES_cbc_cksum(blocks, &last, (long)length, &schedules[0], &start);
    DES_ecb_encrypt(&last, &last, &schedules[1], DES_DECRYPT);
    DES_ecb_encrypt(&last, (DES_cblock *)mac, &schedules[2], DES_ENCRYPT);
}

static void openssl_derive(const uint8_t *kmac, const uint8_t *left, const uint8_t *right, uint8_t *keys)
{
    DES_key_schedule k[3];
    openssl_schedules(kmac, k);
    DES_ecb3_encrypt((const_DES_cblock *)left, (DES_cblock *)keys, &k[0], &k[1], &k[2], DES_ENCRYPT);
    DES_ecb3_encrypt((const_DES_cblock *)right, (DES_cblock *)(keys + 8), &k[0], &k[1], &k[2], DES_ENCRYPT);
    DES_ecb3_encrypt((const_DES_cblock *)left, (DES_cblock *)(keys + 16), &k[2], &k[1], &k[0], DES_ENCRYPT);
}

static void openssl_encipher(const uint8_t *key, const uint8_t *block, uint8_t *result)
{
    DES_key_schedule schedule;
    DES_set_key_unchecked((const_DES_cblock *)key, &schedule);
    DES_ecb_encrypt((const_DES_cblock *)block, (DES_cblock *)result, &schedule, DES_ENCRYPT);
}

const struct cipher over_openssl = {openssl_mac, openssl_derive, openssl_encipher};

/* ---- nettle */

static void nettle_schedules(const uint8_t *key, struct des_ctx schedules[3])
{
    for (int i = 0; i < 3; i++)
        des_set_key(&schedules[i], key + 8 * i);
}

static void nettle_mac(const uint8_t *key, const uint8_t *blocks, size_t length, uint8_t *mac)
{
    struct des_ctx schedules[3];
    uint8_t h[8] = {0};
    nettle_schedules(key, schedules);
    for (size_t at = 0; at < length; at += 8) {
        for (int i = 0; i < 8; i++)
            h[i] ^= blocks[at + (size_t)i];
        des_encrypt(&schedules[0], 8, h, h);
    }
    des_decrypt(&schedules[1], 8, h, h);
    des_encrypt(&schedules[2], 8, mac, h);
}

static void nettle_triple(const struct des_ctx *a, const struct des_ctx *b, const struct des_ctx *c, const uint8_t *block,
                          uint8_t *result)
{
    des_encrypt(a, 8, result, block);
    des_decrypt(b, 8, result, result);
    des_encrypt(c, 8, result, result);
}

static void nettle_derive(const uint8_t *kmac, const uint8_t *left, const uint8_t *right, uint8_t *keys)
{
    struct des_ctx k[3];
    nettle_schedules(kmac, k);
    nettle_triple(&k[0], &k[1], &k[2], left, keys);
    nettle_triple(&k[0], &k[1], &k[2], right, keys + 8);
    nettle_triple(&k[2], &k[1], &k[0], left, keys + 16);
}

static void nettle_encipher(const uint8_t *key, const uint8_t *block, uint8_t *result)
{
    struct des_ctx schedule;
    des_set_key(&schedule, key);
    des_encrypt(&schedule, 8, result, block);
}

const struct cipher over_nettle = {nettle_mac, nettle_derive, nettle_encipher};

/* ---- SUBSET-037-2 over either */

static uint8_t first_byte(uint8_t direction)
{
    return (uint8_t)(5 << 1 | direction);
}

/* The MAC over l | DA | m | p (6.2.3.2.1.1). */
static void mac_of(const struct cipher *cipher, const uint8_t *key, const uint8_t *destination, const uint8_t *message,
                   size_t length, uint8_t *mac)
{
    uint8_t string[KMAC_UNIT_MAX];
    size_t padded = (5 + length + 7) / 8 * 8;
    string[0] = (uint8_t)((length + 3) >> 8);
    string[1] = (uint8_t)(length + 3);
    memcpy(string + 2, destination, 3);
    memcpy(string + 5, message, length);
    memset(string + 5 + length, 0, padded - 5 - length);
    cipher->mac(key, string, padded, mac);
}

int32_t others_build(const struct cipher *cipher, const uint8_t *key, const uint8_t *destination, uint8_t direction,
                     const uint8_t *data, size_t data_len, uint8_t *out)
{
    out[0] = first_byte(direction);
    memcpy(out + 1, data, data_len);
    mac_of(cipher, key, destination, out, 1 + data_len, out + 1 + data_len);
    return (int32_t)data_len + 9;
}

int32_t others_check(const struct cipher *cipher, const uint8_t *unit, size_t unit_len, const uint8_t *key,
                     const uint8_t *destination, uint8_t direction)
{
    uint8_t mac[KMAC_MAC_LEN];
    mac_of(cipher, key, destination, unit, unit_len - KMAC_MAC_LEN, mac);
    if (memcmp(mac, unit + unit_len - KMAC_MAC_LEN, KMAC_MAC_LEN) != 0)
        return KMAC_H8_MAC_DIFFERS;
    if (unit_len == KMAC_UNIT_MIN || unit[0] != first_byte(direction))
        return KMAC_H9_UNIT_CONTENTS;
    return (int32_t)unit_len - KMAC_UNIT_MIN;
}

void others_session_keys(const struct cipher *cipher, const uint8_t *kmac, const uint8_t *ra, const uint8_t *rb, uint8_t *keys)
{
    uint8_t left[8], right[8];
    memcpy(left, ra, 4);
    memcpy(left + 4, rb, 4);
    memcpy(right, ra + 4, 4);
    memcpy(right + 4, rb + 4, 4);
    cipher->derive(kmac, left, right, keys);
    for (int i = 0; i < KMAC_KEY_LEN; i++)
        keys[i] ^= (uint8_t)!__builtin_parity(keys[i]);
}

/* ---- connection set-up over either */

enum { AU1 = 1, AU2 = 2, AU3 = 3, AR = 9, SAF = 1, NAMED_LEN = 13, RANDOM_AT = 5 };

static void put_id(uint8_t *to, uint32_t identity)
{
    to[0] = (uint8_t)(identity >> 16);
    to[1] = (uint8_t)(identity >> 8);
    to[2] = (uint8_t)identity;
}

/* An AU1, or an AU2 before its MAC. */
static void put_named(uint8_t *unit, unsigned mti, unsigned direction, uint32_t own, const uint8_t *random)
{
    unit[0] = (uint8_t)(own >> 24 << 5 | mti << 1 | direction);
    put_id(unit + 1, own);
    unit[4] = SAF;
    memcpy(unit + RANDOM_AT, random, KMAC_RANDOM_LEN);
}

/* Over the unit before its MAC, RB and the caller (6.2.3.2.1.9). */
static void au2_mac(const struct cipher *cipher, const uint8_t *key, const uint8_t *unit, const uint8_t *rb,
                    const uint8_t *caller, uint8_t *mac)
{
    uint8_t message[NAMED_LEN + KMAC_RANDOM_LEN + KMAC_DESTINATION_LEN];
    memcpy(message, unit, NAMED_LEN);
    memcpy(message + NAMED_LEN, rb, KMAC_RANDOM_LEN);
    memcpy(message + NAMED_LEN + KMAC_RANDOM_LEN, caller, KMAC_DESTINATION_LEN);
    mac_of(cipher, key, caller, message, sizeof message, mac);
}

/* Over the first byte, RB and RA (6.2.3.2.1.10). */
static void au3_mac(const struct cipher *cipher, const uint8_t *key, const uint8_t *unit, const uint8_t *ra,
                    const uint8_t *rb, const uint8_t *called, uint8_t *mac)
{
    uint8_t message[1 + 2 * KMAC_RANDOM_LEN];
    message[0] = unit[0];
    memcpy(message + 1, rb, KMAC_RANDOM_LEN);
    memcpy(message + 1 + KMAC_RANDOM_LEN, ra, KMAC_RANDOM_LEN);
    mac_of(cipher, key, called, message, sizeof message, mac);
}

/* Each side uses its own random number and session keys, and the other's random number as the unit brings it. */
int32_t others_set_up(const struct cipher *cipher, const uint8_t *kmac, uint32_t caller, uint32_t called, const uint8_t *ra,
                      const uint8_t *rb, uint8_t made[SET_UP_LEN])
{
    uint8_t *au1 = made, *au2 = made + AU2_AT, *au3 = made + AU3_AT, *ar = made + AR_AT;
    uint8_t *caller_keys = made + CALLER_KEYS_AT, *called_keys = made + CALLED_KEYS_AT;
    uint8_t caller_id[KMAC_DESTINATION_LEN], called_id[KMAC_DESTINATION_LEN], mac[KMAC_MAC_LEN];
    put_id(caller_id, caller);
    put_id(called_id, called);

    put_named(au1, AU1, 0, caller, rb);

    others_session_keys(cipher, kmac, ra, au1 + RANDOM_AT, called_keys);
    put_named(au2, AU2, 1, called, ra);
    au2_mac(cipher, called_keys, au2, au1 + RANDOM_AT, caller_id, au2 + NAMED_LEN);

    others_session_keys(cipher, kmac, au2 + RANDOM_AT, rb, caller_keys);
    au2_mac(cipher, caller_keys, au2, rb, caller_id, mac);
    if (memcmp(mac, au2 + NAMED_LEN, KMAC_MAC_LEN) != 0)
        return KMAC_H8_MAC_DIFFERS;
    au3[0] = AU3 << 1;
    au3_mac(cipher, caller_keys, au3, au2 + RANDOM_AT, rb, called_id, au3 + 1);

    au3_mac(cipher, called_keys, au3, ra, au1 + RANDOM_AT, called_id, mac);
    if (memcmp(mac, au3 + 1, KMAC_MAC_LEN) != 0)
        return KMAC_H8_MAC_DIFFERS;
    ar[0] = AR << 1 | 1;
    mac_of(cipher, called_keys, caller_id, ar, 1, ar + 1);

    mac_of(cipher, caller_keys, caller_id, ar, 1, mac);
    return memcmp(mac, ar + 1, KMAC_MAC_LEN) != 0 ? KMAC_H8_MAC_DIFFERS : 0;
}
