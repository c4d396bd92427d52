#include "centre.h"

#include <assert.h>
#include <string.h>

enum {
    VERSION = 2,
    TIME_OUT = 30, /* seconds: the centre's to choose, 5 to 254 (5.3.13) */
    REQ_NUM_AT = 20
};

/* ---- bytes */

static void put16(uint8_t *to, uint32_t value)
{
    to[0] = (uint8_t)(value >> 8);
    to[1] = (uint8_t)value;
}

static void put32(uint8_t *to, uint32_t value)
{
    put16(to, value >> 16);
    put16(to + 2, value);
}

static void append(struct message *message, const uint8_t *bytes, size_t length)
{
    assert(length <= KMAC_MESSAGE_MAX - message->length);
    memcpy(message->bytes + message->length, bytes, length);
    message->length += length;
    put32(message->bytes, (uint32_t)message->length);
}

static void append8(struct message *message, uint8_t value)
{
    append(message, &value, 1);
}

static void append16(struct message *message, uint16_t value)
{
    uint8_t bytes[2];
    put16(bytes, value);
    append(message, bytes, sizeof bytes);
}

static void append32(struct message *message, uint32_t value)
{
    uint8_t bytes[4];
    put32(bytes, value);
    append(message, bytes, sizeof bytes);
}

/* ---- the header (5.3.3) */

static int is_command(uint8_t type)
{
    return type <= CMD_UPDATE_KEY_ENTITIES;
}

void centre_start(struct centre *centre, struct message *message, uint8_t type)
{
    message->length = 0;
    append32(message, 0); /* the length, which append counts */
    append8(message, VERSION);
    append32(message, centre->module);
    append32(message, centre->own);
    append32(message, is_command(type) ? centre->transaction++ : 0);
    append16(message, centre->sequence++);
    append8(message, type);
    if (is_command(type) && type != CMD_DELETE_ALL_KEYS)
        append16(message, 0);
}

void centre_init(struct centre *centre, struct message *message)
{
    centre_start(centre, message, NOTIF_SESSION_INIT);
    append8(message, 1);
    append8(message, VERSION);
    append8(message, TIME_OUT);
}

/* ---- requests */

static void count_request(struct message *message)
{
    uint8_t *req_num = message->bytes + REQ_NUM_AT;
    put16(req_num, (uint32_t)(req_num[0] << 8 | req_num[1]) + 1);
}

/* K-IDENTIFIER (5.3.4.2). */
static void append_identifier(struct message *message, uint32_t issuer, uint32_t serial)
{
    append32(message, issuer);
    append32(message, serial);
}

static void append_peers(struct message *message, const uint32_t *peers, uint16_t peer_count)
{
    append16(message, peer_count);
    for (uint16_t i = 0; i < peer_count; i++)
        append32(message, peers[i]);
}

void centre_add(struct message *message, uint32_t recipient, const struct key *key)
{
    count_request(message);
    append8(message, KMAC_KEY_LEN);
    append_identifier(message, key->issuer, key->serial);
    append32(message, recipient);
    append(message, key->kmac, KMAC_KEY_LEN);
    append_peers(message, key->peers, key->peer_count);
    append32(message, key->start);
    append32(message, key->end);
}

void centre_delete(struct message *message, uint32_t issuer, uint32_t serial)
{
    count_request(message);
    append_identifier(message, issuer, serial);
}

void centre_validity(struct message *message, uint32_t issuer, uint32_t serial, uint32_t start, uint32_t end)
{
    count_request(message);
    append_identifier(message, issuer, serial);
    append32(message, start);
    append32(message, end);
}

void centre_entities(struct message *message, uint32_t issuer, uint32_t serial, const uint32_t *peers, uint16_t peer_count)
{
    count_request(message);
    append_identifier(message, issuer, serial);
    append_peers(message, peers, peer_count);
}
