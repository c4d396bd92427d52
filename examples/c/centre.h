/* Messages of a key centre (SUBSET-137, 5.3), built byte by byte, for the example, the tests and the benchmarks. */
#ifndef CENTRE_H
#define CENTRE_H

#include "kmac.h"

/* Message types (5.3.3). */
enum {
    CMD_ADD_KEYS = 0,
    CMD_DELETE_KEYS = 1,
    CMD_DELETE_ALL_KEYS = 2,
    CMD_UPDATE_KEY_VALIDITIES = 3,
    CMD_UPDATE_KEY_ENTITIES = 4,
    NOTIF_SESSION_INIT = 9,
    NOTIF_END_OF_UPDATE = 10
};

/* The centre, the module that it talks to, and the numbers of its next message. */
struct centre {
    uint32_t own;
    uint32_t module;
    uint32_t transaction;
    uint16_t sequence;
};

struct message {
    uint8_t bytes[KMAC_MESSAGE_MAX];
    size_t length;
};

/* A key as a K-STRUCT brings it (5.3.4.1). */
struct key {
    uint32_t issuer;
    uint32_t serial;
    uint8_t kmac[KMAC_KEY_LEN];
    const uint32_t *peers;
    uint16_t peer_count;
    uint32_t start;
    uint32_t end;
};

/* Starts a message of a type with its header, and counts the centre's numbers on. A command with a list has no request yet. */
void centre_start(struct centre *centre, struct message *message, uint8_t type);

/* A whole session init (5.3.13). */
void centre_init(struct centre *centre, struct message *message);

/* One more request. REQ-NUM and the length field count it: the message is whole after each. */
void centre_add(struct message *message, uint32_t recipient, const struct key *key);
void centre_delete(struct message *message, uint32_t issuer, uint32_t serial);
void centre_validity(struct message *message, uint32_t issuer, uint32_t serial, uint32_t start, uint32_t end);
void centre_entities(struct message *message, uint32_t issuer, uint32_t serial, const uint32_t *peers, uint16_t peer_count);

#endif
