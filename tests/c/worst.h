/* The dearest messages that a key centre can send: the most requests of each kind, on the fullest store of an edition. */
#ifndef WORST_H
#define WORST_H

#include "centre.h"

enum worst_index {
    WORST_INIT,
    WORST_ONE_ADD,
    WORST_ADDS,
    WORST_ADDS_FULL,
    WORST_DELETES,
    WORST_DELETES_IN_VAIN,
    WORST_VALIDITIES,
    WORST_ENTITIES,
    WORST_ENTITIES_MOVED,
    WORST_DELETE_ALL,
    WORST_END,
    WORST_COUNT
};

/* An edition of the store: its length, its limits, and the names of its messages. */
struct edition {
    size_t store_len;
    unsigned keys;
    unsigned peers;
    const char *names[WORST_COUNT];
};

extern const struct edition edition_1, edition_2;

/* A message, with the session and the store that it comes to, and the answer of kmac_receive. */
struct worst {
    const struct edition *edition;
    const char *name;
    uint8_t session[KMAC_SESSION_LEN];
    uint8_t store[KMAC_STORE_2_LEN]; /* the edition's length of it */
    struct message message;
    uint16_t next; /* the sequence number of the reply */
    int32_t answer;
};

/* Makes all of them for an edition, by calls of the library itself. */
void worst_make(const struct edition *edition, struct worst worst[WORST_COUNT]);

/* The full store's last peer, whose only record is the last, and a moment at which every record fits. */
uint32_t worst_peer(const struct edition *edition);
uint32_t worst_moment(void);

/* 24 bytes of odd parity, unlike for each number. */
void worst_kmac(unsigned number, uint8_t kmac[KMAC_KEY_LEN]);

#endif
