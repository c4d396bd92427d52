#include "worst.h"

#include <stdlib.h>

enum {
    OWN = 0x02e6a54b,
    CENTRE = 0x05112233,
    ISSUER = 0x05445566,
    START = 0x1000,
    END = 0x2000,
    NUMBER = 700,
    REPLY_LEN = 23,
    ADD_LEN = 47, /* an add without its peers */
    ADDS = 97,
    DELETES = 500,
    UPDATES = 250,
    PEERS = 2,      /* of an entities update: the longest list of which 250 fit into a message */
    PEERS_MOST = 14 /* of the last key of edition 2 */
};

const struct edition edition_1 = {
    KMAC_STORE_LEN,
    KMAC_STORE_KEYS,
    KMAC_STORE_PEERS,
    {
        [WORST_INIT] = "session init",
        [WORST_ONE_ADD] = "1 add, 63 keys held",
        [WORST_ADDS] = "97 adds, no key held",
        [WORST_ADDS_FULL] = "97 adds, 64 keys held",
        [WORST_DELETES] = "500 deletes, 64 keys held",
        [WORST_DELETES_IN_VAIN] = "500 deletes, 64 other keys held",
        [WORST_VALIDITIES] = "250 validities, 64 keys held",
        [WORST_ENTITIES] = "250 entities, as many peers",
        [WORST_ENTITIES_MOVED] = "250 entities, other counts",
        [WORST_DELETE_ALL] = "delete all, 64 keys held",
        [WORST_END] = "end of update, 64 keys held",
    },
};

const struct edition edition_2 = {
    KMAC_STORE_2_LEN,
    KMAC_STORE_2_KEYS,
    KMAC_STORE_2_PEERS,
    {
        [WORST_INIT] = "session init, 500 keys held",
        [WORST_ONE_ADD] = "1 add, 499 keys held",
        [WORST_ADDS] = "97 adds, no key held, edition 2",
        [WORST_ADDS_FULL] = "97 adds, 500 keys held",
        [WORST_DELETES] = "500 deletes, 500 keys held",
        [WORST_DELETES_IN_VAIN] = "500 deletes, 500 other keys held",
        [WORST_VALIDITIES] = "250 validities, 500 keys held",
        [WORST_ENTITIES] = "250 entities, as many peers, 500 keys held",
        [WORST_ENTITIES_MOVED] = "250 entities, other counts, 500 keys held",
        [WORST_DELETE_ALL] = "delete all, 500 keys held",
        [WORST_END] = "end of update, 500 keys held",
    },
};

static const struct centre first = {CENTRE, OWN, 1, 300};

static void must(int right)
{
    if (!right)
        abort();
}

/* The same share for each key, but two for the first, and what it leaves for the last: the edition's limit altogether. */
static uint16_t peer_count(const struct edition *edition, unsigned number)
{
    unsigned share = edition->peers / edition->keys;
    return (uint16_t)(number == 1 ? PEERS : number == edition->keys ? 2 * share - PEERS : share);
}

static uint32_t peer_of(unsigned number, unsigned i)
{
    return 0x01000000 + 256 * number + i;
}

uint32_t worst_peer(const struct edition *edition)
{
    return peer_of(edition->keys, peer_count(edition, edition->keys) - 1U);
}

uint32_t worst_moment(void)
{
    return START;
}

void worst_kmac(unsigned number, uint8_t kmac[KMAC_KEY_LEN])
{
    for (unsigned i = 0; i < KMAC_KEY_LEN; i++) {
        unsigned byte = (13 * number + 29 * i) & 0xfe;
        kmac[i] = (uint8_t)(byte | (__builtin_parity(byte) ^ 1U));
    }
}

static void append_add(struct message *message, unsigned number, uint16_t peers)
{
    uint32_t list[PEERS_MOST];
    struct key key = {.issuer = ISSUER, .serial = number, .peers = list, .peer_count = peers, .start = START, .end = END};
    worst_kmac(number, key.kmac);
    for (unsigned i = 0; i < peers; i++)
        list[i] = peer_of(number, i);
    centre_add(message, OWN, &key);
}

static int32_t receive(struct worst *w)
{
    uint8_t out[KMAC_OUT_LEN];
    return kmac_receive(w->session, w->message.bytes, w->message.length, w->store, w->edition->store_len, out, sizeof out);
}

/* Adds the keys from a number on up to held, as many as fit into a message. Gives the number that comes next. */
static unsigned fill(struct worst *w, struct centre *centre, unsigned from, unsigned held)
{
    unsigned number = from;
    centre_start(centre, &w->message, CMD_ADD_KEYS);
    while (number <= held) {
        uint16_t peers = peer_count(w->edition, number);
        if (w->message.length + ADD_LEN + 4U * peers > KMAC_MESSAGE_MAX)
            break;
        append_add(&w->message, number, peers);
        number++;
    }
    must(receive(w) == REPLY_LEN + (int32_t)(number - from));
    w->next++;
    return number;
}

/* An open session, a store with the keys 1 to held, and a message of this type begun. */
static struct message *prepare(struct worst *w, unsigned held, uint8_t type, int32_t answer)
{
    struct centre centre = first;
    uint8_t out[KMAC_OUT_LEN];
    w->next = NUMBER + 1;
    w->answer = answer;
    must(kmac_empty_store(w->store, w->edition->store_len) == 0);
    must(kmac_begin(OWN, CENTRE, NUMBER, w->session, out, sizeof out) == REPLY_LEN);
    centre_init(&centre, &w->message);
    must(receive(w) == 0);
    for (unsigned number = 1; number <= held;)
        number = fill(w, &centre, number, held);
    centre_start(&centre, &w->message, type);
    return &w->message;
}

static void make_init(struct worst *w)
{
    struct centre centre = first;
    uint8_t out[KMAC_OUT_LEN];
    prepare(w, w->edition->keys, NOTIF_SESSION_INIT, 0);
    must(kmac_begin(OWN, CENTRE, NUMBER, w->session, out, sizeof out) == REPLY_LEN);
    centre_init(&centre, &w->message);
}

/* The last key of the full store. */
static void make_one_add(struct worst *w)
{
    unsigned keys = w->edition->keys;
    struct message *message = prepare(w, keys - 1, CMD_ADD_KEYS, REPLY_LEN + 1);
    append_add(message, keys, peer_count(w->edition, keys));
}

static void make_adds(struct worst *w, unsigned held)
{
    struct message *message = prepare(w, held, CMD_ADD_KEYS, REPLY_LEN + ADDS);
    for (unsigned i = 1; i <= ADDS; i++)
        append_add(message, w->edition->keys + i, 1);
}

/*
 * First those that are not held, each sought in vain among all records; then as many records as said, from the front, so
 * that all others move.
 */
static void make_deletes(struct worst *w, unsigned deleted)
{
    unsigned keys = w->edition->keys;
    struct message *message = prepare(w, keys, CMD_DELETE_KEYS, REPLY_LEN + DELETES);
    for (unsigned i = 1; i <= DELETES - deleted; i++)
        centre_delete(message, ISSUER, keys + i);
    for (unsigned number = 1; number <= deleted; number++)
        centre_delete(message, ISSUER, number);
}

/* The last record, the last to be found. */
static void make_validities(struct worst *w)
{
    unsigned keys = w->edition->keys;
    struct message *message = prepare(w, keys, CMD_UPDATE_KEY_VALIDITIES, REPLY_LEN + UPDATES);
    for (unsigned i = 0; i < UPDATES; i++)
        centre_validity(message, ISSUER, keys, START + i, END + i);
}

/* The first record: as many peers each time, or every other time fewer, so that all other peers move. */
static void make_entities(struct worst *w, unsigned fewer)
{
    struct message *message = prepare(w, w->edition->keys, CMD_UPDATE_KEY_ENTITIES, REPLY_LEN + UPDATES);
    for (unsigned i = 0; i < UPDATES; i++) {
        uint32_t peers[PEERS] = {peer_of(100, i), peer_of(101, i)};
        centre_entities(message, ISSUER, 1, peers, (uint16_t)(PEERS - i % 2 * fewer));
    }
}

void worst_make(const struct edition *edition, struct worst worst[WORST_COUNT])
{
    unsigned keys = edition->keys;
    for (int i = 0; i < WORST_COUNT; i++) {
        worst[i].edition = edition;
        worst[i].name = edition->names[i];
    }
    make_init(&worst[WORST_INIT]);
    make_one_add(&worst[WORST_ONE_ADD]);
    make_adds(&worst[WORST_ADDS], 0);
    make_adds(&worst[WORST_ADDS_FULL], keys);
    make_deletes(&worst[WORST_DELETES], keys);
    make_deletes(&worst[WORST_DELETES_IN_VAIN], 0);
    make_validities(&worst[WORST_VALIDITIES]);
    make_entities(&worst[WORST_ENTITIES], 0);
    make_entities(&worst[WORST_ENTITIES_MOVED], 1);
    prepare(&worst[WORST_DELETE_ALL], keys, CMD_DELETE_ALL_KEYS, REPLY_LEN);
    prepare(&worst[WORST_END], keys, NOTIF_END_OF_UPDATE, 0);
}
