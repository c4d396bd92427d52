/*
 * Times the library beside the same work over OpenSSL's and nettle's DES and beside the second program, in one process.
 * What the contenders of a row make is compared before anything is timed. Rounds are interleaved: each round times every
 * contender of a row once, so that a slow moment of the machine falls on all. A time is the median of the rounds.
 */
#define _POSIX_C_SOURCE 199309L
#include "others.h"
#include "worst.h"

#include <stdio.h>
#include <stdlib.h>
#include <string.h>
#include <time.h>

enum { ROUNDS = 301, ROUND_NS = 300000, TRIES = 10 };

static const double QUIET = 0.15; /* the widest spread of a row that is not timed again */

/* ---- the second program (bench/reference) */

int32_t reference_receive(uint32_t own, uint32_t peer, uint16_t next, uint16_t expected, const uint8_t *message,
                          size_t message_len, uint8_t *store, size_t store_len, uint8_t *out, size_t out_len);
int32_t reference_find(const uint8_t *store, size_t store_len, uint32_t peer, uint32_t t, uint32_t *end);
int32_t reference_session_keys(const uint8_t *kmac, const uint8_t *ra, const uint8_t *rb, uint8_t *keys);
int32_t reference_build(const uint8_t *key, const uint8_t *destination, uint8_t direction, const uint8_t *data,
                        size_t data_len, uint8_t *out, size_t out_len);
int32_t reference_check(const uint8_t *unit, size_t unit_len, const uint8_t *key, const uint8_t *destination,
                        uint8_t direction);
int32_t reference_to_edition2(const uint8_t *from, size_t from_len, uint8_t *to, size_t to_len);
int32_t reference_to_edition1(const uint8_t *from, size_t from_len, uint8_t *to, size_t to_len);
int32_t reference_set_up(const uint8_t *store, size_t store_len, uint32_t caller, uint32_t called, uint32_t t,
                         const uint8_t *ra, const uint8_t *rb, uint8_t *made);

/* ---- inputs, and what a contender makes */

/* The messages to a store of an edition, and stores of which only the search is timed. */
struct inputs {
    struct worst worst[WORST_COUNT];
    struct worst random, issuers, slot; /* the full store, its keys under other names */
    struct worst falling, rising;       /* the full store, every record for the searched peer */
    struct worst unsound;               /* by its very last byte, the last that is looked at */
    struct worst one, full;             /* for a set-up: one key held, and as many as fit */
};

static struct inputs inputs_1, inputs_2;
static struct worst larger; /* the full store of edition 1, as one of edition 2 */
static const struct worst *now; /* the message or the store of a row */
static uint8_t key[KMAC_KEY_LEN], data[KMAC_DATA_MAX], unit[KMAC_UNIT_MAX];
static const uint8_t destination[KMAC_DESTINATION_LEN] = {0xe6, 0xa5, 0x4b};

static struct made {
    int32_t answer;
    uint32_t end;
    uint8_t out[KMAC_OUT_LEN];
    uint8_t store[KMAC_STORE_2_LEN];
} made;

/* ---- names of keys. A full store of worst.c has one issuer, and its serials are consecutive. */

enum { ISSUER = 0x05445566 };

struct name {
    uint32_t issuer;
    uint32_t serial;
};

/* The slot that the soundness test has for a name (crates/store/src/slots.rt). */
static unsigned slot_of(struct name name)
{
    uint64_t hash = name.issuer * UINT64_C(1779033703) + name.serial * UINT64_C(1540483477);
    return (unsigned)(hash / 4194304 % 1024);
}

/* Random serials: xorshift, which gives none twice. */
static struct name next_random(struct name name)
{
    name.serial ^= name.serial << 13;
    name.serial ^= name.serial >> 17;
    name.serial ^= name.serial << 5;
    return name;
}

/* Two issuers in turn, each with consecutive serials. */
static struct name next_of_issuers(struct name name)
{
    name.issuer ^= 1;
    name.serial += name.issuer % 2;
    return name;
}

/* All in one slot, so that the soundness test compares each with all before it. */
static struct name next_in_slot(struct name name)
{
    do
        name.serial++;
    while (slot_of(name) != 0);
    return name;
}

static uint32_t number_at(const uint8_t *bytes, size_t length)
{
    uint32_t number = 0;
    for (size_t i = 0; i < length; i++)
        number = number << 8 | bytes[i];
    return number;
}

static void put32(uint8_t *to, uint32_t value)
{
    for (int i = 3; i >= 0; i--, value >>= 8)
        to[i] = (uint8_t)value;
}

/* The full store with other names in its records, and else as it was. */
static void rename_keys(struct worst *w, const struct worst *full, struct name (*next)(struct name))
{
    const struct edition *edition = full->edition;
    struct name name = {ISSUER, 1};
    *w = *full;
    for (unsigned place = 1; place <= edition->keys; place++) {
        uint8_t *record = w->store + KMAC_KEY_AT(place) - 8;
        name = next(name);
        put32(record, name.issuer);
        put32(record + 4, name.serial);
    }
    uint32_t end;
    if (kmac_find(w->store, edition->store_len, worst_peer(edition), worst_moment(), &end) != (int32_t)edition->keys)
        abort();
}

/*
 * The full store, where the last peer of each record is the one that is searched, so that every record fits, and each ends
 * later than the one before it, or earlier. The search tries them from the last to the first: with falling ends each is
 * taken in its turn, and each list is read.
 */
static void share_peer(struct worst *w, const struct worst *full, int rising)
{
    const struct edition *edition = full->edition;
    *w = *full;
    for (unsigned place = 1; place <= edition->keys; place++) {
        uint8_t *record = w->store + KMAC_KEY_AT(place) - 8;
        unsigned last = (unsigned)number_at(record + 40, 2) + (unsigned)number_at(record + 42, 2) - 1;
        put32(record + 36, worst_moment() + (rising ? place : edition->keys - place + 1));
        put32(w->store + 12 + 44 * (size_t)edition->keys + 4 * (size_t)last, worst_peer(edition));
    }
    uint32_t end;
    int32_t place = rising ? (int32_t)edition->keys : 1;
    if (kmac_find(w->store, edition->store_len, worst_peer(edition), worst_moment(), &end) != place ||
        end != worst_moment() + edition->keys)
        abort();
}

/* ---- stores for a set-up. Both sides search in one, whose last record lists both. */

enum { CALLER = 0x02e6a54b, CALLED = 0x01123456, CENTRE = 0x05112233, REPLY_LEN = 23 };

static void must(int right)
{
    if (!right)
        abort();
}

static int32_t receive(struct worst *w)
{
    uint8_t out[KMAC_OUT_LEN];
    return kmac_receive(w->session, w->message.bytes, w->message.length, w->store, w->edition->store_len, out, sizeof out);
}

static void hold_one(struct worst *w, const struct edition *edition)
{
    struct centre centre = {CENTRE, CALLER, 1, 1};
    const uint32_t peers[] = {CALLER, CALLED};
    struct key held = {.issuer = ISSUER, .serial = 1, .peers = peers, .peer_count = 2,
                       .start = worst_moment(), .end = worst_moment()};
    uint8_t out[KMAC_OUT_LEN];
    worst_kmac(1, held.kmac);
    w->edition = edition;
    must(kmac_empty_store(w->store, edition->store_len) == 0);
    must(kmac_begin(CALLER, CENTRE, 1, w->session, out, sizeof out) == REPLY_LEN);
    centre_init(&centre, &w->message);
    must(receive(w) == 0);
    centre_start(&centre, &w->message, CMD_ADD_KEYS);
    centre_add(&w->message, CALLER, &held);
    must(receive(w) == REPLY_LEN + 1);
}

/* The last two peers of the full store end the store. */
static void hold_all(struct worst *w, const struct worst *full)
{
    uint8_t *last;
    *w = *full;
    last = w->store + w->edition->store_len - 4;
    put32(last - 4, CALLER);
    put32(last, CALLED);
}

static void prepare_stores(const struct edition *edition, struct inputs *inputs)
{
    const struct worst *full = &inputs->worst[WORST_DELETES];
    worst_make(edition, inputs->worst);
    rename_keys(&inputs->random, full, next_random);
    rename_keys(&inputs->issuers, full, next_of_issuers);
    rename_keys(&inputs->slot, full, next_in_slot);
    share_peer(&inputs->falling, full, 0);
    share_peer(&inputs->rising, full, 1);
    inputs->unsound = inputs->worst[WORST_ONE_ADD];
    inputs->unsound.store[edition->store_len - 1] = 1;
    hold_one(&inputs->one, edition);
    hold_all(&inputs->full, full);
}

static void prepare(void)
{
    prepare_stores(&edition_1, &inputs_1);
    prepare_stores(&edition_2, &inputs_2);
    larger.edition = &edition_2;
    if (kmac_to_edition2(inputs_1.worst[WORST_DELETES].store, KMAC_STORE_LEN, larger.store, KMAC_STORE_2_LEN) != 0 ||
        kmac_to_edition1(larger.store, KMAC_STORE_2_LEN, made.store, KMAC_STORE_LEN) != 0)
        abort();
    worst_kmac(1, key);
    for (size_t i = 0; i < sizeof data; i++)
        data[i] = (uint8_t)(7 * i);
    kmac_build(key, sizeof key, destination, 1, data, sizeof data, unit, sizeof unit);
}

/* ---- contenders: data units */

static void check_kmac(void) { made.answer = kmac_check(unit, sizeof unit, key, sizeof key, destination, 1); }
static void check_openssl(void) { made.answer = others_check(&over_openssl, unit, sizeof unit, key, destination, 1); }
static void check_nettle(void) { made.answer = others_check(&over_nettle, unit, sizeof unit, key, destination, 1); }
static void check_reference(void) { made.answer = reference_check(unit, sizeof unit, key, destination, 1); }

static void build_kmac(void)
{
    made.answer = kmac_build(key, sizeof key, destination, 1, data, sizeof data, made.out, sizeof made.out);
}
static void build_openssl(void) { made.answer = others_build(&over_openssl, key, destination, 1, data, sizeof data, made.out); }
static void build_nettle(void) { made.answer = others_build(&over_nettle, key, destination, 1, data, sizeof data, made.out); }
static void build_reference(void)
{
    made.answer = reference_build(key, destination, 1, data, sizeof data, made.out, sizeof made.out);
}

static void keys_kmac(void) { made.answer = kmac_session_keys(key, sizeof key, data, data + 8, made.out); }
static void keys_openssl(void) { others_session_keys(&over_openssl, key, data, data + 8, made.out); }
static void keys_nettle(void) { others_session_keys(&over_nettle, key, data, data + 8, made.out); }
static void keys_reference(void) { made.answer = reference_session_keys(key, data, data + 8, made.out); }

static void block_kmac(void) { kmac_des_encipher(key, data, made.out); }
static void block_openssl(void) { over_openssl.encipher(key, data, made.out); }
static void block_nettle(void) { over_nettle.encipher(key, data, made.out); }

/* ---- contenders: the store. Each receive has its store copied back first, which is timed with it. */

static uint8_t session[KMAC_SESSION_LEN];

static void receive_kmac(void)
{
    const struct message *m = &now->message;
    size_t store_len = now->edition->store_len;
    memcpy(session, now->session, sizeof session);
    memcpy(made.store, now->store, store_len);
    made.answer = kmac_receive(session, m->bytes, m->length, made.store, store_len, made.out, sizeof made.out);
}

/* Identities and numbers of the open session, as the session init and the message itself have them; no transaction number. */
static void receive_reference(void)
{
    const struct message *m = &now->message;
    size_t store_len = now->edition->store_len;
    memcpy(made.store, now->store, store_len);
    made.answer = reference_receive(number_at(m->bytes + 5, 4), number_at(m->bytes + 9, 4), now->next,
                                    (uint16_t)number_at(m->bytes + 17, 2), m->bytes, m->length, made.store, store_len,
                                    made.out, sizeof made.out);
}

static void copy_store(void) { memcpy(made.store, now->store, now->edition->store_len); }

static void find_kmac(void)
{
    made.answer = kmac_find(now->store, now->edition->store_len, worst_peer(now->edition), worst_moment(), &made.end);
}
static void find_reference(void)
{
    made.answer = reference_find(now->store, now->edition->store_len, worst_peer(now->edition), worst_moment(), &made.end);
}

/* ---- contenders: from one edition to the other */

static void forward_kmac(void)
{
    made.answer = kmac_to_edition2(now->store, KMAC_STORE_LEN, made.store, KMAC_STORE_2_LEN);
}
static void forward_reference(void)
{
    made.answer = reference_to_edition2(now->store, KMAC_STORE_LEN, made.store, KMAC_STORE_2_LEN);
}

static void back_kmac(void) { made.answer = kmac_to_edition1(now->store, KMAC_STORE_2_LEN, made.store, KMAC_STORE_LEN); }
static void back_reference(void)
{
    made.answer = reference_to_edition1(now->store, KMAC_STORE_2_LEN, made.store, KMAC_STORE_LEN);
}

/* ---- contenders: connection set-up, each time from idle. data has the random numbers. */

enum { KEY_AT = 28 }; /* in a connection */

static const uint8_t *const ra = data, *const rb = data + KMAC_RANDOM_LEN;

static void set_up_kmac(void)
{
    static uint8_t units[AR_AT + KMAC_OUT_LEN], none[KMAC_OUT_LEN];
    uint8_t caller[KMAC_CONNECTION_LEN] = {0}, called[KMAC_CONNECTION_LEN] = {0}, events[KMAC_EVENTS_LEN];
    const uint8_t *store = now->store;
    size_t store_len = now->edition->store_len, length;
    uint32_t t = worst_moment();
    uint8_t *au2 = units + AU2_AT, *au3 = units + AU3_AT, *ar = units + AR_AT;
    length = (size_t)kmac_connect_request(caller, 1, CALLER, CALLED, t, rb, store, store_len, events, units, KMAC_OUT_LEN);
    length = (size_t)kmac_connect_indication(called, 1, CALLED, t, ra, units, length, store, store_len, events, au2,
                                             KMAC_OUT_LEN);
    length = (size_t)kmac_connect_confirmation(caller, au2, length, events, au3, KMAC_OUT_LEN);
    kmac_unit_indication(called, KMAC_KIND_AU3, au3, length, events, none, KMAC_OUT_LEN);
    length = (size_t)kmac_connect_response(called, events, ar, KMAC_OUT_LEN);
    kmac_unit_indication(caller, KMAC_KIND_AR, ar, length, events, none, KMAC_OUT_LEN);
    memcpy(made.out, units, CALLER_KEYS_AT);
    memcpy(made.out + CALLER_KEYS_AT, caller + KEY_AT, KMAC_KEY_LEN);
    memcpy(made.out + CALLED_KEYS_AT, called + KEY_AT, KMAC_KEY_LEN);
    made.answer = caller[0] == KMAC_DATA && called[0] == KMAC_DATA ? 0 : -1;
}

/* With the KMAC of the last record, which no search has to find. */
static void set_up_over(const struct cipher *cipher)
{
    const uint8_t *kmac = now->store + KMAC_KEY_AT(number_at(now->store + 2, 2));
    made.answer = others_set_up(cipher, kmac, CALLER, CALLED, ra, rb, made.out);
}
static void set_up_openssl(void) { set_up_over(&over_openssl); }
static void set_up_nettle(void) { set_up_over(&over_nettle); }

static void set_up_reference(void)
{
    made.answer = reference_set_up(now->store, now->edition->store_len, CALLER, CALLED, worst_moment(), ra, rb, made.out);
}

/* The searches of a set-up: one for each side. */
static void searches_kmac(void)
{
    made.answer = kmac_find(now->store, now->edition->store_len, CALLED, worst_moment(), &made.end);
    made.answer = kmac_find(now->store, now->edition->store_len, CALLER, worst_moment(), &made.end);
}
static void searches_reference(void)
{
    made.answer = reference_find(now->store, now->edition->store_len, CALLED, worst_moment(), &made.end);
    made.answer = reference_find(now->store, now->edition->store_len, CALLER, worst_moment(), &made.end);
}

static void self_test(void) { made.answer = kmac_self_test(); }

/* ---- rows */

enum { LIBRARY, OPENSSL, NETTLE, SECOND, CONTENDERS };

static const char *const contenders[CONTENDERS] = {"libkmac", "OpenSSL", "nettle", "second program"};

struct row {
    const char *name; /* of the message, where there is none */
    void (*run[CONTENDERS])(void);
    const struct worst *with;
};

static const struct row rows[] = {
    {"check a unit of 1,032 bytes", {check_kmac, check_openssl, check_nettle, check_reference}, NULL},
    {"build a unit of 1,032 bytes", {build_kmac, build_openssl, build_nettle, build_reference}, NULL},
    {"session keys", {keys_kmac, keys_openssl, keys_nettle, keys_reference}, NULL},
    {"DES, key set-up and one block", {block_kmac, block_openssl, block_nettle, NULL}, NULL},
    {"self-test at power-on", {self_test, NULL, NULL, NULL}, NULL},
    {NULL, {receive_kmac, NULL, NULL, receive_reference}, &inputs_1.worst[WORST_ONE_ADD]},
    {NULL, {receive_kmac, NULL, NULL, receive_reference}, &inputs_1.worst[WORST_ADDS]},
    {NULL, {receive_kmac, NULL, NULL, receive_reference}, &inputs_1.worst[WORST_ADDS_FULL]},
    {NULL, {receive_kmac, NULL, NULL, receive_reference}, &inputs_1.worst[WORST_DELETES]},
    {NULL, {receive_kmac, NULL, NULL, receive_reference}, &inputs_1.worst[WORST_VALIDITIES]},
    {NULL, {receive_kmac, NULL, NULL, receive_reference}, &inputs_1.worst[WORST_ENTITIES]},
    {NULL, {receive_kmac, NULL, NULL, receive_reference}, &inputs_1.worst[WORST_ENTITIES_MOVED]},
    {NULL, {receive_kmac, NULL, NULL, receive_reference}, &inputs_1.worst[WORST_DELETE_ALL]},
    {"find, last peer of 64 keys", {find_kmac, NULL, NULL, find_reference}, &inputs_1.worst[WORST_DELETES]},
    {"soundness: find, last byte wrong", {find_kmac, NULL, NULL, find_reference}, &inputs_1.unsound},
    {"copy of the store, in each receive", {copy_store, NULL, NULL, NULL}, &inputs_1.worst[WORST_DELETES]},
    {"find, no key held", {find_kmac, NULL, NULL, find_reference}, &inputs_1.worst[WORST_ADDS]},
    {"find, last peer of 64 keys, random serials", {find_kmac, NULL, NULL, find_reference}, &inputs_1.random},
    {"find, last peer of 64 keys, two issuers", {find_kmac, NULL, NULL, find_reference}, &inputs_1.issuers},
    {"find, last peer of 64 keys, all in one slot", {find_kmac, NULL, NULL, find_reference}, &inputs_1.slot},
    {"find, all 64 keys fit, ends falling", {find_kmac, NULL, NULL, find_reference}, &inputs_1.falling},
    {"find, all 64 keys fit, ends rising", {find_kmac, NULL, NULL, find_reference}, &inputs_1.rising},
    {NULL, {receive_kmac, NULL, NULL, receive_reference}, &inputs_1.worst[WORST_DELETES_IN_VAIN]},
    {NULL, {receive_kmac, NULL, NULL, receive_reference}, &inputs_2.worst[WORST_ONE_ADD]},
    {NULL, {receive_kmac, NULL, NULL, receive_reference}, &inputs_2.worst[WORST_ADDS]},
    {NULL, {receive_kmac, NULL, NULL, receive_reference}, &inputs_2.worst[WORST_ADDS_FULL]},
    {NULL, {receive_kmac, NULL, NULL, receive_reference}, &inputs_2.worst[WORST_DELETES]},
    {NULL, {receive_kmac, NULL, NULL, receive_reference}, &inputs_2.worst[WORST_DELETES_IN_VAIN]},
    {NULL, {receive_kmac, NULL, NULL, receive_reference}, &inputs_2.worst[WORST_VALIDITIES]},
    {NULL, {receive_kmac, NULL, NULL, receive_reference}, &inputs_2.worst[WORST_ENTITIES]},
    {NULL, {receive_kmac, NULL, NULL, receive_reference}, &inputs_2.worst[WORST_ENTITIES_MOVED]},
    {NULL, {receive_kmac, NULL, NULL, receive_reference}, &inputs_2.worst[WORST_DELETE_ALL]},
    {"find, no key held, edition 2", {find_kmac, NULL, NULL, find_reference}, &inputs_2.worst[WORST_ADDS]},
    {"find, last peer of 500 keys", {find_kmac, NULL, NULL, find_reference}, &inputs_2.worst[WORST_DELETES]},
    {"find, last peer of 500 keys, random serials", {find_kmac, NULL, NULL, find_reference}, &inputs_2.random},
    {"find, last peer of 500 keys, two issuers", {find_kmac, NULL, NULL, find_reference}, &inputs_2.issuers},
    {"find, last peer of 500 keys, all in one slot", {find_kmac, NULL, NULL, find_reference}, &inputs_2.slot},
    {"find, all 500 keys fit, ends falling", {find_kmac, NULL, NULL, find_reference}, &inputs_2.falling},
    {"find, all 500 keys fit, ends rising", {find_kmac, NULL, NULL, find_reference}, &inputs_2.rising},
    {"soundness: find, last byte wrong, edition 2", {find_kmac, NULL, NULL, find_reference}, &inputs_2.unsound},
    {"to edition 2, 64 keys and 256 peers", {forward_kmac, NULL, NULL, forward_reference}, &inputs_1.worst[WORST_DELETES]},
    {"to edition 1, the same back", {back_kmac, NULL, NULL, back_reference}, &larger},
    {"to edition 1, 500 keys: no room", {back_kmac, NULL, NULL, back_reference}, &inputs_2.worst[WORST_DELETES]},
    {"find in that store of edition 2, no key fits", {find_kmac, NULL, NULL, find_reference}, &larger},
    {"copy of the store, edition 2", {copy_store, NULL, NULL, NULL}, &inputs_2.worst[WORST_DELETES]},
    {"set-up, both sides, 1 key held", {set_up_kmac, set_up_openssl, set_up_nettle, set_up_reference}, &inputs_1.one},
    {"set-up, both sides, 64 keys held", {set_up_kmac, set_up_openssl, set_up_nettle, set_up_reference}, &inputs_1.full},
    {"set-up, both sides, 1 key held, edition 2",
     {set_up_kmac, set_up_openssl, set_up_nettle, set_up_reference},
     &inputs_2.one},
    {"set-up, both sides, 500 keys held", {set_up_kmac, set_up_openssl, set_up_nettle, set_up_reference}, &inputs_2.full},
    {"its searches alone, 1 key held", {searches_kmac, NULL, NULL, searches_reference}, &inputs_1.one},
    {"its searches alone, 64 keys held", {searches_kmac, NULL, NULL, searches_reference}, &inputs_1.full},
    {"its searches alone, 1 key held, edition 2", {searches_kmac, NULL, NULL, searches_reference}, &inputs_2.one},
    {"its searches alone, 500 keys held", {searches_kmac, NULL, NULL, searches_reference}, &inputs_2.full},
};

static const char *name_of(const struct row *row)
{
    return row->name ? row->name : row->with->name;
}

/* Every contender of a row must make what the library makes. */
static void compare(const struct row *row)
{
    static struct made expected;
    for (int i = 0; i < CONTENDERS; i++) {
        if (!row->run[i])
            continue;
        memset(&made, 0, sizeof made);
        row->run[i]();
        if (i == LIBRARY)
            expected = made;
        if (memcmp(&made, &expected, sizeof made) != 0) {
            printf("%s: %s makes something else\n", name_of(row), contenders[i]);
            exit(1);
        }
    }
}

/* ---- timing */

static double seconds_now(void)
{
    struct timespec t;
    clock_gettime(CLOCK_MONOTONIC, &t);
    return (double)t.tv_sec + 1e-9 * (double)t.tv_nsec;
}

/* Nanoseconds for one of count runs. */
static double time_of(void (*run)(void), long count)
{
    double start = seconds_now();
    for (long i = 0; i < count; i++)
        run();
    return 1e9 * (seconds_now() - start) / (double)count;
}

/* Runs that fill one round. */
static long count_of(void (*run)(void))
{
    long count = 1;
    while (time_of(run, count) * (double)count < ROUND_NS)
        count *= 2;
    return count;
}

static int by_size(const void *a, const void *b)
{
    double x = *(const double *)a, y = *(const double *)b;
    return (x > y) - (x < y);
}

/* The median of each contender. Gives the widest spread: the distance of the quartiles as a part of the median. */
static double measure_once(const struct row *row, double median[CONTENDERS])
{
    static double times[CONTENDERS][ROUNDS];
    long count[CONTENDERS];
    double widest = 0;
    for (int i = 0; i < CONTENDERS; i++)
        count[i] = row->run[i] ? count_of(row->run[i]) : 0;
    for (int round = 0; round < ROUNDS; round++)
        for (int i = 0; i < CONTENDERS; i++)
            if (row->run[i])
                times[i][round] = time_of(row->run[i], count[i]);
    for (int i = 0; i < CONTENDERS; i++) {
        if (!row->run[i])
            continue;
        qsort(times[i], ROUNDS, sizeof times[i][0], by_size);
        median[i] = times[i][ROUNDS / 2];
        double spread = (times[i][3 * ROUNDS / 4] - times[i][ROUNDS / 4]) / median[i];
        if (spread > widest)
            widest = spread;
    }
    return widest;
}

/* A row that other work on the machine disturbed is timed again. */
static double measure(const struct row *row, double median[CONTENDERS])
{
    double widest = 0;
    for (int i = 0; i < TRIES; i++) {
        widest = measure_once(row, median);
        if (widest <= QUIET)
            break;
    }
    return widest;
}

static void print_cells(const struct row *row, const double median[CONTENDERS])
{
    for (int i = 0; i < CONTENDERS; i++)
        if (row->run[i])
            printf(" %.0f |", median[i]);
        else
            printf(" |");
    for (int i = OPENSSL; i < CONTENDERS; i++)
        if (row->run[i])
            printf(" %.2f |", median[LIBRARY] / median[i]);
        else
            printf(" |");
}

static void print_table(void)
{
    double busiest = 0;
    printf("| ns | libkmac | OpenSSL | nettle | second program | libkmac / OpenSSL | / nettle | / second program | spread |\n");
    printf("|---|---|---|---|---|---|---|---|---|\n");
    for (size_t i = 0; i < sizeof rows / sizeof rows[0]; i++) {
        double median[CONTENDERS] = {0};
        now = rows[i].with;
        compare(&rows[i]);
        double widest = measure(&rows[i], median);
        printf("| %s |", name_of(&rows[i]));
        print_cells(&rows[i], median);
        printf(" %.0f %% |\n", 100 * widest);
        fflush(stdout);
        if (widest > busiest)
            busiest = widest;
    }
    if (busiest > QUIET)
        puts("The machine was busy. Run it again.");
}

/* Every contender of the row with this name once, untimed. */
static int run_once(const char *name)
{
    for (size_t i = 0; i < sizeof rows / sizeof rows[0]; i++) {
        if (strcmp(name_of(&rows[i]), name) != 0)
            continue;
        now = rows[i].with;
        compare(&rows[i]);
        return 0;
    }
    return 1;
}

int main(int argc, char **argv)
{
    prepare();
    if (argc == 2)
        return run_once(argv[1]);
    print_table();
    return 0;
}
