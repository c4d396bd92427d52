/*
 * kmac.h as C11 and as C++17: each function is there with its type, can be linked and called from either, and gives each
 * refusal under its name, in the order that kmac.h says.
 */
#include "kmac.h"

#include <stdio.h>
#include <string.h>

#ifdef __cplusplus
#define HELD_AT_COMPILE_TIME static_assert
#else
#define HELD_AT_COMPILE_TIME _Static_assert
#endif

HELD_AT_COMPILE_TIME(KMAC_STORE_LEN == 12 + 44 * KMAC_STORE_KEYS + 4 * KMAC_STORE_PEERS, "the store's parts");
HELD_AT_COMPILE_TIME(KMAC_STORE_2_LEN == 12 + 44 * KMAC_STORE_2_KEYS + 4 * KMAC_STORE_2_PEERS, "the parts of edition 2");
HELD_AT_COMPILE_TIME(KMAC_UNIT_MAX == 1 + KMAC_DATA_MAX + KMAC_MAC_LEN, "the unit's parts");
HELD_AT_COMPILE_TIME(KMAC_UNIT_MIN == 1 + KMAC_MAC_LEN, "the unit's parts without user data");
HELD_AT_COMPILE_TIME(KMAC_OUT_LEN >= KMAC_UNIT_MAX, "a unit fits into an output buffer");
HELD_AT_COMPILE_TIME(KMAC_KEY_AT(1) == 20, "the first KMAC");
HELD_AT_COMPILE_TIME(KMAC_KEY_AT(KMAC_STORE_KEYS) + KMAC_KEY_LEN <= KMAC_STORE_LEN, "the last KMAC");
HELD_AT_COMPILE_TIME(KMAC_KEY_AT(KMAC_STORE_2_KEYS) + KMAC_KEY_LEN <= KMAC_STORE_2_LEN, "the last KMAC of edition 2");
HELD_AT_COMPILE_TIME(KMAC_H14_NO_ROOM == -14, "a refusal is the negative of its number");

static int32_t (*const begin)(uint32_t, uint32_t, uint16_t, uint8_t *, uint8_t *, size_t) = kmac_begin;
static int32_t (*const receive)(uint8_t *, const uint8_t *, size_t, uint8_t *, size_t, uint8_t *, size_t) = kmac_receive;
static int32_t (*const find)(const uint8_t *, size_t, uint32_t, uint32_t, uint32_t *) = kmac_find;
static int32_t (*const session_keys)(const uint8_t *, size_t, const uint8_t *, const uint8_t *,
                                     uint8_t *) = kmac_session_keys;
static int32_t (*const build)(const uint8_t *, size_t, const uint8_t *, uint8_t, const uint8_t *, size_t, uint8_t *,
                              size_t) = kmac_build;
static int32_t (*const check)(const uint8_t *, size_t, const uint8_t *, size_t, const uint8_t *, uint8_t) = kmac_check;
static void (*const encipher)(const uint8_t *, const uint8_t *, uint8_t *) = kmac_des_encipher;
static void (*const decipher)(const uint8_t *, const uint8_t *, uint8_t *) = kmac_des_decipher;
static int32_t (*const empty_store)(uint8_t *, size_t) = kmac_empty_store;
static int32_t (*const to_edition2)(const uint8_t *, size_t, uint8_t *, size_t) = kmac_to_edition2;
static int32_t (*const to_edition1)(const uint8_t *, size_t, uint8_t *, size_t) = kmac_to_edition1;
static int32_t (*const self_test)(void) = kmac_self_test;
static int32_t (*const version)(void) = kmac_version;

static int32_t (*const connect_request)(uint8_t *, uint8_t, uint32_t, uint32_t, uint32_t, const uint8_t *, const uint8_t *,
                                        size_t, uint8_t *, uint8_t *, size_t) = kmac_connect_request;
static int32_t (*const connect_response)(uint8_t *, uint8_t *, uint8_t *, size_t) = kmac_connect_response;
static int32_t (*const data_request)(uint8_t *, const uint8_t *, size_t, uint8_t *, uint8_t *, size_t) = kmac_data_request;
static int32_t (*const disconnect_request)(uint8_t *, uint8_t, uint8_t, uint8_t *, uint8_t *,
                                           size_t) = kmac_disconnect_request;
static int32_t (*const connect_indication)(uint8_t *, uint8_t, uint32_t, uint32_t, const uint8_t *, const uint8_t *, size_t,
                                           const uint8_t *, size_t, uint8_t *, uint8_t *, size_t) = kmac_connect_indication;
static int32_t (*const connect_confirmation)(uint8_t *, const uint8_t *, size_t, uint8_t *, uint8_t *,
                                             size_t) = kmac_connect_confirmation;
static int32_t (*const disconnect_indication)(uint8_t *, uint8_t, const uint8_t *, size_t, uint8_t *, uint8_t *,
                                              size_t) = kmac_disconnect_indication;
static int32_t (*const unit_indication)(uint8_t *, uint8_t, const uint8_t *, size_t, uint8_t *, uint8_t *,
                                        size_t) = kmac_unit_indication;
static int32_t (*const run_down)(uint8_t *, uint8_t *, uint8_t *, size_t) = kmac_time_out;
static int32_t (*const unit_kind)(const uint8_t *, size_t) = kmac_unit_kind;

static uint8_t store[KMAC_STORE_LEN], store_2[KMAC_STORE_2_LEN + 1], session[KMAC_SESSION_LEN], out[KMAC_OUT_LEN];
static const uint8_t bytes[KMAC_KEY_LEN] = {0x01, 0x02, 0x04, 0x07, 0x08, 0x0b, 0x0d, 0x0e};

/* A refused search leaves the end as it was. */
static int find_refuses(const uint8_t *lent, size_t length, int32_t refusal)
{
    uint32_t end = 0x1a2b3c4d;
    return find(lent, length, 1, 1, &end) == refusal && end == 0x1a2b3c4d;
}

/* No edition has this length: every call that takes a store refuses it. */
static int length_answers(size_t length)
{
    return find_refuses(store_2, length, KMAC_H1_STORE_LENGTH) && empty_store(store_2, length) == KMAC_H1_STORE_LENGTH &&
           receive(session, bytes, 0, store_2, length, out, 0) == KMAC_H1_STORE_LENGTH;
}

static int lengths_answer(void)
{
    return length_answers(0) && length_answers(KMAC_STORE_LEN - 1) && length_answers(KMAC_STORE_LEN + 1) &&
           length_answers(KMAC_STORE_2_LEN - 1) && length_answers(KMAC_STORE_2_LEN + 1);
}

/* The stores are all zero bytes at first: of the right length and unsound. */
static int store_answers(uint8_t *lent, size_t length)
{
    return find_refuses(lent, length, KMAC_H12_STORE_UNSOUND) && empty_store(lent, length) == 0 &&
           find_refuses(lent, length, KMAC_H11_NO_KEY);
}

/* Both stores are empty: with the header of the other edition neither is sound, and either is made empty again. */
static int header_answers(void)
{
    uint8_t header[12];
    memcpy(header, store, sizeof header);
    memcpy(store, store_2, sizeof header);
    memcpy(store_2, header, sizeof header);
    return store_answers(store, sizeof store) && store_answers(store_2, KMAC_STORE_2_LEN);
}

/* The store of edition 2 with so many keys, all of one issuer and one KMAC, and with all its peers at the last. */
static void hold(unsigned keys, unsigned peers)
{
    empty_store(store_2, KMAC_STORE_2_LEN);
    store_2[2] = (uint8_t)(keys >> 8);
    store_2[3] = (uint8_t)keys;
    store_2[6] = (uint8_t)(peers >> 8);
    store_2[7] = (uint8_t)peers;
    for (unsigned i = 0; i < keys; i++) {
        uint8_t *record = store_2 + 12 + (size_t)44 * i;
        record[6] = (uint8_t)(i >> 8);
        record[7] = (uint8_t)i;
        memset(record + 8, 1, KMAC_KEY_LEN);
        if (i + 1 == keys) {
            record[42] = (uint8_t)(peers >> 8);
            record[43] = (uint8_t)peers;
        }
    }
}

/* The first bytes of a buffer are all those that were painted. */
static int painted(const uint8_t *buffer, size_t length)
{
    return buffer[0] == 0xa5 && memcmp(buffer, buffer + 1, length - 1) == 0;
}

/* What was held goes back to edition 1 and forward again, into painted buffers, and is the same. */
static int returns(void)
{
    static uint8_t before[KMAC_STORE_2_LEN];
    memcpy(before, store_2, sizeof before);
    memset(store, 0xa5, sizeof store);
    int32_t back = to_edition1(store_2, KMAC_STORE_2_LEN, store, sizeof store);
    memset(store_2, 0xa5, KMAC_STORE_2_LEN);
    return back == 0 && to_edition2(store, sizeof store, store_2, KMAC_STORE_2_LEN) == 0 &&
           memcmp(store_2, before, sizeof before) == 0;
}

/* A refusal leaves the painted target. */
static int back_refuses(size_t from_length, size_t to_length, int32_t refusal)
{
    memset(store, 0xa5, sizeof store);
    return to_edition1(store_2, from_length, store, to_length) == refusal && painted(store, sizeof store);
}

static int forward_refuses(size_t from_length, size_t to_length, int32_t refusal)
{
    memset(store_2, 0xa5, sizeof store_2);
    return to_edition2(store, from_length, store_2, to_length) == refusal && painted(store_2, sizeof store_2);
}

/* Lengths before soundness, soundness before room. What is held has room, then not, then is unsound, as a painted store is. */
static int conversion_answers(void)
{
    hold(KMAC_STORE_KEYS, KMAC_STORE_PEERS);
    if (!returns() || !back_refuses(KMAC_STORE_LEN, KMAC_STORE_LEN, KMAC_H1_STORE_LENGTH) ||
        !back_refuses(KMAC_STORE_2_LEN, KMAC_STORE_LEN - 1, KMAC_H1_STORE_LENGTH))
        return 0;
    hold(KMAC_STORE_KEYS + 1, 0);
    if (!back_refuses(KMAC_STORE_2_LEN, KMAC_STORE_LEN, KMAC_H14_NO_ROOM))
        return 0;
    hold(1, KMAC_STORE_PEERS + 1);
    if (!back_refuses(KMAC_STORE_2_LEN, KMAC_STORE_LEN, KMAC_H14_NO_ROOM))
        return 0;
    hold(KMAC_STORE_2_KEYS + 1, 0);
    return back_refuses(KMAC_STORE_2_LEN, KMAC_STORE_LEN, KMAC_H12_STORE_UNSOUND) &&
           back_refuses(KMAC_STORE_2_LEN, KMAC_STORE_LEN - 1, KMAC_H1_STORE_LENGTH) &&
           forward_refuses(KMAC_STORE_LEN, KMAC_STORE_2_LEN + 1, KMAC_H1_STORE_LENGTH) &&
           forward_refuses(KMAC_STORE_LEN - 1, KMAC_STORE_2_LEN, KMAC_H1_STORE_LENGTH) &&
           forward_refuses(KMAC_STORE_LEN, KMAC_STORE_2_LEN, KMAC_H12_STORE_UNSOUND);
}

/* The session is all zero bytes at first: closed. A message of 20 bytes that is no session init closes a waiting one. */
static int session_answers(uint8_t *lent, size_t length)
{
    return receive(session, bytes, 0, lent, length, out, 0) == KMAC_H2_OUTPUT_LENGTH &&
           receive(session, bytes, 0, lent, length, out, sizeof out) == KMAC_H3_SESSION_CLOSED &&
           begin(1, 1, 0, session, out, 0) == KMAC_H2_OUTPUT_LENGTH &&
           begin(1, 1, 0, session, out, sizeof out) == KMAC_H6_SAME_IDENTITY && session[0] == 0 &&
           begin(1, 2, 0, session, out, sizeof out) == 23 &&
           receive(session, bytes, 19, lent, length, out, sizeof out) == KMAC_H4_MESSAGE_SHORT &&
           receive(session, bytes, 20, lent, length, out, sizeof out) == KMAC_H5_NO_SESSION_INIT &&
           receive(session, bytes, 20, lent, length, out, sizeof out) == KMAC_H3_SESSION_CLOSED;
}

/* Once for each edition, and what is no edition. */
static int stores_answer(void)
{
    return lengths_answer() && store_answers(store, sizeof store) && store_answers(store_2, KMAC_STORE_2_LEN) &&
           header_answers() && session_answers(store, sizeof store) && session_answers(store_2, KMAC_STORE_2_LEN) &&
           conversion_answers();
}

static int unit_answers(void)
{
    uint8_t keys[KMAC_KEY_LEN];
    return session_keys(bytes, 23, bytes, bytes, keys) == KMAC_H13_KEY_LENGTH &&
           session_keys(bytes, sizeof bytes, bytes, bytes, keys) == 0 &&
           build(keys, 23, bytes, 0, bytes, 0, out, 0) == KMAC_H13_KEY_LENGTH &&
           build(keys, sizeof keys, bytes, 0, bytes, 0, out, 1031) == KMAC_H2_OUTPUT_LENGTH &&
           build(keys, sizeof keys, bytes, 0, bytes, 0, out, sizeof out) == KMAC_H10_DATA_LENGTH &&
           build(keys, sizeof keys, bytes, 2, bytes, 1, out, sizeof out) == 10 && out[0] == 11 &&
           check(out, 8, keys, 0, bytes, 1) == KMAC_H13_KEY_LENGTH &&
           check(out, 8, keys, sizeof keys, bytes, 1) == KMAC_H7_UNIT_LENGTH &&
           check(out, 9, keys, sizeof keys, bytes, 1) == KMAC_H8_MAC_DIFFERS &&
           check(out, 10, keys, sizeof keys, bytes, 0) == KMAC_H9_UNIT_CONTENTS &&
           check(out, 10, keys, sizeof keys, bytes, 1) == 1 && out[1] == bytes[0];
}

/* ---- connection set-up, with units that a second program computed (SUBSET-037-2 prints none) */

enum { CALLER = 0x02e6a54b, CALLED = 0x01123456, MOMENT = 0x1000 };

static const uint8_t ra[KMAC_RANDOM_LEN] = {0xa0, 0xa1, 0xa2, 0xa3, 0xa4, 0xa5, 0xa6, 0xa7};
static const uint8_t rb[KMAC_RANDOM_LEN] = {0xb0, 0xb1, 0xb2, 0xb3, 0xb4, 0xb5, 0xb6, 0xb7};
static const uint8_t au1[] = {0x42, 0xe6, 0xa5, 0x4b, 0x01, 0xb0, 0xb1, 0xb2, 0xb3, 0xb4, 0xb5, 0xb6, 0xb7};
static const uint8_t au2[] = {0x25, 0x12, 0x34, 0x56, 0x01, 0xa0, 0xa1, 0xa2, 0xa3, 0xa4, 0xa5,
                              0xa6, 0xa7, 0xba, 0x1b, 0xdd, 0xdc, 0x16, 0x25, 0xa2, 0x62};
static const uint8_t au3[] = {0x06, 0xaa, 0xce, 0xef, 0xbc, 0xea, 0x51, 0x17, 0xb5};
static const uint8_t ar[] = {0x13, 0x77, 0x59, 0x70, 0x7b, 0x00, 0x8e, 0xde, 0xf8};
static const uint8_t dt[] = {0x0a, 0x68, 0x69, 0xe2, 0xc8, 0xac, 0xba, 0x3b, 0x97, 0x7c, 0x28};
static const uint8_t dt_back[] = {0x0b, 0x68, 0x69, 0x27, 0xf5, 0x73, 0xfe, 0x14, 0x55, 0xd1, 0x10};
static const uint8_t di[] = {0x10, 0x00, 0x07};

/* A side of a connection. */
struct side {
    uint8_t store[KMAC_STORE_LEN], connection[KMAC_CONNECTION_LEN], events[KMAC_EVENTS_LEN];
};

static struct side caller, called;

static void put32(uint8_t *at, uint32_t number)
{
    for (int i = 0; i < 4; i++)
        at[i] = (uint8_t)(number >> (24 - 8 * i));
}

/* A store with the example KMAC of SUBSET-037-2, Annex B, for one peer, from MOMENT on. */
static void hold_one(uint8_t *lent, uint32_t peer)
{
    static const uint8_t kmac[KMAC_KEY_LEN] = {0x01, 0x02, 0x04, 0x07, 0x08, 0x0b, 0x0d, 0x0e, 0x10, 0x13, 0x15, 0x16,
                                               0x19, 0x1a, 0x1c, 0x1f, 0x20, 0x23, 0x25, 0x26, 0x29, 0x2a, 0x2c, 0x2f};
    empty_store(lent, KMAC_STORE_LEN);
    lent[3] = 1;
    lent[7] = 1;
    memcpy(lent + KMAC_KEY_AT(1), kmac, sizeof kmac);
    put32(lent + 12 + 32, MOMENT);
    put32(lent + 12 + 36, MOMENT);
    lent[12 + 43] = 1;
    put32(lent + 12 + 44 * KMAC_STORE_KEYS, peer);
}

/* The answer is the length of this unit, which stands in out, and events and connection say the rest. */
static int goes(const struct side *side, int32_t answer, const uint8_t *sent, size_t length, uint8_t user, uint8_t transport,
                uint8_t timer, uint8_t state)
{
    const uint8_t *e = side->events;
    return answer == (int32_t)length && memcmp(out, sent, length) == 0 && e[0] == user && e[1] == transport && e[2] == timer &&
           e[3] == state && side->connection[0] == state;
}

static int32_t call(uint8_t acceptable, uint32_t own, uint32_t peer, uint32_t t, const uint8_t *lent, size_t length)
{
    return connect_request(caller.connection, acceptable, own, peer, t, rb, lent, length, caller.events, out, sizeof out);
}

static int32_t be_called(uint32_t own, const uint8_t *lent, size_t length)
{
    return connect_indication(called.connection, 1, own, MOMENT, ra, au1, sizeof au1, lent, length, called.events, out,
                              sizeof out);
}

static int32_t bring(struct side *side, const uint8_t *unit, size_t length)
{
    return unit_indication(side->connection, (uint8_t)unit_kind(unit, length), unit, length, side->events, out, sizeof out);
}

/* Each side starts set-up only with a key, the caller's and the called one's types at most 7. */
static int start_refuses(void)
{
    uint8_t unsound[KMAC_STORE_LEN] = {0};
    return call(1, CALLER, CALLED, MOMENT, caller.store, 0) == KMAC_H1_STORE_LENGTH &&
           call(1, CALLER, CALLED, MOMENT, unsound, sizeof unsound) == KMAC_H12_STORE_UNSOUND &&
           call(1, CALLER, CALLED, MOMENT + 1, caller.store, sizeof caller.store) == KMAC_H11_NO_KEY &&
           call(1, 0x08e6a54b, CALLED, MOMENT, caller.store, sizeof caller.store) == KMAC_H11_NO_KEY &&
           be_called(CALLED, called.store, 0) == KMAC_H1_STORE_LENGTH &&
           be_called(CALLED, unsound, sizeof unsound) == KMAC_H12_STORE_UNSOUND &&
           be_called(CALLED, caller.store, sizeof caller.store) == KMAC_H11_NO_KEY &&
           be_called(0x08123456, called.store, sizeof called.store) == KMAC_H11_NO_KEY;
}

/* Every event has a length of the output buffer that it refuses before all else. */
static int every_event_refuses(struct side *side)
{
    uint8_t *c = side->connection, *e = side->events;
    size_t little = sizeof out - 1;
    return connect_request(c, 0, 0, 0, 0, rb, out, 0, e, out, little) == KMAC_H2_OUTPUT_LENGTH &&
           connect_response(c, e, out, little) == KMAC_H2_OUTPUT_LENGTH &&
           data_request(c, bytes, 0, e, out, little) == KMAC_H2_OUTPUT_LENGTH &&
           data_request(c, bytes, 0, e, out, sizeof out) == KMAC_H10_DATA_LENGTH &&
           disconnect_request(c, 0, 0, e, out, little) == KMAC_H2_OUTPUT_LENGTH &&
           connect_indication(c, 0, 0, 0, ra, bytes, 0, bytes, 0, e, out, little) == KMAC_H2_OUTPUT_LENGTH &&
           connect_confirmation(c, bytes, 0, e, out, little) == KMAC_H2_OUTPUT_LENGTH &&
           disconnect_indication(c, 0, bytes, 0, e, out, little) == KMAC_H2_OUTPUT_LENGTH &&
           unit_indication(c, 0, bytes, 0, e, out, little) == KMAC_H2_OUTPUT_LENGTH &&
           run_down(c, e, out, little) == KMAC_H2_OUTPUT_LENGTH;
}

/* A refusal leaves connection, events and output, whatever stands there. */
static int refusals_leave(void)
{
    struct side side;
    memset(&side, 0xa5, sizeof side);
    memset(out, 0xa5, sizeof out);
    return every_event_refuses(&side) && painted(side.connection, sizeof side.connection) &&
           painted(side.events, sizeof side.events) && painted(out, sizeof out);
}

static int set_up(void)
{
    return goes(&caller, call(1, CALLER, CALLED, MOMENT, caller.store, sizeof caller.store), au1, sizeof au1,
                KMAC_USER_NOTHING, KMAC_TRANSPORT_CONNECT_REQUEST, KMAC_TIMER_SET, KMAC_WFTC) &&
           goes(&called, be_called(CALLED, called.store, sizeof called.store), au2, sizeof au2, KMAC_USER_NOTHING,
                KMAC_TRANSPORT_CONNECT_RESPONSE, KMAC_TIMER_AS_IT_IS, KMAC_WFAU3) &&
           goes(&caller, connect_confirmation(caller.connection, au2, sizeof au2, caller.events, out, sizeof out), au3,
                sizeof au3, KMAC_USER_NOTHING, KMAC_TRANSPORT_AU3, KMAC_TIMER_AS_IT_IS, KMAC_WFAR) &&
           goes(&called, bring(&called, au3, sizeof au3), out, 0, KMAC_USER_CONNECT_INDICATION, KMAC_TRANSPORT_NOTHING,
                KMAC_TIMER_AS_IT_IS, KMAC_WFRESP) &&
           memcmp(called.connection + 8, "\x02\xe6\xa5\x4b", 4) == 0 &&
           goes(&called, connect_response(called.connection, called.events, out, sizeof out), ar, sizeof ar,
                KMAC_USER_NOTHING, KMAC_TRANSPORT_AR, KMAC_TIMER_AS_IT_IS, KMAC_DATA) &&
           goes(&caller, bring(&caller, ar, sizeof ar), out, 0, KMAC_USER_CONNECT_CONFIRMATION, KMAC_TRANSPORT_NOTHING,
                KMAC_TIMER_STOP, KMAC_DATA);
}

/* User data both ways, and a unit that is not right. */
static int talk(void)
{
    static const uint8_t hi[] = {0x68, 0x69};
    return goes(&caller, data_request(caller.connection, hi, sizeof hi, caller.events, out, sizeof out), dt, sizeof dt,
                KMAC_USER_NOTHING, KMAC_TRANSPORT_DT, KMAC_TIMER_AS_IT_IS, KMAC_DATA) &&
           goes(&called, bring(&called, dt, sizeof dt), out, 0, KMAC_USER_DATA_INDICATION, KMAC_TRANSPORT_NOTHING,
                KMAC_TIMER_AS_IT_IS, KMAC_DATA) &&
           called.events[6] == 0 && called.events[7] == sizeof hi &&
           goes(&called, data_request(called.connection, hi, sizeof hi, called.events, out, sizeof out), dt_back,
                sizeof dt_back, KMAC_USER_NOTHING, KMAC_TRANSPORT_DT, KMAC_TIMER_AS_IT_IS, KMAC_DATA) &&
           goes(&caller, bring(&caller, dt, sizeof dt), out, 0, KMAC_USER_REPORT_INDICATION, KMAC_TRANSPORT_NOTHING,
                KMAC_TIMER_AS_IT_IS, KMAC_DATA) &&
           caller.events[4] == 4 && caller.events[5] == 1;
}

/* The caller releases with 0 and 7. What is left of a connection is zeros. */
static int part(void)
{
    static const uint8_t zeros[KMAC_CONNECTION_LEN] = {0};
    return goes(&caller, disconnect_request(caller.connection, 0, 7, caller.events, out, sizeof out), di, sizeof di,
                KMAC_USER_NOTHING, KMAC_TRANSPORT_DISCONNECT_REQUEST_DI, KMAC_TIMER_STOP_ALL, KMAC_IDLE) &&
           goes(&called, disconnect_indication(called.connection, 0, di, sizeof di, called.events, out, sizeof out), out, 0,
                KMAC_USER_DISCONNECT_INDICATION, KMAC_TRANSPORT_NOTHING, KMAC_TIMER_STOP_ALL, KMAC_IDLE) &&
           called.events[4] == 0 && called.events[5] == 7 && memcmp(caller.connection, zeros, sizeof zeros) == 0 &&
           memcmp(called.connection, zeros, sizeof zeros) == 0;
}

/* The time-out of a caller that nobody answers, and of an idle one: an answer that is no refusal writes what is not state
   or role anew. */
static int times_out(void)
{
    if (call(1, CALLER, CALLED, MOMENT, caller.store, sizeof caller.store) != sizeof au1)
        return 0;
    if (!goes(&caller, run_down(caller.connection, caller.events, out, sizeof out), out, 0, KMAC_USER_DISCONNECT_INDICATION,
              KMAC_TRANSPORT_DISCONNECT_REQUEST, KMAC_TIMER_STOP_ALL, KMAC_IDLE) ||
        caller.events[4] != 7 || caller.events[5] != 3)
        return 0;
    memset(caller.connection, 0xa5, sizeof caller.connection);
    return goes(&caller, run_down(caller.connection, caller.events, out, sizeof out), out, 0, KMAC_USER_NOTHING,
                KMAC_TRANSPORT_NOTHING, KMAC_TIMER_AS_IT_IS, 0xa5) &&
           caller.connection[1] == 1 && caller.connection[2] == 0 && caller.connection[4] == 0xa5 &&
           caller.connection[63] == 0;
}

static int connection_answers(void)
{
    hold_one(caller.store, CALLED);
    hold_one(called.store, CALLER);
    return refusals_leave() && start_refuses() && set_up() && talk() && part() && times_out() &&
           unit_kind(au3, sizeof au3) == KMAC_KIND_AU3 && unit_kind(ar, sizeof ar) == KMAC_KIND_AR &&
           unit_kind(dt, sizeof dt) == KMAC_KIND_DT && unit_kind(au1, sizeof au1) == KMAC_KIND_DT &&
           unit_kind(dt, 0) == KMAC_KIND_DT;
}

/* The first vector of NIST SP 800-17, Table B.4. */
static int des_answers(void)
{
    const uint8_t key[KMAC_DES_LEN] = {0x7c, 0xa1, 0x10, 0x45, 0x4a, 0x1a, 0x6e, 0x57};
    const uint8_t block[KMAC_DES_LEN] = {0x01, 0xa1, 0xd6, 0xd0, 0x39, 0x77, 0x67, 0x42};
    const uint8_t expected[KMAC_DES_LEN] = {0x69, 0x0f, 0x5b, 0x0d, 0x9a, 0x26, 0x93, 0x9b};
    uint8_t enciphered[KMAC_DES_LEN], deciphered[KMAC_DES_LEN];
    encipher(key, block, enciphered);
    decipher(key, enciphered, deciphered);
    return memcmp(enciphered, expected, sizeof expected) == 0 && memcmp(deciphered, block, sizeof block) == 0;
}

int main(void)
{
    if (version() != KMAC_VERSION || !stores_answer() || !unit_answers() || !connection_answers() || !des_answers() ||
        self_test() != 0) {
        puts("a call does not answer as kmac.h says");
        return 1;
    }
    return 0;
}
