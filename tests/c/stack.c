/*
 * Stack that each call needs. The call runs on a stack of its own that is painted before; the lowest byte that is no longer
 * as painted is how deep it went. Fails if a call goes deeper than kmac.h says, or does not answer as expected.
 */
#include "worst.h"

#include <stdio.h>
#include <stdlib.h>
#include <string.h>
#include <ucontext.h>

enum { STACK_LEN = 1 << 18 };

static _Alignas(16) uint8_t stack[STACK_LEN];
static ucontext_t outside, inside;
static const uint8_t *top; /* the caller's stack pointer as it makes the call */

static struct worst now; /* the message on its way, or the store that is lent */
static uint8_t unit[KMAC_UNIT_MAX], out[KMAC_UNIT_MAX], data[KMAC_DATA_MAX], key[KMAC_KEY_LEN], keys[KMAC_KEY_LEN];
static uint8_t other_store[KMAC_STORE_2_LEN]; /* that a conversion writes */
static const uint8_t destination[KMAC_DESTINATION_LEN] = {0xe6, 0xa5, 0x4b};
static int32_t answer;

static uint8_t before[KMAC_CONNECTION_LEN], connection[KMAC_CONNECTION_LEN], events[KMAC_EVENTS_LEN];
static uint8_t brought[KMAC_UNIT_MAX]; /* the unit that an event brings */
static size_t brought_len;

/* The frame address of this function is 16 bytes below its caller's stack pointer. */
static __attribute__((noinline)) void enter(void)
{
    top = (const uint8_t *)__builtin_frame_address(0) + 16;
}

static void leave(void)
{
    swapcontext(&inside, &outside);
}

/* ---- the calls */

static void call_begin(void)
{
    enter();
    answer = kmac_begin(1, 2, 65535, now.session, out, sizeof out);
    leave();
}

static void call_receive(void)
{
    enter();
    answer = kmac_receive(now.session, now.message.bytes, now.message.length, now.store, now.edition->store_len, out,
                          sizeof out);
    leave();
}

static void call_find(void)
{
    uint32_t end;
    enter();
    answer = kmac_find(now.store, now.edition->store_len, worst_peer(now.edition), worst_moment(), &end);
    leave();
}

static void call_session_keys(void)
{
    enter();
    answer = kmac_session_keys(key, sizeof key, data, data + 8, keys);
    leave();
}

static void call_build(void)
{
    enter();
    answer = kmac_build(key, sizeof key, destination, 1, data, sizeof data, out, sizeof out);
    leave();
}

static void call_check(void)
{
    enter();
    answer = kmac_check(unit, sizeof unit, key, sizeof key, destination, 1);
    leave();
}

static void call_encipher(void)
{
    enter();
    kmac_des_encipher(key, data, out);
    answer = 0;
    leave();
}

static void call_decipher(void)
{
    enter();
    kmac_des_decipher(key, data, out);
    answer = 0;
    leave();
}

static void call_empty_store(void)
{
    enter();
    answer = kmac_empty_store(now.store, now.edition->store_len);
    leave();
}

/* To the other edition. */
static void call_to_edition2(void)
{
    enter();
    answer = kmac_to_edition2(now.store, now.edition->store_len, other_store, KMAC_STORE_2_LEN);
    leave();
}

static void call_to_edition1(void)
{
    enter();
    answer = kmac_to_edition1(now.store, now.edition->store_len, other_store, KMAC_STORE_LEN);
    leave();
}

static void call_version(void)
{
    enter();
    answer = kmac_version();
    leave();
}

static void call_self_test(void)
{
    enter();
    answer = kmac_self_test();
    leave();
}

/* ---- events of a connection. The tug is the one that is called in the first two, and calls the full store's last peer in the
   third */

enum { TUG = 0x02e6a54b };

static void call_connect_indication(void)
{
    enter();
    answer = kmac_connect_indication(connection, 1, TUG, worst_moment(), data, brought, brought_len, now.store,
                                     now.edition->store_len, events, out, sizeof out);
    leave();
}

static void call_connect_response(void)
{
    enter();
    answer = kmac_connect_response(connection, events, out, sizeof out);
    leave();
}

static void call_connect_request(void)
{
    enter();
    answer = kmac_connect_request(connection, 1, TUG, worst_peer(now.edition), worst_moment(), data, now.store,
                                  now.edition->store_len, events, out, sizeof out);
    leave();
}

static void call_connect_confirmation(void)
{
    enter();
    answer = kmac_connect_confirmation(connection, brought, brought_len, events, out, sizeof out);
    leave();
}

static void call_data_request(void)
{
    enter();
    answer = kmac_data_request(connection, data, sizeof data, events, out, sizeof out);
    leave();
}

static void call_unit_indication(void)
{
    enter();
    answer = kmac_unit_indication(connection, (uint8_t)kmac_unit_kind(brought, brought_len), brought, brought_len, events, out,
                                  sizeof out);
    leave();
}

static void call_disconnect_request(void)
{
    enter();
    answer = kmac_disconnect_request(connection, 0, 0, events, out, sizeof out);
    leave();
}

static void call_disconnect_indication(void)
{
    enter();
    answer = kmac_disconnect_indication(connection, 1, brought, brought_len, events, out, sizeof out);
    leave();
}

static void call_time_out(void)
{
    enter();
    answer = kmac_time_out(connection, events, out, sizeof out);
    leave();
}

static void call_unit_kind(void)
{
    enter();
    answer = kmac_unit_kind(brought, brought_len);
    leave();
}

/* ---- measuring */

static size_t depth_with(void (*call)(void), uint8_t paint)
{
    const uint8_t *low = stack;
    memset(stack, paint, sizeof stack);
    getcontext(&inside);
    inside.uc_stack.ss_sp = stack;
    inside.uc_stack.ss_size = sizeof stack;
    inside.uc_link = NULL;
    makecontext(&inside, call, 0);
    swapcontext(&outside, &inside);
    while (low < top && *low == paint)
        low++;
    return (size_t)(top - low);
}

/* Prints a line; exits where the need is over the limit or the answer is another. Two paints: what a call writes may equal
   one of them, not both. */
static void measure(const char *name, void (*call)(void), const struct worst *with, int32_t expected, size_t limit)
{
    const uint8_t paints[] = {0xa5, 0x5a};
    size_t deepest = 0;
    for (size_t i = 0; i < sizeof paints; i++) {
        now = *with;
        memcpy(connection, before, sizeof connection);
        size_t depth = depth_with(call, paints[i]);
        if (answer != expected) {
            printf("%s: answers %d and not %d\n", name, (int)answer, (int)expected);
            exit(1);
        }
        if (depth > deepest)
            deepest = depth;
    }
    printf("%-58s %5zu of %5zu bytes\n", name, deepest, limit);
    if (deepest > limit || limit > KMAC_STACK_MAX) {
        printf("%s: deeper than kmac.h says\n", name);
        exit(1);
    }
}

static void prepare_unit(void)
{
    worst_kmac(1, key);
    for (size_t i = 0; i < sizeof data; i++)
        data[i] = (uint8_t)(7 * i);
    kmac_build(key, sizeof key, destination, 1, data, sizeof data, unit, sizeof unit);
}

static void put32(uint8_t *at, uint32_t number)
{
    for (int i = 0; i < 4; i++)
        at[i] = (uint8_t)(number >> (24 - 8 * i));
}

/* An event on the connection of a side, which is left as the event leaves it; what goes out is what is brought next. */
static void event(const char *name, void (*call)(void), const struct worst *with, uint8_t side[KMAC_CONNECTION_LEN],
                  int32_t expected, size_t limit)
{
    memcpy(before, side, sizeof before);
    measure(name, call, with, expected, limit);
    memcpy(side, connection, sizeof connection);
    if (answer > 0) {
        brought_len = (size_t)answer;
        memcpy(brought, out, brought_len);
    }
}

/* A whole connection with the last peer of the full store, which calls: its AU1, and its connection while it waits for AU2. */
static void measure_connection(const struct worst *full)
{
    uint8_t called[KMAC_CONNECTION_LEN] = {0}, caller[KMAC_CONNECTION_LEN] = {KMAC_WFTC}, idle[KMAC_CONNECTION_LEN] = {0};
    uint8_t late[KMAC_CONNECTION_LEN], wrong[KMAC_CONNECTION_LEN];
    uint32_t peer = worst_peer(full->edition);
    put32(caller + 4, peer);
    put32(caller + 8, TUG);
    memcpy(caller + 20, data, KMAC_RANDOM_LEN);
    worst_kmac(full->edition->keys, caller + 28);
    put32(brought, peer);
    brought[0] = (uint8_t)(brought[0] << 5 | 1 << 1);
    brought[4] = 1;
    memcpy(brought + 5, data, KMAC_RANDOM_LEN);
    brought_len = 5 + KMAC_RANDOM_LEN;
    event("kmac_connect_indication", call_connect_indication, full, called, 21, KMAC_STACK_CONNECT_INDICATION);
    event("kmac_connect_confirmation", call_connect_confirmation, full, caller, 9, KMAC_STACK_CONNECT_CONFIRMATION);
    memcpy(late, caller, sizeof late);
    event("kmac_unit_indication: AU3", call_unit_indication, full, called, 0, KMAC_STACK_UNIT_INDICATION);
    event("kmac_connect_response", call_connect_response, full, called, 9, KMAC_STACK_CONNECT_RESPONSE);
    event("kmac_unit_indication: AR", call_unit_indication, full, caller, 0, KMAC_STACK_UNIT_INDICATION);
    event("kmac_data_request: 1,023 bytes", call_data_request, full, caller, KMAC_UNIT_MAX, KMAC_STACK_DATA_REQUEST);
    measure("kmac_unit_kind", call_unit_kind, full, KMAC_KIND_DT, KMAC_STACK_UNIT_KIND);
    event("kmac_unit_indication: DT of 1,032 bytes", call_unit_indication, full, called, 0, KMAC_STACK_UNIT_INDICATION);
    memcpy(wrong, caller, sizeof wrong);
    event("kmac_unit_indication: the own DT", call_unit_indication, full, wrong, 0, KMAC_STACK_UNIT_INDICATION);
    brought_len = 8;
    event("kmac_unit_indication: 8 bytes", call_unit_indication, full, wrong, 3, KMAC_STACK_UNIT_INDICATION);
    event("kmac_disconnect_request", call_disconnect_request, full, caller, 3, KMAC_STACK_DISCONNECT_REQUEST);
    event("kmac_disconnect_indication", call_disconnect_indication, full, called, 0, KMAC_STACK_DISCONNECT_INDICATION);
    event("kmac_time_out", call_time_out, full, late, 3, KMAC_STACK_TIME_OUT);
    event("kmac_connect_request", call_connect_request, full, idle, 13, KMAC_STACK_CONNECT_REQUEST);
}

/* The calls that take a store, over stores of an edition. */
static void measure_stores(const struct edition *edition)
{
    static struct worst worst[WORST_COUNT], unsound;
    const struct worst *full = &worst[WORST_DELETES];
    worst_make(edition, worst);
    unsound = worst[WORST_ONE_ADD];
    unsound.store[edition->store_len - 1] = 1;
    for (int i = 0; i < WORST_COUNT; i++) {
        char name[80];
        snprintf(name, sizeof name, "kmac_receive: %s", worst[i].name);
        measure(name, call_receive, &worst[i], worst[i].answer, KMAC_STACK_RECEIVE);
    }
    measure("kmac_find", call_find, full, (int32_t)edition->keys, KMAC_STACK_FIND);
    measure("kmac_find: unsound", call_find, &unsound, KMAC_H12_STORE_UNSOUND, KMAC_STACK_FIND);
    measure("kmac_empty_store", call_empty_store, full, 0, KMAC_STACK_EMPTY_STORE);
    measure_connection(full);
}

/* The full store of edition 1 there and back, and the full one of edition 2, which has no room in edition 1. */
static void measure_conversions(void)
{
    static struct worst worst[WORST_COUNT], larger;
    worst_make(&edition_1, worst);
    measure("kmac_to_edition2", call_to_edition2, &worst[WORST_DELETES], 0, KMAC_STACK_TO_EDITION2);
    larger.edition = &edition_2;
    memcpy(larger.store, other_store, sizeof larger.store);
    measure("kmac_to_edition1", call_to_edition1, &larger, 0, KMAC_STACK_TO_EDITION1);
    worst_make(&edition_2, worst);
    measure("kmac_to_edition1: no room", call_to_edition1, &worst[WORST_DELETES], KMAC_H14_NO_ROOM, KMAC_STACK_TO_EDITION1);
}

int main(void)
{
    static const struct worst none;
    prepare_unit();
    puts("stores of edition 1");
    measure_stores(&edition_1);
    puts("stores of edition 2");
    measure_stores(&edition_2);
    puts("from one edition to the other");
    measure_conversions();
    puts("no store");
    measure("kmac_begin", call_begin, &none, 23, KMAC_STACK_BEGIN);
    measure("kmac_session_keys", call_session_keys, &none, 0, KMAC_STACK_SESSION_KEYS);
    measure("kmac_build: 1,023 bytes", call_build, &none, KMAC_UNIT_MAX, KMAC_STACK_BUILD);
    measure("kmac_check: 1,032 bytes", call_check, &none, KMAC_DATA_MAX, KMAC_STACK_CHECK);
    measure("kmac_des_encipher", call_encipher, &none, 0, KMAC_STACK_DES_ENCIPHER);
    measure("kmac_des_decipher", call_decipher, &none, 0, KMAC_STACK_DES_DECIPHER);
    measure("kmac_version", call_version, &none, KMAC_VERSION, KMAC_STACK_VERSION);
    measure("kmac_self_test", call_self_test, &none, 0, KMAC_STACK_SELF_TEST);
    return 0;
}
