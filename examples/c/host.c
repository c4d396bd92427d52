/*
 * A small host. A tug takes keys from its key centre, finds the one for a radio block centre (RBC), and sends it a data
 * unit; main, at the end, has the order. The key centre's messages come from centre.c; radio, TLS and clock are left out.
 * Prints one line for each step and no key byte. The exit status is 0 only if every answer is as expected.
 */
#include "centre.h"

#include <stdio.h>
#include <stdlib.h>
#include <string.h>

/* Expanded ETCS IDs: 1 is the type of an RBC, 2 of an engine, 5 of a key management entity. */
enum { RBC = 0x01123456, OTHER_RBC = 0x01123457, TUG = 0x02e6a54b, KEY_CENTRE = 0x05112233 };

/*
 * Moments in whole hours, the bytes of SUBSET-137, 4.2.3.1, turned round to year, month, day, hour, so that their numbers
 * stand in the order of time. END is the last hour of the first two keys, LATER_END of the third; by 4.2.3.2 the end of the
 * third would be AFTER_END.
 */
enum { START = 0x26111500, NOON = 0x26111512, END = 0x27111423, LATER_END = 0x27111523, AFTER_END = 0x27111600 };

/* What the host keeps: two places for the store, of which one counts, and the session. All zero bytes: a closed session. */
static uint8_t kept[2][KMAC_STORE_LEN];
static int current;
static uint8_t session[KMAC_SESSION_LEN];

static uint8_t out[KMAC_OUT_LEN];

/* ---- steps */

/* Prints a step with its answer; ends the program where the answer is not the expected one. */
static void step(const char *what, int32_t answer, int32_t expected)
{
    printf("%-58s %d\n", what, (int)answer);
    if (answer != expected) {
        printf("expected %d\n", (int)expected);
        exit(1);
    }
}

/* As step, for what the host itself finds out. */
static void holds(const char *what, int right)
{
    printf("%-58s %s\n", what, right ? "yes" : "no");
    if (!right)
        exit(1);
}

/* ---- the search */

/* A search in the store that counts. A refusal leaves the end as it was. */
static int32_t find(uint32_t peer, uint32_t t, uint32_t *end)
{
    return kmac_find(kept[current], KMAC_STORE_LEN, peer, t, end);
}

/* Prints the last hour of the key that was found. */
static void until(uint32_t end, uint32_t expected)
{
    printf("%-58s %08x\n", "  until", (unsigned)end);
    if (end != expected) {
        printf("expected %08x\n", (unsigned)expected);
        exit(1);
    }
}

/* ---- the key centre's messages */

/*
 * One message. The module works on a copy; the copy becomes the store that counts only when it is whole, and the reply in
 * out would be sent only then. A real host writes kept and current to memory that outlasts loss of power.
 */
static int32_t receive(const struct message *message)
{
    uint8_t *work = kept[1 - current];
    memcpy(work, kept[current], KMAC_STORE_LEN);
    int32_t answer = kmac_receive(session, message->bytes, message->length, work, KMAC_STORE_LEN, out, sizeof out);
    if (answer > 0)
        current = 1 - current;
    return answer;
}

/* RESPONSE, the number of RESULTs, and one RESULT of the reply in out. */
static int response(void)
{
    return out[20];
}

static int results(void)
{
    return out[21] << 8 | out[22];
}

static int result(int request)
{
    return out[23 + request];
}

/* The module speaks first; the centre's session init opens the session. */
static void open_session(struct centre *centre)
{
    struct message message;
    step("begin: the length of the session init", kmac_begin(TUG, KEY_CENTRE, 100, session, out, sizeof out), 23);
    centre_init(centre, &message);
    step("session init of the centre: nothing to send", receive(&message), 0);
}

/* A key with a pattern for a KMAC. Real keys come from the key centre alone. */
static struct key example_key(uint32_t serial, const uint32_t *peer, uint32_t end)
{
    static const uint8_t odd[] = {0x01, 0x02, 0x04, 0x07, 0x08, 0x0b, 0x0d, 0x0e, 0x10, 0x13, 0x15, 0x16,
                                  0x19, 0x1a, 0x1c, 0x1f, 0x20, 0x23, 0x25, 0x26, 0x29, 0x2a, 0x2c, 0x2f};
    struct key key = {.issuer = KEY_CENTRE, .serial = serial, .peers = peer, .peer_count = 1, .start = START, .end = end};
    for (size_t i = 0; i < sizeof key.kmac; i++)
        key.kmac[i] = odd[(serial + i) % sizeof odd];
    return key;
}

/* Two keys in one command. The same message again has a sequence number that is no longer expected. */
static void take_keys(struct centre *centre)
{
    const uint32_t peers[2] = {OTHER_RBC, RBC};
    struct message message;
    centre_start(centre, &message, CMD_ADD_KEYS);
    for (uint32_t serial = 1; serial <= 2; serial++) {
        struct key key = example_key(serial, &peers[serial - 1], END);
        centre_add(&message, TUG, &key);
    }
    step("add two keys: the length of the reply", receive(&message), 25);
    step("  RESPONSE", response(), 0);
    step("  RESULTs", results(), 2);
    step("  the first key", result(0), 0);
    step("  the second key", result(1), 0);
    step("the same message again: the length of the reply", receive(&message), 23);
    step("  RESPONSE", response(), 9);
    step("and a third time, to the session that is closed now", receive(&message), KMAC_H3_SESSION_CLOSED);
}

/* A torn message changes no byte of the store. */
static void refuse_torn(struct centre *centre)
{
    uint8_t before[KMAC_STORE_LEN];
    const uint32_t peer = RBC;
    struct key key = example_key(3, &peer, LATER_END);
    struct message message;
    memcpy(before, kept[current], sizeof before);
    centre_start(centre, &message, CMD_ADD_KEYS);
    centre_add(&message, TUG, &key);
    message.length -= 10;
    step("a torn add: the length of the reply", receive(&message), 23);
    step("  RESPONSE", response(), 2);
    holds("  the store is as before", memcmp(before, kept[current], sizeof before) == 0);
}

static void start_delete(struct centre *centre, struct message *message)
{
    centre_start(centre, message, CMD_DELETE_KEYS);
    centre_delete(message, KEY_CENTRE, 1);
}

/* The key that was torn comes whole. The next command repeats the transaction number: it is not worked. */
static void refuse_repeated(struct centre *centre)
{
    uint8_t before[KMAC_STORE_LEN];
    const uint32_t peer = RBC;
    struct key key = example_key(3, &peer, LATER_END);
    struct message message;
    centre_start(centre, &message, CMD_ADD_KEYS);
    centre_add(&message, TUG, &key);
    step("add the third key: the length of the reply", receive(&message), 24);
    step("  RESULT", result(0), 0);
    memcpy(before, kept[current], sizeof before);
    centre->transaction--;
    start_delete(centre, &message);
    step("a delete with its transaction number: the reply's length", receive(&message), 23);
    step("  RESPONSE", response(), 10);
    holds("  the store is as before", memcmp(before, kept[current], sizeof before) == 0);
}

/* The key for the other RBC goes, and the centre ends. */
static void delete_and_end(struct centre *centre)
{
    struct message message;
    start_delete(centre, &message);
    step("delete the first key: the length of the reply", receive(&message), 24);
    step("  RESULT", result(0), 0);
    centre_start(centre, &message, NOTIF_END_OF_UPDATE);
    step("end of update: nothing to send", receive(&message), 0);
    step("a message after it", receive(&message), KMAC_H3_SESSION_CLOSED);
}

/* ---- a larger depot */

/* The store made one of edition 2, which answers the same, and back. A host that keeps the new one has room for it in both
   places, and lends its length from then on; kmac.h says how it changes over. */
static void change_over(void)
{
    static uint8_t larger[KMAC_STORE_2_LEN], back[KMAC_STORE_LEN];
    uint32_t end = 0;
    step("make the store one of edition 2", kmac_to_edition2(kept[current], KMAC_STORE_LEN, larger, sizeof larger), 0);
    step("find the key for the RBC there", kmac_find(larger, sizeof larger, RBC, NOON, &end), 2);
    until(end, LATER_END);
    step("make that one of edition 1", kmac_to_edition1(larger, sizeof larger, back, sizeof back), 0);
    holds("  the same bytes", memcmp(back, kept[current], sizeof back) == 0);
    step("the same from edition 1", kmac_to_edition1(back, sizeof back, larger, sizeof larger), KMAC_H1_STORE_LENGTH);
}

/* ---- data units */

/* The session keys of a connection to the RBC. The tug calls: ra is the RBC's random number, rb its own. */
static void derive(uint8_t keys[KMAC_KEY_LEN])
{
    static const uint8_t ra[KMAC_RANDOM_LEN] = {0x11, 0x22, 0x33, 0x44, 0x55, 0x66, 0x77, 0x88};
    static const uint8_t rb[KMAC_RANDOM_LEN] = {0x99, 0xaa, 0xbb, 0xcc, 0xdd, 0xee, 0xff, 0x00};
    uint32_t end = 0;
    step("find a key for the other RBC", find(OTHER_RBC, NOON, &end), KMAC_H11_NO_KEY);
    holds("  the end is as it was", end == 0);
    int32_t place = find(RBC, NOON, &end);
    step("find the key for the RBC, of two the one that ends later", place, 2);
    until(end, LATER_END);
    step("find it in its last hour", find(RBC, LATER_END, &end), 2);
    until(end, LATER_END);
    step("find one that follows: none, so the driver is warned", find(RBC, AFTER_END, &end), KMAC_H11_NO_KEY);
    step("session keys", kmac_session_keys(kept[current] + KMAC_KEY_AT(place), KMAC_KEY_LEN, ra, rb, keys), 0);
}

/* The tug, which called, sends with direction 0 to the RBC, which checks. */
static void exchange(const uint8_t keys[KMAC_KEY_LEN])
{
    static const uint8_t rbc[KMAC_DESTINATION_LEN] = {0x12, 0x34, 0x56};
    static const uint8_t other_rbc[KMAC_DESTINATION_LEN] = {0x12, 0x34, 0x57};
    static const char text[] = "tug 4b at signal 17";
    size_t length = strlen(text);
    uint8_t unit[KMAC_UNIT_MAX];
    int32_t built = kmac_build(keys, KMAC_KEY_LEN, rbc, 0, (const uint8_t *)text, length, unit, sizeof unit);
    step("build a unit: its length", built, (int32_t)length + 9);
    size_t unit_len = (size_t)built;
    step("check it: the length of the user data", kmac_check(unit, unit_len, keys, KMAC_KEY_LEN, rbc, 0), (int32_t)length);
    holds("  they are those that were sent", memcmp(unit + 1, text, length) == 0);
    step("check it as the other RBC", kmac_check(unit, unit_len, keys, KMAC_KEY_LEN, other_rbc, 0), KMAC_H8_MAC_DIFFERS);
    step("check it as sent back", kmac_check(unit, unit_len, keys, KMAC_KEY_LEN, rbc, 1), KMAC_H9_UNIT_CONTENTS);
    step("check it without its last byte", kmac_check(unit, unit_len - 1, keys, KMAC_KEY_LEN, rbc, 0), KMAC_H8_MAC_DIFFERS);
    step("check its first 8 bytes", kmac_check(unit, 8, keys, KMAC_KEY_LEN, rbc, 0), KMAC_H7_UNIT_LENGTH);
    unit[5] ^= 1;
    step("check it with one bit changed", kmac_check(unit, unit_len, keys, KMAC_KEY_LEN, rbc, 0), KMAC_H8_MAC_DIFFERS);
}

int main(void)
{
    struct centre centre = {KEY_CENTRE, TUG, 1, 500};
    uint8_t keys[KMAC_KEY_LEN];
    holds("the library is of this header's version", kmac_version() == KMAC_VERSION);
    step("self-test at power-on", kmac_self_test(), 0);
    step("make the empty store", kmac_empty_store(kept[current], KMAC_STORE_LEN), 0);
    open_session(&centre);
    take_keys(&centre);
    open_session(&centre);
    refuse_torn(&centre);
    open_session(&centre);
    refuse_repeated(&centre);
    open_session(&centre);
    delete_and_end(&centre);
    change_over();
    derive(keys);
    exchange(keys);
    return 0;
}
