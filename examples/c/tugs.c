/*
 * Two tugs in one process set up a safe connection, talk and release it; main, at the end, has the order. Each holds a key
 * for the other, which its key centre brought (centre.c). Radio, clock and random numbers are left out: what one tug sends
 * is lent to the other. Prints one line for each event with what the module makes go out, and no key byte. The exit status is
 * 0 only if everything is as expected.
 */
#include "centre.h"

#include <stdio.h>
#include <stdlib.h>
#include <string.h>

enum { CALLER = 0x02e6a54b, CALLED = 0x02e6a54c, STRANGER = 0x02e6a54d, KEY_CENTRE = 0x05112233 };

/* Hours, as host.c has them. */
enum { START = 0x26111500, NOON = 0x26111512, END = 0x27111423, AFTER_END = 0x27111500 };

/* A normal release. */
enum { NORMAL = 0 };

/* A tug: its name and identity, what it keeps, and what the last event made go out. */
struct tug {
    const char *name;
    uint32_t identity;
    uint8_t store[KMAC_STORE_LEN];
    uint8_t connection[KMAC_CONNECTION_LEN];
    uint8_t events[KMAC_EVENTS_LEN];
    uint8_t out[KMAC_OUT_LEN];
    size_t length; /* of the unit in out */
};

static struct tug caller = {.name = "caller", .identity = CALLER}, called = {.name = "called", .identity = CALLED};

/* ---- what goes out, in the words of SUBSET-037-2 */

static const char *const to_user[] = {"",
                                      "Sa-CONNECT.indication",
                                      "Sa-CONNECT.confirmation",
                                      "Sa-DATA.indication",
                                      "Sa-DISCONNECT.indication",
                                      "Sa-REPORT.indication"};
static const char *const to_transport[] = {"",
                                           "T-CONNECT.request with AU1",
                                           "T-CONNECT.response with AU2",
                                           "T-DISCONNECT.request",
                                           "T-DISCONNECT.request with DI",
                                           "AU3",
                                           "AR",
                                           "DT"};
static const char *const timer[] = {"", "timer set", "timer stopped", "timers stopped"};
static const char *const state[] = {"IDLE", "WFTC", "WFAR", "DATA", "WFAU3", "WFRESP"};

static void must(int right, const char *what)
{
    if (!right) {
        printf("not so: %s\n", what);
        exit(1);
    }
}

static void say(const char *what)
{
    if (*what)
        printf(", %s", what);
}

/* Prints what an event made go out: to the user, to the transport, the timer, and the new state. */
static void told(struct tug *tug, const char *event, int32_t answer)
{
    const uint8_t *events = tug->events;
    printf("%s: %-26s", tug->name, event);
    if (answer < 0) {
        printf(" refused, H%d\n", (int)-answer);
        return;
    }
    tug->length = (size_t)answer;
    printf(" %s", state[events[3]]);
    say(to_user[events[0]]);
    if (events[0] == KMAC_USER_DISCONNECT_INDICATION || events[0] == KMAC_USER_REPORT_INDICATION)
        printf(" %d/%d", events[4], events[5]);
    if (events[0] == KMAC_USER_DATA_INDICATION)
        printf(" of %d bytes", events[6] << 8 | events[7]);
    say(to_transport[events[1]]);
    if (answer > 0)
        printf(" of %d bytes", (int)answer);
    say(timer[events[2]]);
    puts("");
}

/* ---- keys, as host.c takes them */

static void take_key(struct tug *tug, uint32_t peer)
{
    struct centre centre = {KEY_CENTRE, tug->identity, 1, 500};
    struct key key = {.issuer = KEY_CENTRE, .serial = 1, .peers = &peer, .peer_count = 1, .start = START, .end = END};
    uint8_t session[KMAC_SESSION_LEN];
    struct message message;
    memset(key.kmac, 0x07, sizeof key.kmac);
    must(kmac_empty_store(tug->store, sizeof tug->store) == 0, "an empty store");
    must(kmac_begin(tug->identity, KEY_CENTRE, 100, session, tug->out, sizeof tug->out) == 23, "a session");
    centre_init(&centre, &message);
    must(kmac_receive(session, message.bytes, message.length, tug->store, sizeof tug->store, tug->out, sizeof tug->out) == 0,
         "an open session");
    centre_start(&centre, &message, CMD_ADD_KEYS);
    centre_add(&message, tug->identity, &key);
    must(kmac_receive(session, message.bytes, message.length, tug->store, sizeof tug->store, tug->out, sizeof tug->out) == 24,
         "a key");
}

/* ---- events */

/* Fresh and unpredictable in a real host. */
static const uint8_t ra[KMAC_RANDOM_LEN] = {0xa0, 0xa1, 0xa2, 0xa3, 0xa4, 0xa5, 0xa6, 0xa7};
static const uint8_t rb[KMAC_RANDOM_LEN] = {0xb0, 0xb1, 0xb2, 0xb3, 0xb4, 0xb5, 0xb6, 0xb7};

static void call(struct tug *tug, uint32_t peer, uint32_t t)
{
    told(tug, "Sa-CONNECT.request",
         kmac_connect_request(tug->connection, 1, tug->identity, peer, t, rb, tug->store, sizeof tug->store, tug->events,
                              tug->out, sizeof tug->out));
}

/* The transport brings what the other tug has sent last. */
static void be_called(struct tug *tug, const struct tug *from)
{
    told(tug, "T-CONNECT.indication",
         kmac_connect_indication(tug->connection, 1, tug->identity, NOON, ra, from->out, from->length, tug->store,
                                 sizeof tug->store, tug->events, tug->out, sizeof tug->out));
}

static void confirm(struct tug *tug, const struct tug *from)
{
    told(tug, "T-CONNECT.confirmation",
         kmac_connect_confirmation(tug->connection, from->out, from->length, tug->events, tug->out, sizeof tug->out));
}

static void bring(struct tug *tug, const struct tug *from)
{
    uint8_t kind = (uint8_t)kmac_unit_kind(from->out, from->length);
    told(tug, "T-DATA.indication",
         kmac_unit_indication(tug->connection, kind, from->out, from->length, tug->events, tug->out, sizeof tug->out));
}

static void respond(struct tug *tug)
{
    told(tug, "Sa-CONNECT.response", kmac_connect_response(tug->connection, tug->events, tug->out, sizeof tug->out));
}

static void send(struct tug *tug, const char *text)
{
    told(tug, "Sa-DATA.request",
         kmac_data_request(tug->connection, (const uint8_t *)text, strlen(text), tug->events, tug->out, sizeof tug->out));
}

static void release(struct tug *tug)
{
    told(tug, "Sa-DISCONNECT.request",
         kmac_disconnect_request(tug->connection, NORMAL, 0, tug->events, tug->out, sizeof tug->out));
}

static void be_released(struct tug *tug, const struct tug *from)
{
    told(tug, "T-DISCONNECT.indication",
         kmac_disconnect_indication(tug->connection, 0, from->out, from->length, tug->events, tug->out, sizeof tug->out));
}

static void run_down(struct tug *tug)
{
    told(tug, "time-out", kmac_time_out(tug->connection, tug->events, tug->out, sizeof tug->out));
}

/* ---- what the hosts look at */

static int is_zero(const uint8_t *bytes, size_t length)
{
    while (length > 0)
        if (bytes[--length] != 0)
            return 0;
    return 1;
}

/* The identity of the peer, which stands in the connection. */
static uint32_t peer_of(const struct tug *tug)
{
    const uint8_t *peer = tug->connection + 8;
    return (uint32_t)peer[0] << 24 | (uint32_t)peer[1] << 16 | (uint32_t)peer[2] << 8 | peer[3];
}

/* The text has come up unchanged: the user data of the unit start at its byte 1. */
static void heard(const struct tug *tug, const struct tug *from, const char *text)
{
    size_t length = (size_t)(tug->events[6] << 8 | tug->events[7]);
    must(tug->events[0] == KMAC_USER_DATA_INDICATION && length == strlen(text) && memcmp(from->out + 1, text, length) == 0, text);
    printf("%s: hears \"%s\"\n", tug->name, text);
}

/* ---- the story */

static void set_up(void)
{
    call(&caller, CALLED, NOON);
    be_called(&called, &caller);
    confirm(&caller, &called);
    bring(&called, &caller);
    must(called.events[0] == KMAC_USER_CONNECT_INDICATION && peer_of(&called) == CALLER, "the caller is the one that is wanted");
    respond(&called);
    bring(&caller, &called);
    must(caller.connection[0] == KMAC_DATA && called.connection[0] == KMAC_DATA, "both are in DATA");
}

/* A changed unit is reported, and the connection stays. */
static void talk(void)
{
    static const char first[] = "ready to couple at signal 17", second[] = "coupled";
    send(&caller, first);
    bring(&called, &caller);
    heard(&called, &caller, first);
    send(&called, second);
    called.out[3] ^= 1;
    bring(&caller, &called);
    must(caller.events[0] == KMAC_USER_REPORT_INDICATION, "a changed unit is reported");
    called.out[3] ^= 1;
    bring(&caller, &called);
    heard(&caller, &called, second);
}

static void part(void)
{
    release(&caller);
    be_released(&called, &caller);
    must(is_zero(caller.connection, sizeof caller.connection) && is_zero(called.connection, sizeof called.connection),
         "no key byte is left");
}

/* No key fits a stranger, nor the other tug after the key's end; what was lent stays as it was. */
static void in_vain(void)
{
    struct tug before = caller;
    call(&caller, STRANGER, NOON);
    call(&caller, CALLED, AFTER_END);
    must(memcmp(&before, &caller, sizeof before) == 0, "a refusal writes nowhere");
    call(&caller, CALLED, NOON);
    run_down(&caller);
    must(is_zero(caller.connection, sizeof caller.connection), "no key byte is left");
}

int main(void)
{
    must(kmac_version() == KMAC_VERSION, "the library is of this header's version");
    must(kmac_self_test() == 0, "the self-test");
    take_key(&caller, CALLED);
    take_key(&called, CALLER);
    set_up();
    talk();
    part();
    in_vain();
    return 0;
}
