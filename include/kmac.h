/*
 * kmac.h: on-board keys and authentication for railway radio.
 *
 * The module is the on-board side (a KMAC entity) of SUBSET-137 1.0.0: it takes keys from the key centre into a store that
 * the host lends. With a held key it sets up connections to peers, as caller and as called side, derives session keys, and
 * builds and checks data units (SUBSET-037-2 4.0.0). examples/c/host.c is a small host, from the empty store to a checked
 * unit; examples/c/tugs.c sets up a connection between two.
 *
 * Link with libkmac.a (x86-64, System V calling convention). It needs memmove and memset of C and nothing else.
 *
 * Header and library go together. A host that was compiled with the header of another version may link all the same, and
 * what it passes is then not what the library takes. So compile every file that includes kmac.h again when KMAC_VERSION
 * rises, and check at power-on that kmac_version() is KMAC_VERSION.
 *
 *     version 6   kmac_self_test, kmac_connect_confirmation, kmac_unit_indication, kmac_time_out, kmac_des_encipher and
 *                 kmac_des_decipher take up to 112 bytes more of stack, by another compiler. A host that gives one of them a
 *                 stack of its own must be compiled again.
 *     version 5   kmac_build, kmac_check, kmac_connect_response, kmac_data_request and kmac_unit_indication take up to 72 bytes
 *                 more of stack. A host that gives one of them a stack of its own, of KMAC_STACK_BUILD bytes and so on, must be
 *                 compiled again.
 *     version 4   kmac_find takes 64 bytes more of stack. A host that gives it a stack of its own, of KMAC_STACK_FIND bytes,
 *                 must be compiled again.
 *     version 3   a session remembers a transaction number, in bytes that version 2 did not read and wrote as zeros, and
 *                 kmac_receive answers RESPONSE 10. A host that knows no RESPONSE 10 must be changed; a session that was
 *                 kept from version 2 is read as one that remembers none.
 *     version 2   kmac_find takes end and writes to it. A host of version 1 lends nothing there: the library would write
 *                 the end of a key to whatever address stands in the register of the fifth argument.
 *     version 1   had neither KMAC_VERSION nor kmac_version.
 *
 * A call that comes new does not raise it: a host that does not make the call needs no change, and one that makes it does
 * not link with a library that lacks it. kmac_to_edition2 and kmac_to_edition1 came so, within version 3. The ten calls of
 * connection set-up came with version 4.
 *
 *
 * WHAT HOLDS FOR EVERY CALL
 *
 * Answers. A negative answer is a refusal: -n is refusal Hn (enum kmac_refusal). Refusals are tested in the order in which
 * the call lists them, and the first that applies is the answer. A refused call writes nowhere; the one exception is H5,
 * which closes the session. Any other answer is 0 or more and is said with the call.
 *
 * Buffers. All memory is the host's, lent for the call and no longer. A length is a number of bytes. A pointer with a
 * length must point to that many bytes; a pointer written as an array, say session[KMAC_SESSION_LEN], to as many as the
 * brackets say. No pointer may be NULL, not even where its length is 0: lend the address of any byte. No alignment is
 * asked of bytes; end of kmac_find is a uint32_t and aligned as C aligns one.
 *
 * Overlap. A buffer that a call may write (session, connection, events, out, keys, result, end, to, and store where it is
 * not const) must not overlap any other buffer of that call, not by a single byte. Buffers that a call only reads may
 * overlap: a KMAC can be lent as a part of the store. What the library promises is proved for buffers that keep to this,
 * and for no others.
 *
 * Output buffers. An output buffer has at least KMAC_OUT_LEN bytes. What a call writes stands at its front; the bytes
 * behind it keep their contents.
 *
 * Numbers. An identity is an expanded ETCS ID as a number, its first byte on top: type 0x02 and ETCS ID 0x123456 are
 * 0x02123456. A destination is the ETCS ID alone, three bytes, the first byte first.
 *
 * At the same time. The library has no state of its own: no global variable, no heap, no call of the system. Calls over
 * different buffers may run at the same time. The host serialises the calls that share a session, a connection or a store,
 * unless all of them only read it.
 *
 * Stack. No call needs more than KMAC_STACK_MAX bytes of stack, and none recurses. The figure of each call stands below.
 *
 * What the module does not do. It brings no random numbers, no clock and no TLS: the host does. It does not promise
 * constant time. It does not wipe its stack, where key bytes may stay behind: a host that minds this wipes that memory.
 *
 *
 * TWO EDITIONS OF THE STORE
 *
 * A store of edition 1 has KMAC_STORE_LEN bytes, one of edition 2, for a larger depot, KMAC_STORE_2_LEN. Each call that
 * takes a store takes either, but for the two conversions, which name theirs: the length that is lent picks the edition,
 * and the limits are that edition's. The header inside must be of the same edition, or the store counts as unsound; its
 * bytes 10 and 11 are the store's length, the first byte on top. The host chooses with the length that it lends to
 * kmac_empty_store. A depot that changes over has its store written anew by kmac_to_edition2, or by kmac_to_edition1 where
 * its keys have room there. A session is tied to no edition.
 *
 *
 * THE STORE OVER LOSS OF POWER
 *
 * The store is the host's, first made by kmac_empty_store. It holds keys in the clear: the host keeps others from reading
 * it. kmac_receive changes it in place and in many steps, so loss of power in the middle can leave half a change. The host
 * therefore never lends its only copy:
 *
 *     copy the kept store to working memory;
 *     call kmac_receive on that copy;
 *     if the answer is above 0, write the copy to a second place, and switch to it only when it stands there whole;
 *     then send the reply.
 *
 * The reply goes last, so that the key centre is told of nothing that is not kept. If the copy cannot be written, the host
 * keeps the old store, sends nothing and closes the session by zeroing it. After loss of power it takes the store that it
 * last switched to and begins a new session.
 *
 * A store is changed over in the same way: kmac_to_edition2 and kmac_to_edition1 write a second buffer and never the store
 * that they read. With files:
 *
 *     read the kept store, and convert it into the second buffer;
 *     if the answer is 0, write that to a new file beside the old one, under another name, and flush it to the medium;
 *     rename the new file to the old one's name, in one step that replaces the old file;
 *     flush the folder.
 *
 * Loss of power leaves the old store or the new one, whole: until the folder is flushed either may stand under the name,
 * then the new one; the file's length says which. A new file that was not renamed may be torn: the host deletes it at
 * power-on. From the reading until the folder is flushed the host calls kmac_receive on neither store: what that changed
 * in the old one would be lost. From then on it uses no copy of the old store and lends the new length: a store that is
 * lent with the other edition's length counts as unsound. Where the conversion is refused or a step fails, the old store
 * stays in use. The file that was replaced and both buffers hold keys in the clear.
 *
 * A store that is no longer sound is found out: kmac_find, the two conversions and the two calls that start set-up refuse
 * it with H12, and kmac_receive answers RESPONSE 6, which tells the key centre; its "delete all keys" makes the store
 * empty, of the edition whose length is lent. Damage that leaves the store sound, say two changed bits in one byte of a
 * KMAC, is not found out: a host that must see it keeps a checksum of its own.
 *
 *
 * CONNECTION SET-UP
 *
 * The calls from kmac_connect_request to kmac_time_out are the safety layer of one connection (SUBSET-037-2, 6.2.6). Each
 * takes one event of Table 20, and its answer says what goes out: to the user of the safe service, to the transport with a
 * unit in out, and to the timer. The host brings the events and does what is told, in that order.
 *
 *     the side that calls                            the side that is called
 *     kmac_connect_request            AU1 goes out
 *                                                    kmac_connect_indication         AU2 goes out
 *     kmac_connect_confirmation       AU3 goes out
 *                                                    kmac_unit_indication            Sa-CONNECT.indication
 *                                                    kmac_connect_response           AR goes out
 *     kmac_unit_indication            Sa-CONNECT.confirmation
 *     kmac_data_request and kmac_unit_indication on both, with DT units
 *     kmac_disconnect_request on one, kmac_disconnect_indication on the other
 *
 * Connections. The host lends one connection buffer for each transport connection, and begins with all zero bytes, which
 * are the idle connection. Every way back to IDLE writes zeros. The buffer holds key bytes, the KMAC until AU2 has come and
 * then the session keys: the host keeps others from reading it, as it does with the store.
 *
 * Random numbers. The host brings RB where it calls and RA where it is called, fresh and unpredictable each time: with
 * numbers that were used before, the units that were recorded then are right again.
 *
 * Keys. The key of the peer is searched once, where set-up starts, at the moment t (kmac_find says how). A key that ends or
 * is deleted later closes no connection.
 *
 * Timer. T estab (40 s, 6.3.2.3.1) is the host's: it starts and stops it as byte 2 of events says, and calls kmac_time_out
 * when it has run down. Only the side that calls has it. A called side that waits for AU3 (WFAU3) has no timer and no user:
 * a host that gives it up zeroes the connection and releases the transport connection.
 *
 * Refusals. A refused call leaves connection, events and out, and nothing is to be done of what they say. After H1, H12 or
 * H11 to kmac_connect_indication nothing goes out: the host releases the transport connection itself.
 *
 * What is left to the application (Annex A). Units that come late, in another order, not at all or again within a
 * connection are not noticed (a). The called identity is the one that the host lends as own (j), and a caller is accepted
 * for its key alone: the host looks at Sa-CONNECT.indication whether it wants this one. The type of the caller, the first
 * byte of its identity, is in no MAC of the standard: where one KMAC serves two callers that differ in the type alone, who
 * changes it on the way has the called side take one for the other. What is on its way when a side releases is lost (g).
 */
#ifndef KMAC_H
#define KMAC_H

#include <stddef.h>
#include <stdint.h>

#ifdef __cplusplus
extern "C" {
#endif

#define KMAC_VERSION 6            /* of this header and its library (above); not the interface version of SUBSET-137 */

/* Lengths in bytes. */
#define KMAC_STORE_LEN 3852       /* the key store, edition 1 */
#define KMAC_STORE_KEYS 64        /* keys that it has room for, */
#define KMAC_STORE_PEERS 256      /* and peers of all keys together */
#define KMAC_STORE_2_LEN 38012    /* the key store, edition 2 */
#define KMAC_STORE_2_KEYS 500     /* keys that it has room for, */
#define KMAC_STORE_2_PEERS 4000   /* and peers of all keys together */
#define KMAC_SESSION_LEN 32       /* a session */
#define KMAC_CONNECTION_LEN 64    /* a connection */
#define KMAC_EVENTS_LEN 8         /* what an event of a connection makes go out */
#define KMAC_OUT_LEN 1032         /* the least output buffer */
#define KMAC_MESSAGE_MAX 5000     /* the longest message of a key centre; a longer one is answered with RESPONSE 2 */
#define KMAC_KEY_LEN 24           /* a KMAC, or the three session keys: K1, K2, K3 of 8 bytes each */
#define KMAC_RANDOM_LEN 8         /* a random number of connection set-up */
#define KMAC_DESTINATION_LEN 3    /* a destination: the ETCS ID without its type */
#define KMAC_DATA_MAX 1023        /* the user data of a unit: 1 to 1,023 */
#define KMAC_MAC_LEN 8            /* the MAC at the end of a unit */
#define KMAC_UNIT_MIN 9           /* a unit: 9 to 1,032. One of 9 has no user data and is refused with H8 or H9 */
#define KMAC_UNIT_MAX 1032
#define KMAC_DES_LEN 8            /* a key or a block of DES */

/*
 * Stack of each call in bytes: from the caller's stack pointer on, with arguments, return address and glibc's memmove and
 * memset. tests/c/frames bounds it from the machine code, tests/c/stack.c measures it. Rounded up to a multiple of 64.
 */
#define KMAC_STACK_VERSION 64
#define KMAC_STACK_SELF_TEST 8256
#define KMAC_STACK_EMPTY_STORE 64
#define KMAC_STACK_TO_EDITION2 1408
#define KMAC_STACK_TO_EDITION1 1408
#define KMAC_STACK_FIND 1280
#define KMAC_STACK_BEGIN 64
#define KMAC_STACK_RECEIVE 1600
#define KMAC_STACK_SESSION_KEYS 6976
#define KMAC_STACK_BUILD 6784
#define KMAC_STACK_CHECK 6784
#define KMAC_STACK_CONNECT_REQUEST 1408
#define KMAC_STACK_CONNECT_RESPONSE 6912
#define KMAC_STACK_DATA_REQUEST 6912
#define KMAC_STACK_DISCONNECT_REQUEST 64
#define KMAC_STACK_CONNECT_INDICATION 7168
#define KMAC_STACK_CONNECT_CONFIRMATION 7232
#define KMAC_STACK_DISCONNECT_INDICATION 128
#define KMAC_STACK_UNIT_INDICATION 7104
#define KMAC_STACK_TIME_OUT 128
#define KMAC_STACK_UNIT_KIND 64
#define KMAC_STACK_DES_ENCIPHER 1024
#define KMAC_STACK_DES_DECIPHER 1024
#define KMAC_STACK_MAX 8256

/* The refusals of the house. */
enum kmac_refusal {
    KMAC_H1_STORE_LENGTH = -1,     /* a store buffer is neither 3,852 nor 38,012 bytes, or not as a conversion has it */
    KMAC_H2_OUTPUT_LENGTH = -2,    /* the output buffer is under 1,032 bytes */
    KMAC_H3_SESSION_CLOSED = -3,   /* a message to a closed session */
    KMAC_H4_MESSAGE_SHORT = -4,    /* a message shorter than its header of 20 bytes */
    KMAC_H5_NO_SESSION_INIT = -5,  /* the session is waiting, and this is no valid session init: the session is closed */
    KMAC_H6_SAME_IDENTITY = -6,    /* begin with the own identity equal to the peer's */
    KMAC_H7_UNIT_LENGTH = -7,      /* a unit under 9 or over 1,032 bytes */
    KMAC_H8_MAC_DIFFERS = -8,      /* the MAC differs */
    KMAC_H9_UNIT_CONTENTS = -9,    /* the MAC is right; the user data are empty, or ETY, MTI or direction wrong */
    KMAC_H10_DATA_LENGTH = -10,    /* the user data to protect are not 1 to 1,023 bytes */
    KMAC_H11_NO_KEY = -11,         /* no key fits; where set-up starts also: an identity type is over 7 */
    KMAC_H12_STORE_UNSOUND = -12,  /* a search in an unsound store, or its conversion */
    KMAC_H13_KEY_LENGTH = -13,     /* the lent key is not 24 bytes */
    KMAC_H14_NO_ROOM = -14         /* to edition 1, and more than 64 keys or 256 peers are held */
};

/* ---- the key store */

/*
 * Makes the empty store in the buffer, of the edition that has its length, whatever stood there. So a store begins.
 * Answers 0. Refuses H1.
 */
int32_t kmac_empty_store(uint8_t *store, size_t store_len);

/*
 * Writes a store of edition 1 (from, KMAC_STORE_LEN bytes) anew as one of edition 2 (to, KMAC_STORE_2_LEN bytes), and the
 * other way. The new store has the same keys in the same order, so that every search answers the same of both, and each
 * KMAC stands at the same KMAC_KEY_AT(place). What stood in to before is not looked at; all of it is overwritten. from is
 * not written, and a store is not converted in place: from and to must not overlap. There and back gives the same bytes.
 * "The store over loss of power" says how a host replaces the one by the other.
 * Answers 0. Refuses H1 where either length is another one than that, then H12 where from is not sound in its edition. The
 * way to edition 1 then refuses H14 where from holds more than KMAC_STORE_KEYS keys or KMAC_STORE_PEERS peers; the way to
 * edition 2 has room for every sound store.
 */
int32_t kmac_to_edition2(const uint8_t *from, size_t from_len, uint8_t *to, size_t to_len);
int32_t kmac_to_edition1(const uint8_t *from, size_t from_len, uint8_t *to, size_t to_len);

/*
 * Searches the key for a peer at the moment t. A record fits that has the peer in its list and start <= t <= end, the three
 * compared as unsigned numbers. Of the records that fit, the one with the latest end is taken, the first in the store where
 * several have it. Its end is the last hour of that key (0xFFFFFFFF: it has none), so that the host can warn the driver. A
 * key that begins after t is not looked at: one may follow, and a search at a later hour finds it.
 * The end counts: a key fits until the hour that its end names is over. So t is the hour that has begun, its minutes cut
 * off; a host with finer moments moves each end to the last moment of its hour. A key with start = end fits in that one
 * hour, one with start > end never, and one with the end 0xFFFFFFFF from its start on.
 * Beware: SUBSET-137, 4.2.3.2, leaves the end out. A key centre that keeps to that names the hour after the last one: its
 * keys fit an hour longer than it means, and the end that is given is an hour late. Where it lets one key of a peer start
 * when another ends, both fit in that hour, and the one that ends later is taken, as the centre means it.
 * Where periods of one peer overlap further, which 4.2.4.2 forbids the centre, the peer must choose the same key: no data
 * unit says which one was meant.
 * Beware also: SUBSET-137, 4.2.3.1, codes a moment with the hour first, and the numbers of that coding are not in the order
 * of time. The host sees to it that periods and t reach the module in a coding whose numbers are.
 * Answers the place of the record, the first being 1, and writes its end to *end, in the host's byte order; its KMAC stands
 * in the store at KMAC_KEY_AT(place).
 * Refuses H1, H12, H11, and then leaves *end as it was.
 */
int32_t kmac_find(const uint8_t *store, size_t store_len, uint32_t peer, uint32_t t, uint32_t *end);

/*
 * Where in a store the KMAC of a place starts: from 1 to KMAC_STORE_KEYS, or in edition 2 to KMAC_STORE_2_KEYS. It is valid
 * until the store is written again.
 */
#define KMAC_KEY_AT(place) ((size_t)12 + (size_t)44 * ((size_t)(place) - 1) + 8)

/* ---- sessions with the key centre */

/*
 * A session is KMAC_SESSION_LEN bytes of the host's, opaque to it; it holds identities, sequence numbers and a transaction
 * number, no pointer and no key. All zero bytes are a closed session. A session is waiting, open or closed.
 */

/*
 * Begins a session between the own identity and the key centre's (the peer): writes a waiting session over whatever stood
 * in session, and into out the session init with this sequence number, which the host sends first.
 * Answers the length written, 23. Refuses H2, H6.
 */
int32_t kmac_begin(uint32_t own, uint32_t peer, uint16_t number, uint8_t session[KMAC_SESSION_LEN], uint8_t *out,
                   size_t out_len);

/*
 * Takes one whole message from the key centre. The host has cut it from the stream by its first four bytes, the length
 * field, and brings a message that ended early as far as it came.
 * Answers the length of the reply in out, which the host sends; or 0 where there is nothing to send: the centre's session
 * init has opened the waiting session, or its end of update has closed the open one. Writes the session whenever it does
 * not refuse. Refuses H1, H2, H3, H4, H5. After H5 the session is closed; after any other refusal it is as before.
 * A closed session takes no more messages: begin a new one.
 *
 * A reply (NOTIF_RESPONSE) has 23 bytes, and one more for each RESULT. Byte 20 is RESPONSE, bytes 21 and 22 are the number
 * of RESULTs, and these stand from byte 23 on, in the order of the requests. No key byte shows in it.
 *
 *     RESPONSE                                                               the session is then
 *     0   done: each request has its RESULT (delete all has none)            open
 *     1   the type is none of the five commands nor end of update            open
 *     2   the length field is not message_len, or message_len is over 5,000  closed
 *     3   the sender is not the peer                                         closed
 *     4   the receiver is not the own identity                               closed
 *     5   the interface version is not 2                                     closed
 *     6   the store is unsound (not asked for delete all)                    open
 *     9   the sequence number is not the one expected                        closed
 *     10  the transaction number is that of the message before               closed
 *     11  the body is not exactly its fields, or one is out of its range     closed
 *
 * They are tested in the order 2, 5, 4, 3, 9, 10, 1, 11, 6. With any RESPONSE but 0 no byte of the store has changed.
 *
 * RESPONSE 6 is told before the first request is worked, never in the middle: every request, whatever its RESULT, leaves a
 * sound store sound. From a sound store no call answers 6 or H12, and every call that ends leaves it sound. So where one of
 * them is answered, the store was unsound when it was first lent, a call on it was cut off, calls on it ran at the same
 * time, or something else wrote to it.
 *
 * The message before is the last of this session that passed the tests 2, 5, 4, 3 and 9, whatever it was answered. The
 * first message after the session init has none before it, and zero is a number like another. An end of update with the
 * number of the message before is answered 10, with a reply, and does not end the session quietly.
 *
 *     RESULT
 *     0   done
 *     1   delete or update: the key is not held
 *     2   add: as many keys are held as the edition has room for, 64 or 500
 *     3   add: issuer and serial are held already
 *     4   add: a byte of the KMAC has an even number of ones
 *     5   add: the recipient is not the own identity
 *     255 add or update of entities: there would be more peers altogether than the edition has room for, 256 or 4,000
 *
 * For an add they are tested in the order 5, 4, 3, 2, 255. A request with a RESULT other than 0 leaves the store as the
 * request before it did.
 */
int32_t kmac_receive(uint8_t session[KMAC_SESSION_LEN], const uint8_t *message, size_t message_len, uint8_t *store,
                     size_t store_len, uint8_t *out, size_t out_len);

/* ---- data units */

/*
 * Derives the session keys of a KMAC, of the responder's random number ra and of the initiator's, rb (SUBSET-037-2,
 * 6.2.3.2.3.15). Writes them to keys, each byte with odd parity.
 * Answers 0. Refuses H13.
 */
int32_t kmac_session_keys(const uint8_t *kmac, size_t kmac_len, const uint8_t ra[KMAC_RANDOM_LEN],
                          const uint8_t rb[KMAC_RANDOM_LEN], uint8_t keys[KMAC_KEY_LEN]);

/*
 * Builds the data unit of user data in out: one byte (ETY 0, MTI 5, direction), the data, the MAC under the session keys.
 * destination is the ETCS ID of the one who shall receive the unit. direction is the bit that the unit carries: 0 where the
 * initiator of the connection sends, 1 where the responder does; any other byte counts as 1.
 * Answers the length of the unit: data_len + 9. Refuses H13, H2, H10.
 */
int32_t kmac_build(const uint8_t *key, size_t key_len, const uint8_t destination[KMAC_DESTINATION_LEN], uint8_t direction,
                   const uint8_t *data, size_t data_len, uint8_t *out, size_t out_len);

/*
 * Checks a unit under the session keys. destination is the ETCS ID of the receiver, who checks; direction is the bit that
 * the unit must carry, the sender's as for kmac_build. A unit is accepted exactly when it is the one that kmac_build makes
 * of its user data.
 * Answers the length of the user data, 1 to 1,023; they start at byte 1 of the unit. Refuses H13, H7, H8, H9. Writes
 * nothing.
 */
int32_t kmac_check(const uint8_t *unit, size_t unit_len, const uint8_t *key, size_t key_len,
                   const uint8_t destination[KMAC_DESTINATION_LEN], uint8_t direction);

/* ---- connection set-up */

/*
 * A connection is KMAC_CONNECTION_LEN bytes of the host's; all zero bytes are the idle one. Of its bytes a host reads:
 *
 *     byte 0          the state, enum kmac_state; any other byte counts as IDLE
 *     byte 1          the role: 0 the side that calls (initiator), else the one that is called (responder)
 *     bytes 4 to 7    the own identity
 *     bytes 8 to 11   the peer's: at Sa-CONNECT.indication the caller's, whose MAC was right
 *
 * Identities have their first byte first. RA, RB and the key follow, and are the module's.
 */
enum kmac_state {
    KMAC_IDLE = 0,
    KMAC_WFTC = 1,     /* has called, waits for the transport connection with AU2 */
    KMAC_WFAR = 2,     /* has sent AU3, waits for AR */
    KMAC_DATA = 3,     /* user data go both ways */
    KMAC_WFAU3 = 4,    /* was called and has sent AU2, waits for AU3 */
    KMAC_WFRESP = 5    /* waits for the user's kmac_connect_response */
};

/*
 * Each of the nine calls that follow takes one event, whatever the state is, and writes connection, events and out. Events
 * are KMAC_EVENTS_LEN bytes:
 *
 *     byte 0          to the user, enum kmac_to_user
 *     byte 1          to the transport, enum kmac_to_transport, with the unit in out
 *     byte 2          the timer, enum kmac_timer
 *     byte 3          the new state, byte 0 of connection
 *     bytes 4 and 5   reason and sub-reason of Sa-DISCONNECT.indication or Sa-REPORT.indication (6.3.3.5); else zero
 *     bytes 6 and 7   the length of the user data of Sa-DATA.indication, the first byte on top; they start at byte 1 of the
 *                     unit that was brought; else zero
 *
 * Answers the length of the unit in out, 0 where there is none. An answer that is no refusal writes all of connection and
 * all of events; where the table asks for nothing, events are zeros but for the state. Refuses H2 first, and what else is
 * said with the call.
 */
enum kmac_to_user {
    KMAC_USER_NOTHING = 0,
    KMAC_USER_CONNECT_INDICATION = 1,
    KMAC_USER_CONNECT_CONFIRMATION = 2,
    KMAC_USER_DATA_INDICATION = 3,
    KMAC_USER_DISCONNECT_INDICATION = 4,
    KMAC_USER_REPORT_INDICATION = 5    /* a unit whose MAC was wrong; the connection stays */
};

enum kmac_to_transport {
    KMAC_TRANSPORT_NOTHING = 0,
    KMAC_TRANSPORT_CONNECT_REQUEST = 1,        /* T-CONNECT.request, with AU1 */
    KMAC_TRANSPORT_CONNECT_RESPONSE = 2,       /* T-CONNECT.response, with AU2 */
    KMAC_TRANSPORT_DISCONNECT_REQUEST = 3,     /* T-DISCONNECT.request without a unit */
    KMAC_TRANSPORT_DISCONNECT_REQUEST_DI = 4,  /* T-DISCONNECT.request, with DI */
    KMAC_TRANSPORT_AU3 = 5,                    /* T-DATA.request, with this unit */
    KMAC_TRANSPORT_AR = 6,
    KMAC_TRANSPORT_DT = 7
};

enum kmac_timer {
    KMAC_TIMER_AS_IT_IS = 0,
    KMAC_TIMER_SET = 1,
    KMAC_TIMER_STOP = 2,
    KMAC_TIMER_STOP_ALL = 3
};

/*
 * The user asks for a connection to peer (Sa-CONNECT.request). acceptable says whether the application type is one that is
 * served: 0 is no, any other byte yes. t is the moment of the search, rb a fresh random number.
 * Where the state is IDLE and acceptable is yes, refuses H1, H12, H11 as kmac_find does, and H11 also where the type of own
 * or peer is over 7.
 */
int32_t kmac_connect_request(uint8_t connection[KMAC_CONNECTION_LEN], uint8_t acceptable, uint32_t own, uint32_t peer,
                             uint32_t t, const uint8_t rb[KMAC_RANDOM_LEN], const uint8_t *store, size_t store_len,
                             uint8_t events[KMAC_EVENTS_LEN], uint8_t *out, size_t out_len);

/* The user takes the connection that Sa-CONNECT.indication told (Sa-CONNECT.response). */
int32_t kmac_connect_response(uint8_t connection[KMAC_CONNECTION_LEN], uint8_t events[KMAC_EVENTS_LEN], uint8_t *out,
                              size_t out_len);

/* The user sends data (Sa-DATA.request). Refuses H10 in every state. */
int32_t kmac_data_request(uint8_t connection[KMAC_CONNECTION_LEN], const uint8_t *data, size_t data_len,
                          uint8_t events[KMAC_EVENTS_LEN], uint8_t *out, size_t out_len);

/*
 * The user releases the connection (Sa-DISCONNECT.request), or does not take it. The peer is told the two numbers in a DI,
 * but in WFTC, where there is no transport connection yet; 0 is the reason of a normal release.
 */
int32_t kmac_disconnect_request(uint8_t connection[KMAC_CONNECTION_LEN], uint8_t reason, uint8_t sub_reason,
                                uint8_t events[KMAC_EVENTS_LEN], uint8_t *out, size_t out_len);

/*
 * The transport brings a connection with its first unit, an AU1 (T-CONNECT.indication). acceptable, t and store as for
 * kmac_connect_request; own is the called identity, ra a fresh random number. The peer is the one that the AU1 names.
 * Where the state is IDLE, acceptable is yes and the AU1 is right, refuses H1, H12, H11 as kmac_find does, and H11 also
 * where the type of own is over 7.
 */
int32_t kmac_connect_indication(uint8_t connection[KMAC_CONNECTION_LEN], uint8_t acceptable, uint32_t own, uint32_t t,
                                const uint8_t ra[KMAC_RANDOM_LEN], const uint8_t *unit, size_t unit_len,
                                const uint8_t *store, size_t store_len, uint8_t events[KMAC_EVENTS_LEN], uint8_t *out,
                                size_t out_len);

/* The transport connection stands, and the called side has answered with a unit, an AU2 (T-CONNECT.confirmation). */
int32_t kmac_connect_confirmation(uint8_t connection[KMAC_CONNECTION_LEN], const uint8_t *unit, size_t unit_len,
                                  uint8_t events[KMAC_EVENTS_LEN], uint8_t *out, size_t out_len);

/*
 * The transport connection is gone (T-DISCONNECT.indication). The user is told the two numbers of the DI that came with it;
 * where no unit came (unit_len 0), 1 and the transport's reason (Table 24); where anything else came, 127 and 127.
 */
int32_t kmac_disconnect_indication(uint8_t connection[KMAC_CONNECTION_LEN], uint8_t reason, const uint8_t *unit,
                                   size_t unit_len, uint8_t events[KMAC_EVENTS_LEN], uint8_t *out, size_t out_len);

/*
 * The transport brings any other unit (T-DATA.indication). kind says which of the three it is taken for, enum kmac_kind; any
 * byte but 1 and 2 is DT. A wrong kind ends the connection at worst: what was not checked never goes up.
 */
enum kmac_kind {
    KMAC_KIND_AU3 = 1,
    KMAC_KIND_AR = 2,
    KMAC_KIND_DT = 3
};

int32_t kmac_unit_indication(uint8_t connection[KMAC_CONNECTION_LEN], uint8_t kind, const uint8_t *unit, size_t unit_len,
                             uint8_t events[KMAC_EVENTS_LEN], uint8_t *out, size_t out_len);

/* The timer has run down. */
int32_t kmac_time_out(uint8_t connection[KMAC_CONNECTION_LEN], uint8_t events[KMAC_EVENTS_LEN], uint8_t *out,
                      size_t out_len);

/*
 * The kind of a unit by its first byte, for a host that has no other way to know: 1, 2 or 3. An AU3, AR or DT as a peer
 * builds it has its own kind; anything else, and nothing at all, is DT. Writes nothing and refuses nothing.
 */
int32_t kmac_unit_kind(const uint8_t *unit, size_t unit_len);

/* ---- power-on */

/* Answers the version of the library. Where it is not KMAC_VERSION, no other call may be made. */
int32_t kmac_version(void);

/*
 * The self-test, for power-on. It works the tables of the quick rounds again from the tables that FIPS 46-3 prints, entry
 * by entry; two blocks by both, both ways; the example of SUBSET-037-2, Annex B, by the quick rounds; and a MAC and
 * session keys, as the calls above make them, against the printed tables. It takes nothing from the host.
 * Answers 0, or -1 where it fails. It is proved to answer 0 on a machine that does what the language says. So -1, which is
 * no refusal here, says that memory, processor or the compiler's back end are not what was proved, and no answer of the
 * library can be relied on. 0 says that these computations came out right this once; sessions and stores are not looked at.
 */
int32_t kmac_self_test(void);

/* ---- DES (FIPS 46-3) alone */

/* Enciphers, or deciphers, one block under a key whose parity bits are not looked at. */
void kmac_des_encipher(const uint8_t key[KMAC_DES_LEN], const uint8_t block[KMAC_DES_LEN], uint8_t result[KMAC_DES_LEN]);
void kmac_des_decipher(const uint8_t key[KMAC_DES_LEN], const uint8_t block[KMAC_DES_LEN], uint8_t result[KMAC_DES_LEN]);

#ifdef __cplusplus
}
#endif

#endif
