/* hislip_server.h - the server side of HiSLIP protocol 1.0 (IVI-6.1), synchronized and overlap mode.
 *
 * The host owns sockets, clock and instrument; this library owns the protocol. The host tells the
 * server of eight events: a connection opens, unread bytes of a connection are delivered, a connection
 * is cut, the clock reads so many milliseconds, the instrument answers a session, the instrument's
 * status byte changes, the watch over a session's readings is set, the list of allowed commands is set.
 * What is to be sent comes back as frames in the host's output buffer.
 *
 * LANGUAGE. C99, or C++ (C++11 or later). hislip_names.h has the numbers of this file in words.
 *
 * MEMORY. The library allocates nothing and keeps nothing between calls but what is in the memory it
 * is lent: HISLIP_WORDS words and HISLIP_STRING_BYTES bytes, one pair for each server. Both must
 * stay lent, and be written by nobody else, from hislip_new to the last call. Copying both copies
 * the server.
 *
 * WHAT THE HOST OWES. The library checks every number and every byte; it relies on pointers alone:
 *  - `words` points to HISLIP_WORDS uint64_t, aligned as uint64_t, and `strings` to
 *    HISLIP_STRING_BYTES bytes. In hislip_deliver `bytes` points to `len` bytes, in hislip_answer
 *    `payload` to `len` bytes and `shown` to `shown_len`, and in these two, hislip_cut and hislip_clock
 *    `out` to `out_len` bytes. In hislip_holders `rows` points to `rows_len` rows, aligned as uint64_t. In
 *    hislip_patterns `text` points to `len` bytes. Byte memory needs no alignment.
 *  - NO POINTER IS NULL, NOT EVEN BESIDE A LENGTH OF 0. The proved code takes references, and a
 *    reference is never null: of a null one the proofs say nothing. Beside 0 any other pointer will
 *    do, for instance "". GCC and Clang warn of a null constant.
 *  - words, strings, bytes, payload, shown, out, rows and text do not overlap one another; payload and shown may.
 *  - Two threads do not use one server at once. Different servers are independent.
 *  - hislip_new has written the memory before the other calls see it.
 *
 * OUTPUT. A row of frames: one byte of connection number, then a whole message (16 bytes of header
 * and its payload), to be sent on that connection in this order. `output` counts its bytes. A buffer
 * of HISLIP_OUTPUT bytes always suffices.
 *
 * WHAT IS WRITTEN. `words`, `strings` and the first `output` bytes of `out`; the bytes of `out` after
 * them keep their values, and `bytes`, `payload`, `shown` and `text` are only read. A refused call, a delivery
 * answered more needed or held, and the questions hislip_deadline, hislip_client_size and
 * hislip_readings write nothing at all. hislip_holders, a question too, writes the first rows of its
 * list, as many as it answers, and nothing else. A hislip_keep_ call (JOURNAL, below) also writes
 * `journal` and `book`: the entry of each event that was not refused, and so of a delivery answered more
 * needed or held too.
 *
 * MESSAGE NUMBERS. A client counts its Data, DataEND and Trigger from ffffff00 hex by two, wrapping, from
 * its opening and again from each AsyncDeviceClear. A message that carries another number than the one
 * expected is answered Error 0 and does not act; the expectation stays, so that a client that has lost count
 * gets on by a device clear. A message that is refused for another cause (too large, its code, its payload)
 * still counts, if it carries the number expected; one that is held is tested when it is taken.
 *
 * RELEASES. A lock release (AsyncLock with code 0) names the last Data, DataEND or Trigger that its
 * client has sent, or fffffefe hex if it has sent none since it opened or since its last device clear.
 * It acts, and is answered, when that message has acted. A release that names any other number is
 * taken and not answered: it stands, and its lock stays held. So it goes with a client that names 0
 * before its first message or a stale number after a device clear, and with one whose message was
 * answered with an Error, since that does not act. While a release stands every further AsyncLock of
 * the session is answered 3. It ends when a message of its number acts, at a device clear (it then acts
 * and is answered, before the acknowledgement), or unanswered when the session closes.
 *
 * READINGS. An answer of the instrument is a block of readings if its whole payload is an IEEE 488.2
 * definite length block: "#", a digit from 1 to 9, that many decimal digits that give the count of the
 * bytes after them, then IEEE 754 singles, most significant byte first; the count is a multiple of 4 and
 * at most 1,000 (leading zeros are fine, and so is a count of 0, a block without readings). Any other
 * payload is no block and means nothing here. Each answer that is sent, with END or without, is looked at
 * by itself; one that is withheld is not. Of each session the server keeps the last, the lowest and the
 * highest reading that was a number (infinities are), from its opening to its closing, and the watch that
 * the host has set: off at the opening, above one limit, or outside a low and a high one. A reading trips
 * a set watch if it is strictly beyond a limit, or not a number; the two zeros are equal, in this and for
 * the extremes. The first trip since the watch was set sends one AsyncServiceRequest behind the answer, on
 * the session's asynchronous connection; its code is the instrument's status byte with the values 16 and 64
 * set. A device clear changes neither watch nor record.
 *
 * COMMANDS. The host may set a list of up to 32 patterns in SCPI notation, as MEASure[:VOLTage[:DC]]?, for
 * all sessions. A word is capitals, at least one, then small letters, if any: the capitals are its short
 * form, the whole word its long one. A pattern is a word, then any row of colon-and-word or bracketed
 * non-empty rows of the same, brackets at most 8 deep, then perhaps "?"; or a star, one or more capitals and
 * perhaps "?". It has at most 128 bytes. A bracketed part may be left out. A command matches a pattern if
 * some choice of kept and dropped brackets spells it, each word short or long and nothing between, whatever
 * its case; the question mark is there exactly if the pattern has it. With a list set, a DataEND whose
 * payload up to its first space (20 hex), newline (0a hex) or end matches no pattern is answered Error 128,
 * taken, and does not act; this is tested behind all other checks of the message, so the session's count has
 * moved on, and its RMT-delivered is not read. Only the DataEND's own payload is looked at, not Data before
 * it; a semicolon, a tab or a leading colon are bytes like others, so a row of commands in one message
 * (without a space before the semicolon) matches nothing. While no list was ever set, all is allowed; an
 * empty list allows nothing. There is no way back but hislip_new.
 *
 * JOURNAL. The hislip_keep_ calls do what the calls without that word do, and write an entry of the event
 * and its frames into `book`, a lent slice of bytes; docs/JOURNAL.md has its layout. `journal` points to
 * HISLIP_JOURNAL_WORDS uint64_t of the writer's own, aligned as uint64_t, which hislip_journal_new writes;
 * `book` to `book_len` bytes. Neither overlaps any other lent memory, and nobody else writes them while the
 * journal is kept. The first word counts the bytes written: a host that keeps the journal in a file writes
 * the bytes from its old value to its new one, in order, after each call. An event done by a call without
 * "keep" is not in the journal, and a journal with an event left out is not accepted by a verifier.
 *
 * REFUSALS. A refused call has a number and one cause. It changes nothing: neither the server nor
 * any lent byte, and every other field of the answer is 0 (with refusal 11 alone two say where). If
 * several causes hold, the first in the order given at each function is told.
 *
 * EXAMPLE (host/c/example.c runs it):
 *
 *   static uint64_t words[HISLIP_WORDS];
 *   static uint8_t strings[HISLIP_STRING_BYTES], out[HISLIP_OUTPUT];
 *
 *   static int first_session(void)
 *   {
 *       static const uint8_t initialize[16] = "HS\0\0\1\0AA";
 *       hislip_delivery told;
 *       if (hislip_words() != HISLIP_WORDS || hislip_string_bytes() != HISLIP_STRING_BYTES)
 *           return 1; // header and archive are not of one version
 *       hislip_new(words, strings, 0x4141, HISLIP_SYNCHRONIZED);
 *       if (hislip_open(words, strings, 0).refusal != HISLIP_ACCEPTED)
 *           return 1;
 *       told = hislip_deliver(words, strings, 0, initialize, sizeof initialize, out, sizeof out);
 *       if (told.outcome != HISLIP_ACTED_ON || told.session != 1 || told.taken != 16)
 *           return 1;
 *       for (uint64_t at = 0; at < told.output;) {
 *           uint64_t length = HISLIP_HEADER + hislip_payload_length(out + at + 1);
 *           printf("to connection %u: %u bytes, type %u\n", out[at], (unsigned)length, out[at + 3]);
 *           at += 1 + length;
 *       }
 *       return 0;
 *   }
 */
#ifndef HISLIP_SERVER_H
#define HISLIP_SERVER_H

#include <stddef.h>
#include <stdint.h>

#ifdef __cplusplus
extern "C" {
#endif

/* The version of this interface. A change of the first number, or below 1.0 of the second, may ask
 * for changes in the host. */
#define HISLIP_VERSION_MAJOR 0
#define HISLIP_VERSION_MINOR 8
#define HISLIP_VERSION_PATCH 0
#define HISLIP_VERSION "0.8.0"

/* Compilers that know these words warn; the others pass over them.
 * HISLIP_NOT_NULL: no pointer is null, see WHAT THE HOST OWES.
 * HISLIP_USE_RESULT: the answer counts the bytes to be sent, so a host that drops it drops frames; or
 * the answer is all that there is of the call. */
#if defined(__GNUC__)
#define HISLIP_NOT_NULL __attribute__((nonnull))
#define HISLIP_USE_RESULT __attribute__((warn_unused_result))
#else
#define HISLIP_NOT_NULL
#define HISLIP_USE_RESULT
#endif

/* Sizes. */
#define HISLIP_WORDS 1005         /* uint64_t to lend as `words`: what hislip_words() tells         */
#define HISLIP_STRING_BYTES 12576 /* bytes to lend as `strings`: what hislip_string_bytes() tells   */
#define HISLIP_SESSIONS 32        /* live sessions, half-open ones included                         */
#define HISLIP_CONNECTIONS 64     /* connections are numbered 0 to 63                               */
#define HISLIP_HEADER 16          /* bytes of a message before its payload                          */
#define HISLIP_PAYLOAD 1024       /* bytes of payload, either way                                   */
#define HISLIP_LOCK_STRING 256    /* bytes of a lock string                                         */
#define HISLIP_OUTPUT 2048        /* smallest output buffer                                         */
#define HISLIP_CLOCK_MAX ((uint64_t)1 << 62)
#define HISLIP_PATTERNS 32        /* patterns of a list of allowed commands                         */
#define HISLIP_PATTERN 128        /* bytes of a pattern                                             */
#define HISLIP_NOT_ALLOWED 128    /* code of the Error that answers a command which is not allowed  */
#define HISLIP_JOURNAL_WORDS 4    /* uint64_t to lend as `journal`                                  */
#define HISLIP_KEPT_DELIVERY 1040 /* with a journal kept, a delivery looks at no more bytes         */
#define HISLIP_KEPT_SHOWN 16      /* so many of the bytes shown with an answer count                */

/* Types of messages, byte 2 of a message (IVI-6.1, Table 4). */
#define HISLIP_TYPE_INITIALIZE 0
#define HISLIP_TYPE_INITIALIZE_RESPONSE 1
#define HISLIP_TYPE_FATAL_ERROR 2
#define HISLIP_TYPE_ERROR 3
#define HISLIP_TYPE_ASYNC_LOCK 4
#define HISLIP_TYPE_ASYNC_LOCK_RESPONSE 5
#define HISLIP_TYPE_DATA 6
#define HISLIP_TYPE_DATA_END 7
#define HISLIP_TYPE_DEVICE_CLEAR_COMPLETE 8
#define HISLIP_TYPE_DEVICE_CLEAR_ACKNOWLEDGE 9
#define HISLIP_TYPE_ASYNC_REMOTE_LOCAL_CONTROL 10
#define HISLIP_TYPE_ASYNC_REMOTE_LOCAL_RESPONSE 11
#define HISLIP_TYPE_TRIGGER 12
#define HISLIP_TYPE_INTERRUPTED 13
#define HISLIP_TYPE_ASYNC_INTERRUPTED 14
#define HISLIP_TYPE_ASYNC_MAXIMUM_MESSAGE_SIZE 15
#define HISLIP_TYPE_ASYNC_MAXIMUM_MESSAGE_SIZE_RESPONSE 16
#define HISLIP_TYPE_ASYNC_INITIALIZE 17
#define HISLIP_TYPE_ASYNC_INITIALIZE_RESPONSE 18
#define HISLIP_TYPE_ASYNC_DEVICE_CLEAR 19
#define HISLIP_TYPE_ASYNC_SERVICE_REQUEST 20
#define HISLIP_TYPE_ASYNC_STATUS_QUERY 21
#define HISLIP_TYPE_ASYNC_STATUS_RESPONSE 22
#define HISLIP_TYPE_ASYNC_DEVICE_CLEAR_ACKNOWLEDGE 23
#define HISLIP_TYPE_ASYNC_LOCK_INFO 24
#define HISLIP_TYPE_ASYNC_LOCK_INFO_RESPONSE 25
#define HISLIP_TYPE_VENDOR 128 /* this one and all above it */

/* Refusals, by number and cause. */
#define HISLIP_ACCEPTED 0
#define HISLIP_REFUSED_CONNECTION 1      /* connection above 63; for a delivery or a cut, also not open */
#define HISLIP_REFUSED_ALREADY_OPEN 2    /* opening one already open                                    */
#define HISLIP_REFUSED_CLOCK_BACKWARDS 3 /* clock below the last reading (equal is fine)                */
#define HISLIP_REFUSED_CLOCK_TOO_HIGH 4  /* clock above 2^62                                            */
#define HISLIP_REFUSED_NOTHING_ASKED 5   /* the session has asked nothing; in overlap mode, it is
                                            half-open or in a device clear                              */
#define HISLIP_REFUSED_ANSWER_TOO_LONG 6 /* answer above 1,024 bytes or above the client's size         */
#define HISLIP_REFUSED_SHORT_BUFFER 7    /* output buffer under 2,048 bytes                             */
#define HISLIP_REFUSED_NO_SESSION 8      /* no live session of that number                              */
#define HISLIP_REFUSED_LIST_TOO_SHORT 9  /* the list of rows is shorter than the holders                */
#define HISLIP_REFUSED_BAD_LIMITS 10     /* a watch's limit is not a number, or low is above high       */
#define HISLIP_REFUSED_BAD_PATTERN 11    /* a text of the list is no pattern; the answer says where     */
#define HISLIP_REFUSED_TOO_MANY_PATTERNS 12 /* more than 32 patterns                                    */

/* What became of an entry, `kept`. */
#define HISLIP_KEPT 0        /* written; or the event was refused, and nothing is to be written             */
#define HISLIP_KEPT_NO_ROOM 1 /* the entry and the 12 bytes of a closing do not fit in what is left. What the
                                event did stands, and no byte of the book is written: close this journal and
                                begin another, or go on, a smaller entry may fit                            */
#define HISLIP_KEPT_CLOSED 2 /* the journal is closed. What the event did stands, and nothing is written    */

/* Modes, for hislip_new. */
#define HISLIP_SYNCHRONIZED 0
#define HISLIP_OVERLAP 1

/* Outcomes of a delivery. */
#define HISLIP_MORE_NEEDED 0 /* too few bytes; show them again with more. Nothing taken, nothing changed   */
#define HISLIP_SKIPPED 1     /* payload of a too large message went by                                     */
#define HISLIP_HELD 2        /* Data, DataEND or Trigger without access: keep it, show it again after any
                                event. Nothing taken, nothing changed                                      */
#define HISLIP_IGNORED 3     /* taken without effect                                                       */
#define HISLIP_ERROR_SENT 4  /* taken; an Error is in the output                                           */
#define HISLIP_CLOSED 5      /* the session, or the connection without one, is closed: send the output,
                                close its sockets, drop its unread bytes. Taken is 0                       */
#define HISLIP_ACTED_ON 6    /* taken; if it is Data, DataEND or Trigger (HISLIP_TYPE_DATA, .._DATA_END or
                                .._TRIGGER in byte 2 of `bytes`), pass it to the instrument                */

/* The answer to a delivery. `session`: the session's number if the outcome is closed (0 if the
 * connection had none) or acted on, else 0. `taken`: bytes the host drops from the front of the
 * unread ones. `output`: bytes of frames in `out`. `missing`: with more needed, how many bytes: 16
 * less what is here, the rest of the payload, or, with no bytes given, the remainder to skip if there
 * is one; with any other outcome 0. */
typedef struct {
    uint64_t refusal, outcome, session, taken, output, missing;
} hislip_delivery;

/* The answer to an instrument's answer. `withheld`: 1 if the answer was not sent, since the session's
 * next message has come; the output then tells the client so. `output`: bytes of frames in `out`. */
typedef struct {
    uint64_t refusal, withheld, output;
} hislip_answered;

/* The answer to an opening, a cut, a clock reading and the setting of a watch. `output`: bytes of frames
 * in `out`; of an opening and a watch it is 0. */
typedef struct {
    uint64_t refusal, output;
} hislip_done;

/* The answer to hislip_deadline. `waiting`: how many lock requests wait, 0 to 32. `deadline`: the clock
 * at which the first of them runs out of time; 0 if none waits. */
typedef struct {
    uint64_t waiting, deadline;
} hislip_deadlines;

/* The answer to hislip_client_size. `size`: the largest payload that the session's client takes. */
typedef struct {
    uint64_t refusal, size;
} hislip_sized;

/* A session that holds a lock, in the list of hislip_holders. `session`: its number. `exclusive`, `shared`:
 * 1 if it holds that lock, else 0; it may hold both. `granted_at`: what the clock read when a lock was
 * granted to it last. `grants`: how many locks were granted to it since it opened; once at 2^62 it stays
 * there. */
typedef struct {
    uint64_t session, exclusive, shared, granted_at, grants;
} hislip_row;

/* The answer to hislip_holders. `rows`: how many rows were written. */
typedef struct {
    uint64_t refusal, rows;
} hislip_counted;

/* The answer to hislip_readings. `seen`: 1 if the session was sent a reading that is a number, else 0 and
 * then so are the others. `last`, `lowest`, `highest`: of these readings; of equal extremes the first. */
typedef struct {
    uint64_t refusal, seen;
    float last, lowest, highest;
} hislip_record;

/* The answer to hislip_patterns. With refusal 11 `pattern` is the number of the first bad one, from 0, and
 * `place` that of its first byte that no pattern could have there, from 0; its length if it stops short;
 * 128 if it is longer and good so far. Otherwise both are 0. */
typedef struct {
    uint64_t refusal, pattern, place;
} hislip_listed;

/* How many uint64_t to lend as `words`: HISLIP_WORDS, if header and archive are of one version. */
uint64_t hislip_words(void);

/* How many bytes to lend as `strings`: HISLIP_STRING_BYTES, likewise. */
uint64_t hislip_string_bytes(void);

/* Makes a fresh server: clock 0, status byte 0, nothing open. `vendor` is the two-letter vendor
 * number, first letter in the upper byte ("AA" is 0x4141). `overlap` is the mode that the server prefers
 * and that a session starts in: 0 (HISLIP_SYNCHRONIZED) for synchronized, any other value for overlap. A
 * client may ask for either with the code of its DeviceClearComplete. Writes every lent word and byte; what they
 * held before does not matter. Never refused. */
HISLIP_NOT_NULL
void hislip_new(uint64_t *words, uint8_t *strings, uint16_t vendor, uint8_t overlap);

/* A connection opens. Refusals: 1 (above 63), 2 (already open). Sends nothing. */
HISLIP_NOT_NULL
hislip_done hislip_open(uint64_t *words, uint8_t *strings, uint32_t connection);

/* Unread bytes of a connection: all of them, from the first one not yet taken. At most one message is
 * taken; deliver again while bytes are taken and some are left. Refusals, in this order: 7 (`out_len`
 * under 2,048), 1 (above 63, or not open). Outcomes: all seven. `len` may be 0 (more needed).
 * A release (AsyncLock, code 0) that is acted on with no output stands: it waits for the message that
 * it names. Its answer, and the grants behind it, are in the output of the Data, DataEND or Trigger of
 * that number, or of a device clear. A client that names any other number (some send 0 before their
 * first message, or an old number after a clear) is answered at a device clear or never. */
HISLIP_NOT_NULL HISLIP_USE_RESULT
hislip_delivery hislip_deliver(uint64_t *words, uint8_t *strings, uint32_t connection,
                               const uint8_t *bytes, size_t len, uint8_t *out, size_t out_len);

/* A connection is cut. Its session, if it has one, closes with both connections, its locks and its
 * waiting request, and a release that stands is not answered; the output holds the lock answers of
 * others who are now granted. The number may be opened again at once. Refusals, in this order: 7, 1
 * (above 63, or not open). */
HISLIP_NOT_NULL HISLIP_USE_RESULT
hislip_done hislip_cut(uint64_t *words, uint8_t *strings, uint32_t connection,
                       uint8_t *out, size_t out_len);

/* The clock reads so many milliseconds, counted from any start. Lock requests whose deadline is at or
 * below it are answered 0, oldest first. Refusals, in this order: 7, 4 (above 2^62), 3 (below the last
 * reading; equal is fine). */
HISLIP_NOT_NULL HISLIP_USE_RESULT
hislip_done hislip_clock(uint64_t *words, uint8_t *strings, uint64_t milliseconds,
                         uint8_t *out, size_t out_len);

/* The instrument answers a session: sent as Data, or as DataEND if `end` is not 0, with the MessageID
 * of the question; to a session in overlap mode, with a count of its answers, from ffffff00 hex by two.
 * `len` may be 0. Refusals, in this order: 7, 8 (no live session of that number), 5 (it has asked
 * nothing: no DataEND or Trigger has acted since the last answer with END, the last device clear or the
 * last interruption, which is told below; in overlap mode: it is half-open or in a device clear), 6 (`len`
 * above 1,024 or above the size the client announced).
 *
 * `shown`: all unread bytes of the session's synchronous connection, from the first one not yet taken.
 * They are looked at with `end`, in synchronized mode, after the refusals. If they begin with a whole
 * header, "HS" and type Data, DataEND or Trigger, and no payload of a too large message is still to be
 * skipped, the client has asked again before it was answered: the answer is withheld, nothing is asked any
 * more, message available goes off, and AsyncInterrupted and Interrupted are in the output. The message
 * itself stays unread, to be delivered as any other. A host that shows nothing (`shown_len` 0) never has an
 * answer withheld. The server also looks at RMT-delivered of each Data, DataEND and Trigger: a client that
 * does not tell of an END sent to it, or tells of one that was not, is interrupted too: it is sent the same
 * two messages with that delivery, nothing is asked any more, and then the message acts. Behind an answer
 * that trips the session's watch (READINGS, above) there is one AsyncServiceRequest. */
HISLIP_NOT_NULL HISLIP_USE_RESULT
hislip_answered hislip_answer(uint64_t *words, uint8_t *strings, uint32_t session,
                              const uint8_t *payload, size_t len, uint8_t end,
                              const uint8_t *shown, size_t shown_len, uint8_t *out, size_t out_len);

/* The instrument's status byte changes. Never refused; sends nothing. In status responses the value
 * 16 is replaced by the session's own message available. */
HISLIP_NOT_NULL
void hislip_status(uint64_t *words, uint8_t *strings, uint8_t status);

/* The watch over a session's readings is set, in place of the one before: off; tripped by a reading above
 * `limit`; or by one below `low` or above `high`. READINGS, above, says what a reading is and what a trip
 * sends. Whatever the watch before has done, this one has not tripped, so the same watch set again tells of
 * the next trip. A half-open session may have one. Sends nothing. A limit may be infinite, and the two
 * limits may be equal. Refusals, in this order: 8 (no live session of that number), 10 (a limit is not a
 * number, or `low` is above `high`). */
HISLIP_NOT_NULL
hislip_done hislip_watch_off(uint64_t *words, uint8_t *strings, uint32_t session);
HISLIP_NOT_NULL
hislip_done hislip_watch_above(uint64_t *words, uint8_t *strings, uint32_t session, float limit);
HISLIP_NOT_NULL
hislip_done hislip_watch_outside(uint64_t *words, uint8_t *strings, uint32_t session, float low, float high);

/* The list of allowed commands is set, for all sessions, in place of the one before: COMMANDS, above, says
 * what a pattern is and what is then answered. `text`: the patterns, each ended by a newline (0a hex); a
 * last one may lack it. `len` 0 is the empty list, which allows nothing; a newline alone is one empty
 * pattern, and bad. Sends nothing. Refusals, in this order: 12 (more than 32), 11 (a bad pattern; the
 * answer names the first one and the place); then the list before stays as it was. */
HISLIP_NOT_NULL HISLIP_USE_RESULT
hislip_listed hislip_patterns(uint64_t *words, uint8_t *strings, const uint8_t *text, size_t len);

/* A question, no event: it changes nothing and may be asked at any time between two events. How many
 * lock requests wait, and the earliest of their deadlines, in milliseconds of hislip_clock: a reading
 * below it answers nobody, an accepted one at or above it answers at least one request. So a host that
 * has nothing else to do may sleep until then, and without end if none waits. The answer holds until
 * the next event that is not refused. Never refused. */
HISLIP_NOT_NULL HISLIP_USE_RESULT
hislip_deadlines hislip_deadline(const uint64_t *words, const uint8_t *strings);

/* A question, no event: it changes nothing. The largest payload that the session's client takes: what
 * it announced last (any 64-bit number), 1,024 before that. hislip_answer takes at most this and at
 * most HISLIP_PAYLOAD bytes at once; a host cuts a longer answer into pieces, the last one with END.
 * A half-open session is live too. Refusal: 8 (no live session of that number). */
HISLIP_NOT_NULL HISLIP_USE_RESULT
hislip_sized hislip_client_size(const uint64_t *words, const uint8_t *strings, uint32_t session);

/* A question, no event: it changes nothing in the server. Who holds what, since when: one row for each
 * session that holds a lock, ascending by session, into the front of the list; further rows keep their
 * values. A lock is held from the answer that grants it, at once or after waiting, to the answer of its
 * release (a release that stands has not freed it yet) or the session's closing. The reading and the number of
 * grants are those of the answers 1 to the session's own lock requests; the session's next opening begins
 * at none. A list of HISLIP_SESSIONS rows always suffices; `rows_len` may be 0. Refusal: 9 (`rows_len` is
 * below the number of holders; no row is written then). */
HISLIP_NOT_NULL HISLIP_USE_RESULT
hislip_counted hislip_holders(const uint64_t *words, const uint8_t *strings, hislip_row *rows, size_t rows_len);

/* A question, no event: it changes nothing. The last, lowest and highest reading that a session was sent
 * since it opened, watch or none, or that there is none yet. A half-open session is live too. Refusal: 8
 * (no live session of that number). */
HISLIP_NOT_NULL HISLIP_USE_RESULT
hislip_record hislip_readings(const uint64_t *words, const uint8_t *strings, uint32_t session);

/* The answers of the calls that keep a journal: those of the plain calls, and what became of the entry. */
typedef struct {
    uint64_t kept;
} hislip_kept;

typedef struct {
    uint64_t refusal, output, kept;
} hislip_kept_done;

typedef struct {
    uint64_t refusal, outcome, session, taken, output, missing, kept;
} hislip_kept_delivery;

typedef struct {
    uint64_t refusal, withheld, output, kept;
} hislip_kept_answered;

typedef struct {
    uint64_t refusal, pattern, place, kept;
} hislip_kept_listed;

/* An entry in a book. `found`: 1, or 0 if there is none, and then the rest is 0. `body`, `length`: where its
 * body is. `next`: the next place. */
typedef struct {
    uint64_t found, body, length, next;
} hislip_entry;

/* Begins a journal in `book`, whatever the words were: `kept` is 0 or 1 (under 12 bytes; then no word is
 * written). Writes no byte of the book. Bytes of a book past 2^31 are never used. */
HISLIP_NOT_NULL HISLIP_USE_RESULT
hislip_kept hislip_journal_new(uint64_t *journal, uint8_t *book, size_t book_len);

/* Writes the closing trailer behind the last entry: `kept` is 0, or 2 if the journal is closed already. From
 * hislip_journal_new on there is always room for it; with other bits in the words it may be 1. */
HISLIP_NOT_NULL HISLIP_USE_RESULT
hislip_kept hislip_journal_close(uint64_t *journal, uint8_t *book, size_t book_len);

/* The whole entry that begins at `at`, with right distance and sum: the first is at 0, each next at `next`. It
 * looks at no more of the book than the entry, so a book that is still written, or was cut short, may be read;
 * a closing trailer is no entry, and ends the reading. */
HISLIP_NOT_NULL HISLIP_USE_RESULT
hislip_entry hislip_journal_forward(const uint8_t *book, size_t book_len, uint64_t at);

/* The entry that ends at `at`, in a closed book whose last byte is the trailer's last: the last entry ends at
 * book_len - 12, each next at `next`. */
HISLIP_NOT_NULL HISLIP_USE_RESULT
hislip_entry hislip_journal_backward(const uint8_t *book, size_t book_len, uint64_t at);

/* Each does the plain call's event and writes its entry. Arguments and answer are the plain call's, then the
 * writer's words and the book, and `kept`. Refusals are the plain call's; of a refused event nothing is
 * written, and `kept` is 0, also where the journal is closed or full. */
HISLIP_NOT_NULL HISLIP_USE_RESULT
hislip_kept_done hislip_keep_open(uint64_t *words, uint8_t *strings, uint32_t connection,
                                  uint64_t *journal, uint8_t *book, size_t book_len);

/* Only the first HISLIP_KEPT_DELIVERY bytes are looked at: no message that is taken whole is longer. */
HISLIP_NOT_NULL HISLIP_USE_RESULT
hislip_kept_delivery hislip_keep_deliver(uint64_t *words, uint8_t *strings, uint32_t connection,
                                         const uint8_t *bytes, size_t len, uint8_t *out, size_t out_len,
                                         uint64_t *journal, uint8_t *book, size_t book_len);

HISLIP_NOT_NULL HISLIP_USE_RESULT
hislip_kept_done hislip_keep_cut(uint64_t *words, uint8_t *strings, uint32_t connection,
                                 uint8_t *out, size_t out_len,
                                 uint64_t *journal, uint8_t *book, size_t book_len);

HISLIP_NOT_NULL HISLIP_USE_RESULT
hislip_kept_done hislip_keep_clock(uint64_t *words, uint8_t *strings, uint64_t milliseconds,
                                   uint8_t *out, size_t out_len,
                                   uint64_t *journal, uint8_t *book, size_t book_len);

/* Of the bytes shown the first HISLIP_KEPT_SHOWN count, as they do for hislip_answer. */
HISLIP_NOT_NULL HISLIP_USE_RESULT
hislip_kept_answered hislip_keep_answer(uint64_t *words, uint8_t *strings, uint32_t session,
                                        const uint8_t *payload, size_t len, uint8_t end,
                                        const uint8_t *shown, size_t shown_len, uint8_t *out, size_t out_len,
                                        uint64_t *journal, uint8_t *book, size_t book_len);

HISLIP_NOT_NULL HISLIP_USE_RESULT
hislip_kept hislip_keep_status(uint64_t *words, uint8_t *strings, uint8_t status,
                               uint64_t *journal, uint8_t *book, size_t book_len);

/* Setting a watch, kept: the limits by their bits. */
HISLIP_NOT_NULL HISLIP_USE_RESULT
hislip_kept_done hislip_keep_watch_off(uint64_t *words, uint8_t *strings, uint32_t session,
                                       uint64_t *journal, uint8_t *book, size_t book_len);

HISLIP_NOT_NULL HISLIP_USE_RESULT
hislip_kept_done hislip_keep_watch_above(uint64_t *words, uint8_t *strings, uint32_t session, float limit,
                                         uint64_t *journal, uint8_t *book, size_t book_len);

HISLIP_NOT_NULL HISLIP_USE_RESULT
hislip_kept_done hislip_keep_watch_outside(uint64_t *words, uint8_t *strings, uint32_t session, float low, float high,
                                           uint64_t *journal, uint8_t *book, size_t book_len);

/* Setting the list of allowed commands, kept: its text, as it is given. */
HISLIP_NOT_NULL HISLIP_USE_RESULT
hislip_kept_listed hislip_keep_patterns(uint64_t *words, uint8_t *strings, const uint8_t *text, size_t len,
                                        uint64_t *journal, uint8_t *book, size_t book_len);

/* The payload length of a message, from its 16 header bytes: a help for going through frames. */
static inline uint64_t hislip_payload_length(const uint8_t *message)
{
    uint64_t length = 0;
    for (int i = 8; i < HISLIP_HEADER; i++)
        length = length << 8 | message[i];
    return length;
}

#ifdef __cplusplus
}
#endif

#endif
