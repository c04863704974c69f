/* An example of use: the header's example, then two programs that share the instrument, each answer
 * checked. */
#include <stdio.h>
#include <string.h>

#include "check.h"
#include "hislip_server.h"

static uint64_t words[HISLIP_WORDS];
static uint8_t strings[HISLIP_STRING_BYTES], out[HISLIP_OUTPUT];

static int first_session(void)
{
    static const uint8_t initialize[16] = "HS\0\0\1\0AA";
    hislip_delivery told;
    if (hislip_words() != HISLIP_WORDS || hislip_string_bytes() != HISLIP_STRING_BYTES)
        return 1; // header and archive are not of one version
    hislip_new(words, strings, 0x4141, HISLIP_SYNCHRONIZED);
    if (hislip_open(words, strings, 0).refusal != HISLIP_ACCEPTED)
        return 1;
    told = hislip_deliver(words, strings, 0, initialize, sizeof initialize, out, sizeof out);
    if (told.outcome != HISLIP_ACTED_ON || told.session != 1 || told.taken != 16)
        return 1;
    for (uint64_t at = 0; at < told.output;) {
        uint64_t length = HISLIP_HEADER + hislip_payload_length(out + at + 1);
        printf("to connection %u: %u bytes, type %u\n", out[at], (unsigned)length, out[at + 3]);
        at += 1 + length;
    }
    return 0;
}

/* A message of up to 8 payload bytes, delivered. */
static hislip_delivery send(uint32_t connection, uint8_t type, uint8_t code, uint32_t parameter,
                            const char *payload)
{
    uint8_t message[HISLIP_HEADER + 8] = {'H', 'S', type, code, (uint8_t)(parameter >> 24),
                           (uint8_t)(parameter >> 16), (uint8_t)(parameter >> 8), (uint8_t)parameter};
    size_t length = strlen(payload);
    message[15] = (uint8_t)length;
    memcpy(message + HISLIP_HEADER, payload, length);
    return hislip_deliver(words, strings, connection, message, HISLIP_HEADER + length, out, sizeof out);
}

/* The output is one frame with these fields and no payload. */
static int one_frame(uint64_t output, uint8_t connection, uint8_t type, uint8_t code, uint32_t parameter)
{
    uint8_t frame[1 + HISLIP_HEADER] = {connection, 'H', 'S', type, code, (uint8_t)(parameter >> 24),
                         (uint8_t)(parameter >> 16), (uint8_t)(parameter >> 8), (uint8_t)parameter};
    return output == sizeof frame && memcmp(out, frame, sizeof frame) == 0;
}

static void open_both(void)
{
    hislip_delivery told;
    hislip_open(words, strings, 1);
    told = send(1, HISLIP_TYPE_ASYNC_INITIALIZE, 0, 1, "");
    expect("AsyncInitialize is answered with the vendor",
           one_frame(told.output, 1, HISLIP_TYPE_ASYNC_INITIALIZE_RESPONSE, 0, 0x4141));
    hislip_open(words, strings, 2);
    told = send(2, HISLIP_TYPE_INITIALIZE, 0, 0x01005858, "hislip0");
    expect("the second program gets SessionID 2",
           one_frame(told.output, 2, HISLIP_TYPE_INITIALIZE_RESPONSE, 0, 0x01000002));
    hislip_open(words, strings, 3);
    told = send(3, HISLIP_TYPE_ASYNC_INITIALIZE, 0, 2, "");
    expect("and its second channel", told.outcome == HISLIP_ACTED_ON && told.session == 2);
}

/* A alone holds a lock, the exclusive one, since the clock read 0. */
static void who_holds(void)
{
    static hislip_row rows[HISLIP_SESSIONS];
    hislip_counted counted = hislip_holders(words, strings, rows, HISLIP_SESSIONS);
    expect("one session holds a lock", counted.refusal == HISLIP_ACCEPTED && counted.rows == 1);
    expect("A, the exclusive one", rows[0].session == 1 && rows[0].exclusive == 1 && rows[0].shared == 0);
    expect("its first, since 0", rows[0].granted_at == 0 && rows[0].grants == 1);
    counted = hislip_holders(words, strings, rows, 0);
    expect("no row is too few", counted.refusal == HISLIP_REFUSED_LIST_TOO_SHORT && counted.rows == 0);
}

static void lock_and_hold(void)
{
    hislip_delivery told = send(1, HISLIP_TYPE_ASYNC_LOCK, 1, 0, "");
    hislip_deadlines due;
    hislip_done done;
    expect("A gets the exclusive lock",
           one_frame(told.output, 1, HISLIP_TYPE_ASYNC_LOCK_RESPONSE, 1, 0));
    told = send(3, HISLIP_TYPE_ASYNC_LOCK, 1, 0, "");
    expect("B does not", one_frame(told.output, 3, HISLIP_TYPE_ASYNC_LOCK_RESPONSE, 0, 0));
    told = send(2, HISLIP_TYPE_DATA, 0, 0xffffff00, "x");
    expect("B's Data is held", told.outcome == HISLIP_HELD && told.taken == 0 && told.output == 0);
    done = hislip_clock(words, strings, 1000, out, sizeof out);
    expect("the clock reads 1,000", done.refusal == HISLIP_ACCEPTED && done.output == 0);
    told = send(3, HISLIP_TYPE_ASYNC_LOCK, 1, 500, "");
    expect("B waits", told.outcome == HISLIP_ACTED_ON && told.output == 0);
    due = hislip_deadline(words, strings);
    expect("nothing is due before 1,500", due.waiting == 1 && due.deadline == 1500);
    done = hislip_clock(words, strings, 1499, out, sizeof out);
    expect("still at 1,499", done.refusal == 0 && done.output == 0);
    done = hislip_clock(words, strings, 1500, out, sizeof out);
    expect("answered 0 at 1,500", one_frame(done.output, 3, HISLIP_TYPE_ASYNC_LOCK_RESPONSE, 0, 0));
    due = hislip_deadline(words, strings);
    expect("and nobody waits", due.waiting == 0 && due.deadline == 0);
    done = hislip_clock(words, strings, 1499, out, sizeof out);
    expect("the clock does not go back", done.refusal == HISLIP_REFUSED_CLOCK_BACKWARDS);
    who_holds();
}

static void ask_and_answer(void)
{
    static const uint8_t nothing[1] = {0};
    hislip_delivery told = send(0, HISLIP_TYPE_DATA_END, 0, 0xffffff00, "*IDN?");
    hislip_sized sized = hislip_client_size(words, strings, 1);
    hislip_answered answered;
    hislip_done done;
    expect("A takes answers of 1,024 bytes", sized.refusal == HISLIP_ACCEPTED && sized.size == 1024);
    expect("A asks", told.outcome == HISLIP_ACTED_ON && told.session == 1 && told.taken == 21);
    answered = hislip_answer(words, strings, 1, nothing, 0, 1, nothing, 0, out, sizeof out);
    expect("the answer carries the question's number",
           one_frame(answered.output, 0, HISLIP_TYPE_DATA_END, 0, 0xffffff00));
    answered = hislip_answer(words, strings, 1, nothing, 0, 1, nothing, 0, out, sizeof out);
    expect("and is sent once",
           answered.refusal == HISLIP_REFUSED_NOTHING_ASKED && answered.output == 0);
    hislip_status(words, strings, 0x41);
    told = send(1, HISLIP_TYPE_ASYNC_STATUS_QUERY, 0, 0xffffff00, "");
    expect("status 41 with an answer sent is 51",
           one_frame(told.output, 1, HISLIP_TYPE_ASYNC_STATUS_RESPONSE, 0x51, 0));
    done = hislip_cut(words, strings, 0, out, sizeof out - 1);
    expect("a buffer of 2,047 is refused", done.refusal == HISLIP_REFUSED_SHORT_BUFFER);
    done = hislip_cut(words, strings, 0, out, sizeof out);
    expect("A's cable drops", done.refusal == HISLIP_ACCEPTED && done.output == 0);
    sized = hislip_client_size(words, strings, 1);
    expect("and it takes none", sized.refusal == HISLIP_REFUSED_NO_SESSION && sized.size == 0);
    told = send(2, HISLIP_TYPE_DATA, 0, 0xffffff00, "x");
    expect("and B's Data goes through", told.outcome == HISLIP_ACTED_ON && told.taken == 17);
}

/* B's readings come as a block of IEEE 754 singles, big endian; 2.5 is above the limit. */
static void watch_readings(void)
{
    static const uint8_t readings[] = "#18\x3f\x80\0\0\x40\x20\0"; /* 1, then 2.5 */
    static const uint8_t nothing[1] = {0};
    hislip_delivery told = send(2, HISLIP_TYPE_TRIGGER, 0, 0xffffff02, "");
    hislip_record record = hislip_readings(words, strings, 2);
    hislip_answered answered;
    hislip_done done = hislip_watch_outside(words, strings, 2, 2.0f, 1.0f);
    expect("B asks for readings", told.outcome == HISLIP_ACTED_ON && told.session == 2);
    expect("and had none yet", record.refusal == HISLIP_ACCEPTED && record.seen == 0);
    expect("low above high is refused", done.refusal == HISLIP_REFUSED_BAD_LIMITS);
    done = hislip_watch_above(words, strings, 2, 2.0f);
    expect("a watch above 2", done.refusal == HISLIP_ACCEPTED && done.output == 0);
    answered = hislip_answer(words, strings, 2, readings, sizeof readings, 0, nothing, 0, out, sizeof out);
    expect("2.5 requests service behind the answer",
           answered.output == 2 * (1 + HISLIP_HEADER) + sizeof readings
               && out[1 + HISLIP_HEADER + sizeof readings] == 3
               && out[answered.output - 14] == HISLIP_TYPE_ASYNC_SERVICE_REQUEST
               && out[answered.output - 13] == (0x41 | 0x50));
    answered = hislip_answer(words, strings, 2, readings, sizeof readings, 1, nothing, 0, out, sizeof out);
    expect("once", answered.output == 1 + HISLIP_HEADER + sizeof readings);
    record = hislip_readings(words, strings, 2);
    expect("and is recorded", record.seen == 1 && record.last == 2.5f && record.lowest == 1.0f
                                  && record.highest == 2.5f);
    done = hislip_watch_off(words, strings, 1);
    expect("A has no watch any more", done.refusal == HISLIP_REFUSED_NO_SESSION);
}

static hislip_listed allow(const char *text)
{
    return hislip_patterns(words, strings, (const uint8_t *)text, strlen(text));
}

/* Two commands are allowed; what else B sends is answered Error 128. */
static void allowed_commands(void)
{
    hislip_delivery told;
    hislip_listed listed = allow("*IDN?\nMEASure[:VOLTage[:DC]]?\n");
    expect("two commands are allowed", listed.refusal == HISLIP_ACCEPTED);
    told = send(2, HISLIP_TYPE_DATA_END, 1, 0xffffff04, "MEAS?");
    expect("the short form of one acts", told.outcome == HISLIP_ACTED_ON && told.session == 2);
    told = send(2, HISLIP_TYPE_DATA_END, 0, 0xffffff06, "MEASU?");
    expect("nothing between short and long does",
           told.outcome == HISLIP_ERROR_SENT
               && one_frame(told.output, 2, HISLIP_TYPE_ERROR, HISLIP_NOT_ALLOWED, 0));
    listed = allow("*RST\nMEASure[:VOLTage?]\n");
    expect("a bad pattern is told with its place", listed.refusal == HISLIP_REFUSED_BAD_PATTERN
                                                      && listed.pattern == 1 && listed.place == 16);
    told = send(2, HISLIP_TYPE_DATA_END, 0, 0xffffff08, "*idn? 1");
    expect("and the list before stays", told.outcome == HISLIP_ACTED_ON);
    listed = allow("");
    told = send(2, HISLIP_TYPE_DATA_END, 0, 0xffffff0a, "*IDN?");
    expect("an empty list allows nothing",
           listed.refusal == HISLIP_ACCEPTED && told.outcome == HISLIP_ERROR_SENT);
}

int main(void)
{
    expect("the first session opens", first_session() == 0);
    open_both();
    lock_and_hold();
    ask_and_answer();
    watch_readings();
    allowed_commands();
    return verdict();
}
