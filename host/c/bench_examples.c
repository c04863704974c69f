/* The bench examples of the scope paper (01), all of them: one table of calls, each with its whole
 * answer and every byte of its output. What follows the output must keep its value. */
#include <stdlib.h>
#include <string.h>

#include "check.h"
#include "hislip_server.h"

enum event { FRESH, OPEN, DELIVER, CLOCK, ANSWER, STATUS };

typedef struct {
    enum event event;
    uint32_t number; /* connection, session, milliseconds or status byte */
    const char *bytes; /* delivered or answered, */
    size_t length, more; /* and so many 'x' behind them */
    uint64_t outcome, session, taken;
    const char *output;
    size_t output_length;
    const char *what; /* the example; without it, a step on the way to one */
} row;

#define BYTES(text) text, sizeof(text) - 1
#define NONE "", 0
/* A delivery, what becomes of it, and what it or another call sends. */
#define ON(connection, message) DELIVER, connection, BYTES(message)
#define ACTED(session, taken) HISLIP_ACTED_ON, session, taken
#define ERROR_SENT HISLIP_ERROR_SENT, 0, 16
#define HELD HISLIP_HELD, 0, 0
#define SENDS(output) BYTES(output)
/* A call that is no delivery. */
#define CALL(event, number) event, number, NONE, 0, 0, 0, 0
#define STEP(event, number) {CALL(event, number), NONE, 0}

/* Messages as bytes. */
#define ZEROS "\0\0\0\0\0\0\0\0"
#define LENGTH_3 "\0\0\0\0\0\0\0\3"
#define LENGTH_1024 "\0\0\0\0\0\0\4\0"
#define LENGTH_1025 "\0\0\0\0\0\0\4\1"
#define FIRST_ID "\xff\xff\xff\x00"
#define BEFORE_FIRST "\xff\xff\xfe\xfe" /* what a release names before the first message */
#define INITIALIZE "\x48\x53\x00\x00\x01\x00\x41\x41" ZEROS
#define INITIALIZED(id) "\x48\x53\x01\x00\x01\x00\x00" id ZEROS
#define JOIN(id) "\x48\x53\x11\x00\x00\x00\x00" id ZEROS
#define JOINED "\x48\x53\x12\x00\x00\x00\x41\x41" ZEROS
#define FATAL(code) "\x48\x53\x02" code "\0\0\0\0" ZEROS
#define ERROR(code) "\x48\x53\x03" code "\0\0\0\0" ZEROS
#define EXCLUSIVE(timeout) "\x48\x53\x04\x01" timeout ZEROS
#define SHARED(string) "\x48\x53\x04\x01\0\0\0\0" LENGTH_3 string
#define RELEASE "\x48\x53\x04\x00" BEFORE_FIRST ZEROS
#define TOLD(code) "\x48\x53\x05" code "\0\0\0\0" ZEROS
#define DATA "\x48\x53\x06\x00" FIRST_ID LENGTH_3 "1.0"
#define DATA_END(length) "\x48\x53\x07\x00" FIRST_ID length
#define TYPE(type) "\x48\x53" type "\x00\0\0\0\0" ZEROS
#define STATUS_QUERY "\x48\x53\x15\x00" FIRST_ID ZEROS
#define STATUS_RESPONSE(status) "\x48\x53\x16" status "\0\0\0\0" ZEROS

/* A session on two connections: numbers, then the same as bytes. */
#define SESSION(s, a, id, s_byte, a_byte, id_byte) \
    STEP(OPEN, s), STEP(OPEN, a), \
    {ON(s, INITIALIZE), 0, ACTED(id, 16), SENDS(s_byte INITIALIZED(id_byte)), 0}, \
    {ON(a, JOIN(id_byte)), 0, ACTED(id, 16), SENDS(a_byte JOINED), 0}
#define A SESSION(0, 1, 1, "\0", "\1", "\1")
#define B SESSION(2, 3, 2, "\2", "\3", "\2")
#define C SESSION(4, 5, 3, "\4", "\5", "\3")

static const row table[] = {
    STEP(FRESH, 0), STEP(OPEN, 0), STEP(OPEN, 1),
    {ON(0, INITIALIZE), 0, ACTED(1, 16), SENDS("\0" INITIALIZED("\1")), "Initialize"},
    {ON(1, JOIN("\1")), 0, ACTED(1, 16), SENDS("\1" JOINED), "AsyncInitialize"},
    {ON(0, "HS\7\0\0\0\0" ZEROS), 0, HISLIP_MORE_NEEDED, 0, 0, NONE, "15 header bytes"},
    {ON(0, DATA_END(LENGTH_1024)), 1024, ACTED(1, 1040), NONE, "length 1,024 accepted"},
    {ON(0, DATA_END(LENGTH_1025)), 1025, ERROR_SENT, SENDS("\0" ERROR("\4")), "1,025 is Error 4"},
    {ON(0, ""), 1025, HISLIP_SKIPPED, 0, 1025, NONE, 0},
    {ON(0, TYPE("\x27")), 0, ERROR_SENT, SENDS("\0" ERROR("\1")), "type 39 is Error 1"},
    {ON(1, TYPE("\x80")), 0, ERROR_SENT, SENDS("\1" ERROR("\3")), "type 128 is Error 3"},
    {ON(0, "HT\7\0\0\0\0\0" ZEROS), 0, HISLIP_CLOSED, 1, 0,
     SENDS("\0" FATAL("\1") "\1" FATAL("\1")), "HT is FatalError 1"},

    STEP(FRESH, 0), A, B,
    {ON(1, EXCLUSIVE("\0\0\0\0")), 0, ACTED(1, 16), SENDS("\1" TOLD("\1")), "A exclusive"},
    {ON(3, EXCLUSIVE("\0\0\0\0")), 0, ACTED(2, 16), SENDS("\3" TOLD("\0")), "B exclusive, timeout 0: 0"},
    {ON(2, DATA), 0, HELD, NONE, "B's Data is held"},

    STEP(FRESH, 0), A, B, C,
    {ON(1, SHARED("cal")), 0, ACTED(1, 19), SENDS("\1" TOLD("\1")), "A shared \"cal\": 1"},
    {ON(3, SHARED("cal")), 0, ACTED(2, 19), SENDS("\3" TOLD("\1")), "B shared \"cal\": 1"},
    {ON(5, SHARED("Cal")), 0, ACTED(3, 19), SENDS("\5" TOLD("\0")), "C \"Cal\", timeout 0: 0"},
    {ON(1, EXCLUSIVE("\0\0\0\0")), 0, ACTED(1, 16), SENDS("\1" TOLD("\1")), "A exclusive: 1"},
    {ON(2, DATA), 0, HELD, NONE, "B is then held"},
    {ON(1, RELEASE), 0, ACTED(1, 16), SENDS("\1" TOLD("\1")), "A releases: 1"},
    {ON(1, RELEASE), 0, ACTED(1, 16), SENDS("\1" TOLD("\2")), "A releases: 2"},
    {ON(1, RELEASE), 0, ACTED(1, 16), SENDS("\1" TOLD("\3")), "A releases: 3"},

    STEP(FRESH, 0), A, B, STEP(CLOCK, 1000),
    {ON(1, EXCLUSIVE("\0\0\0\0")), 0, ACTED(1, 16), SENDS("\1" TOLD("\1")), 0},
    {ON(3, EXCLUSIVE("\0\0\1\xf4")), 0, ACTED(2, 16), NONE, "at 1,000 B waits 500"},
    {CALL(CLOCK, 1499), NONE, "still waiting at 1,499"},
    {CALL(CLOCK, 1500), SENDS("\3" TOLD("\0")), "answered 0 at 1,500"},

    STEP(FRESH, 0), A, STEP(STATUS, 0x41),
    {ON(0, DATA_END(LENGTH_3) "CAL"), 0, ACTED(1, 19), NONE, 0},
    {ANSWER, 1, BYTES("1.0"), 0, 0, 0, 0, SENDS("\0" DATA_END(LENGTH_3) "1.0"), "an answer is sent"},
    {ON(1, STATUS_QUERY), 0, ACTED(1, 16), SENDS("\1" STATUS_RESPONSE("\x51")), "status 41 is then 51"},
};

static uint64_t *words;
static uint8_t *strings;
static uint8_t bytes[2048], out[HISLIP_OUTPUT], expected[HISLIP_OUTPUT];

/* The other calls' answer as a delivery's, with the fields that they do not have 0. */
static hislip_delivery widened(hislip_done done)
{
    hislip_delivery told = {0};
    told.refusal = done.refusal;
    told.output = done.output;
    return told;
}

/* The same for an answer; one that was withheld is no answer of these examples. */
static hislip_delivery answered(hislip_answered done)
{
    hislip_done sent = {done.refusal + done.withheld, done.output};
    return widened(sent);
}

static hislip_delivery call(const row *row, size_t length)
{
    hislip_delivery none = {0};
    switch (row->event) {
    case FRESH:
        hislip_new(words, strings, 0x4141, HISLIP_SYNCHRONIZED);
        return none;
    case OPEN:
        return widened(hislip_open(words, strings, row->number));
    case DELIVER:
        return hislip_deliver(words, strings, row->number, bytes, length, out, sizeof out);
    case CLOCK:
        return widened(hislip_clock(words, strings, row->number, out, sizeof out));
    case ANSWER:
        return answered(hislip_answer(words, strings, row->number, bytes, length, 1,
                                      (const uint8_t *)"", 0, out, sizeof out));
    default:
        hislip_status(words, strings, (uint8_t)row->number);
        return none;
    }
}

/* Runs a row; true if its whole answer and every byte of the buffer are as the row says. */
static int holds(const row *row)
{
    hislip_delivery told;
    memcpy(bytes, row->bytes, row->length);
    memset(bytes + row->length, 'x', row->more);
    memset(out, 0xee, sizeof out);
    memset(expected, 0xee, sizeof expected);
    memcpy(expected, row->output, row->output_length);
    told = call(row, row->length + row->more);
    return told.refusal == HISLIP_ACCEPTED && told.outcome == row->outcome
        && told.session == row->session && told.taken == row->taken
        && told.output == row->output_length && memcmp(out, expected, sizeof out) == 0;
}

int main(void)
{
    words = malloc(hislip_words() * sizeof *words);
    strings = malloc(hislip_string_bytes());
    if (!words || !strings)
        return 2;
    for (size_t i = 0; i < sizeof table / sizeof *table; i++) {
        int as_expected = holds(&table[i]);
        if (table[i].what || !as_expected)
            expect(table[i].what ? table[i].what : "a step on the way", as_expected);
    }
    free(words);
    free(strings);
    return verdict();
}
