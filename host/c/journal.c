/* A journal kept, closed and read from C, beside a second server that is told the same events by the plain
 * calls: answers, output and lent memory are the same. */
#include <math.h>
#include <stdio.h>
#include <string.h>

#include "check.h"
#include "hislip_server.h"

#define BOOK 4096
#define ENTRIES 14

static uint64_t words[HISLIP_WORDS], plain_words[HISLIP_WORDS], journal[HISLIP_JOURNAL_WORDS];
static uint8_t strings[HISLIP_STRING_BYTES], plain_strings[HISLIP_STRING_BYTES];
static uint8_t out[HISLIP_OUTPUT], plain_out[HISLIP_OUTPUT], book[BOOK], before[BOOK];

static const uint8_t initialize[16] = "HS\0\0\1\0AA";
static const uint8_t async_initialize[16] = {'H', 'S', HISLIP_TYPE_ASYNC_INITIALIZE, 0, 0, 0, 0, 1};

static const uint8_t data_end[21] = {'H', 'S', HISLIP_TYPE_DATA_END, 0, 0xff, 0xff, 0xff, 0, 0, 0, 0, 0, 0, 0, 0, 5, 'R', 'E', 'A', 'D', '?'};

static int same_servers(void)
{
    return memcmp(words, plain_words, sizeof words) == 0 && memcmp(strings, plain_strings, sizeof strings) == 0
        && memcmp(out, plain_out, sizeof out) == 0;
}

/* Nothing of the book has changed since. */
static int untouched(void) { return memcmp(book, before, sizeof book) == 0; }

static void begin(size_t length)
{
    memset(book, 0xee, sizeof book);
    memcpy(before, book, sizeof book);
    expect("a journal is begun", hislip_journal_new(journal, book, length).kept == HISLIP_KEPT && untouched());
}

static void open_two(void)
{
    hislip_kept_done told;
    for (uint32_t connection = 0; connection < 2; connection++) {
        hislip_open(plain_words, plain_strings, connection);
        told = hislip_keep_open(words, strings, connection, journal, book, sizeof book);
        expect("an opening is kept", told.refusal == 0 && told.kept == HISLIP_KEPT && same_servers());
    }
    memcpy(before, book, sizeof book);
    told = hislip_keep_open(words, strings, 0, journal, book, sizeof book);
    expect("a refused opening is not", told.refusal == HISLIP_REFUSED_ALREADY_OPEN && told.kept == HISLIP_KEPT
                                           && untouched() && journal[2] == 2 && same_servers());
}

static void deliver(const char *what, uint32_t connection, const uint8_t *bytes, size_t length)
{
    hislip_delivery plain = hislip_deliver(plain_words, plain_strings, connection, bytes, length, plain_out, sizeof plain_out);
    hislip_kept_delivery told = hislip_keep_deliver(words, strings, connection, bytes, length, out, sizeof out,
                                                    journal, book, sizeof book);
    expect(what, memcmp(&plain, &told, sizeof plain) == 0 && told.kept == HISLIP_KEPT && same_servers());
}

/* The last entry is the book's end, and its body is these bytes. */
static int last_body(const void *bytes, size_t length)
{
    hislip_entry entry = hislip_journal_forward(book, journal[0], journal[1]);
    return entry.found && entry.next == journal[0] && entry.length == length && memcmp(book + entry.body, bytes, length) == 0;
}

/* The same watch set on both servers: the same answer. */
static int same_watch(hislip_done plain, hislip_kept_done told, uint64_t refusal)
{
    return plain.refusal == refusal && told.refusal == refusal && plain.output == told.output && told.kept == HISLIP_KEPT
        && same_servers();
}

static void watches(void)
{
    expect("a watch above a limit is kept",
           same_watch(hislip_watch_above(plain_words, plain_strings, 1, 2.5f),
                      hislip_keep_watch_above(words, strings, 1, 2.5f, journal, book, sizeof book), 0)
               && last_body("\7\0\0\0\1\x40\x20\0\0", 9));
    expect("a watch outside two limits is kept",
           same_watch(hislip_watch_outside(plain_words, plain_strings, 1, -1.0f, INFINITY),
                      hislip_keep_watch_outside(words, strings, 1, -1.0f, INFINITY, journal, book, sizeof book), 0)
               && last_body("\10\0\0\0\1\xbf\x80\0\0\x7f\x80\0\0", 13));
    expect("a watch off is kept", same_watch(hislip_watch_off(plain_words, plain_strings, 1),
                                             hislip_keep_watch_off(words, strings, 1, journal, book, sizeof book), 0)
                                      && last_body("\6\0\0\0\1", 5));
}

static void refused_watches(void)
{
    uint64_t at = journal[0], count = journal[2];
    memcpy(before, book, sizeof book);
    expect("a watch of no session is refused",
           same_watch(hislip_watch_off(plain_words, plain_strings, 2),
                      hislip_keep_watch_off(words, strings, 2, journal, book, sizeof book), HISLIP_REFUSED_NO_SESSION));
    expect("a limit that is not a number is refused",
           same_watch(hislip_watch_above(plain_words, plain_strings, 1, NAN),
                      hislip_keep_watch_above(words, strings, 1, NAN, journal, book, sizeof book), HISLIP_REFUSED_BAD_LIMITS));
    expect("a low limit above the high one is refused",
           same_watch(hislip_watch_outside(plain_words, plain_strings, 1, 2, 1),
                      hislip_keep_watch_outside(words, strings, 1, 2, 1, journal, book, sizeof book), HISLIP_REFUSED_BAD_LIMITS));
    expect("nothing of them is written", untouched() && journal[0] == at && journal[2] == count);
}

/* The same list set on both servers: the same answer, with what is bad in it. */
static int same_list(const char *text, size_t length, uint64_t refusal, uint64_t pattern, uint64_t place)
{
    hislip_listed plain = hislip_patterns(plain_words, plain_strings, (const uint8_t *)text, length);
    hislip_kept_listed told = hislip_keep_patterns(words, strings, (const uint8_t *)text, length, journal, book, sizeof book);
    return memcmp(&plain, &told, sizeof plain) == 0 && told.refusal == refusal && told.pattern == pattern
        && told.place == place && told.kept == HISLIP_KEPT && same_servers();
}

static void lists(void)
{
    static const char list[] = "*IDN?\nREAD?", bad[] = "*IDN?\nMEASure[:VOLTage?\n";
    char many[HISLIP_PATTERNS + 1];
    uint64_t at, count;
    memset(many, '\n', sizeof many);
    expect("a list is kept, its text", same_list(list, sizeof list - 1, 0, 0, 0)
                                           && last_body("\11\0\0\0\13*IDN?\nREAD?", 5 + sizeof list - 1));
    at = journal[0], count = journal[2];
    memcpy(before, book, sizeof book);
    expect("a bad pattern is refused, with its place", same_list(bad, sizeof bad - 1, HISLIP_REFUSED_BAD_PATTERN, 1, 16));
    expect("a pattern that stops short is refused at its end", same_list(bad, 21, HISLIP_REFUSED_BAD_PATTERN, 1, 15));
    expect("33 patterns are refused", same_list(many, sizeof many, HISLIP_REFUSED_TOO_MANY_PATTERNS, 0, 0));
    expect("nothing of them is written", untouched() && journal[0] == at && journal[2] == count);
}

static void answer(void)
{
    static const uint8_t reading[] = "+1.0E+1";
    hislip_answered plain = hislip_answer(plain_words, plain_strings, 1, reading, 7, 1, data_end, 3, plain_out, sizeof plain_out);
    hislip_kept_answered told = hislip_keep_answer(words, strings, 1, reading, 7, 1, data_end, 3, out, sizeof out,
                                                   journal, book, sizeof book);
    expect("an answer is kept", memcmp(&plain, &told, sizeof plain) == 0 && told.output == 24 && told.kept == HISLIP_KEPT && same_servers());
}

static void other_events(void)
{
    hislip_done plain = hislip_clock(plain_words, plain_strings, 1000, plain_out, sizeof plain_out);
    hislip_kept_done told = hislip_keep_clock(words, strings, 1000, out, sizeof out, journal, book, sizeof book);
    hislip_kept_answered answered = hislip_keep_answer(words, strings, 1, (const uint8_t *)"4", 1, 1, (const uint8_t *)"", 0,
                                                       out, sizeof out, journal, book, sizeof book);
    expect("a reading of the clock is kept", memcmp(&plain, &told, sizeof plain) == 0 && told.kept == HISLIP_KEPT);
    expect("an answer to nobody is not", answered.refusal == HISLIP_REFUSED_NOTHING_ASKED && answered.kept == HISLIP_KEPT);
    hislip_status(plain_words, plain_strings, 7);
    expect("a status is kept", hislip_keep_status(words, strings, 7, journal, book, sizeof book).kept == HISLIP_KEPT);
    plain = hislip_cut(plain_words, plain_strings, 1, plain_out, sizeof plain_out);
    told = hislip_keep_cut(words, strings, 1, out, sizeof out, journal, book, sizeof book);
    expect("a cut is kept", memcmp(&plain, &told, sizeof plain) == 0 && told.kept == HISLIP_KEPT && same_servers());
}

/* The entries forwards, and of a closed book backwards: tags as expected, and the same places. */
static void read_both(size_t length, const uint8_t tags[ENTRIES])
{
    uint64_t bodies[ENTRIES], count = 0, at = 0, good = 1;
    for (hislip_entry entry; (entry = hislip_journal_forward(book, length, at)).found; at = entry.next, count++) {
        if (count < ENTRIES)
            bodies[count] = entry.body;
        good = good && count < ENTRIES && book[entry.body] == tags[count];
    }
    expect("the forward reader finds every entry", good && count == ENTRIES && at == length - 12);
    at = length - 12;
    for (hislip_entry entry; (entry = hislip_journal_backward(book, length, at)).found; at = entry.next)
        good = good && count > 0 && entry.body == bodies[--count];
    expect("the backward reader finds them, last first", good && count == 0 && at == 0);
}

static void no_room(void)
{
    uint64_t at;
    begin(40);
    hislip_new(words, strings, 0x4141, HISLIP_SYNCHRONIZED);
    expect("an entry of 17 bytes fits 40", hislip_keep_open(words, strings, 0, journal, book, 40).kept == HISLIP_KEPT);
    memcpy(before, book, sizeof book);
    at = journal[0];
    expect("a second leaves no room for the trailer",
           hislip_keep_open(words, strings, 1, journal, book, 40).kept == HISLIP_KEPT_NO_ROOM && untouched() && journal[0] == at);
    expect("what it did stands", hislip_open(words, strings, 1).refusal == HISLIP_REFUSED_ALREADY_OPEN);
    expect("the journal can be closed", hislip_journal_close(journal, book, 40).kept == HISLIP_KEPT && journal[0] == 29);
    memcpy(before, book, sizeof book);
    expect("a closed journal says so first", hislip_keep_status(words, strings, 1, journal, book, 40).kept == HISLIP_KEPT_CLOSED
                                                 && hislip_journal_close(journal, book, 40).kept == HISLIP_KEPT_CLOSED && untouched());
    expect("eleven bytes are no book", hislip_journal_new(journal, book, 11).kept == HISLIP_KEPT_NO_ROOM && untouched());
}

int main(void)
{
    static const uint8_t tags[ENTRIES] = {0, 0, 1, 1, 1, 7, 8, 6, 9, 1, 4, 3, 5, 2};
    hislip_new(words, strings, 0x4141, HISLIP_SYNCHRONIZED);
    hislip_new(plain_words, plain_strings, 0x4141, HISLIP_SYNCHRONIZED);
    begin(sizeof book);
    open_two();
    deliver("too few bytes are an event", 0, initialize, 9);
    deliver("Initialize is kept", 0, initialize, sizeof initialize);
    deliver("AsyncInitialize is kept", 1, async_initialize, sizeof async_initialize);
    watches();
    refused_watches();
    lists();
    deliver("a command that the list allows is kept", 0, data_end, sizeof data_end);
    answer();
    other_events();
    expect("so many entries are written", journal[2] == ENTRIES);
    expect("the journal is closed", hislip_journal_close(journal, book, sizeof book).kept == HISLIP_KEPT && journal[3] == 1);
    read_both(journal[0], tags);
    no_room();
    return verdict();
}
