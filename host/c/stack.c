/* How much stack the calls take that read patterns and commands, with the deepest and the widest ones: each
 * call runs on a stack of its own, painted before, and what has lost its paint was used. */
#define _XOPEN_SOURCE 700
#include <string.h>
#include <ucontext.h>

#include "check.h"
#include "hislip_server.h"

enum { STACK = 1 << 20, MOST = 16 * 1024, PAINT = 0xa5 };

static uint64_t words[HISLIP_WORDS];
static uint8_t strings[HISLIP_STRING_BYTES], out[HISLIP_OUTPUT], stack[STACK];
static ucontext_t here, there;

/* What a call is given, and what it says. */
static uint8_t text[HISLIP_PATTERNS * (HISLIP_PATTERN + 1)], message[HISLIP_HEADER + HISLIP_PAYLOAD];
static size_t text_length, message_length;
static uint64_t told;

static void nothing(void)
{
}

static void set_list(void)
{
    told = hislip_patterns(words, strings, text, text_length).refusal;
}

/* Each delivery has the number that is expected. */
static void deliver(void)
{
    static uint8_t number;
    message[7] = number;
    number = (uint8_t)(number + 2);
    told = hislip_deliver(words, strings, 0, message, message_length, out, sizeof out).outcome;
}

/* Bytes of stack that a call uses. */
static size_t used(void (*call)(void))
{
    size_t untouched = 0;
    memset(stack, PAINT, sizeof stack);
    getcontext(&there);
    there.uc_stack.ss_sp = stack;
    there.uc_stack.ss_size = sizeof stack;
    there.uc_link = &here;
    makecontext(&there, call, 0);
    swapcontext(&here, &there);
    while (untouched < sizeof stack && stack[untouched] == PAINT)
        untouched++;
    return sizeof stack - untouched;
}

static void expect_little(const char *what, void (*call)(void))
{
    size_t base = used(nothing), bytes;
    used(call); /* what a first call alone does is not counted */
    bytes = used(call) - base;
    printf("%s: %u bytes\n", what, (unsigned)bytes);
    expect("  at most 16 KiB", bytes <= MOST);
}

/* A whole list of this pattern. */
static void list_of(const char *pattern)
{
    text_length = 0;
    for (int i = 0; i < HISLIP_PATTERNS; i++) {
        memcpy(text + text_length, pattern, strlen(pattern));
        text_length += strlen(pattern);
        text[text_length++] = '\n';
    }
}

/* DataEND with A, and :A so many times. */
static void command(size_t times)
{
    static const uint8_t head[] = {'H', 'S', HISLIP_TYPE_DATA_END, 0, 0xff, 0xff, 0xff};
    size_t length = 1 + 2 * times;
    memset(message, 0, sizeof message);
    memcpy(message, head, sizeof head);
    message[14] = (uint8_t)(length >> 8);
    message[15] = (uint8_t)length;
    message[HISLIP_HEADER] = 'A';
    for (size_t i = 0; i < times; i++)
        memcpy(message + HISLIP_HEADER + 1 + 2 * i, ":A", 2);
    message_length = HISLIP_HEADER + length;
}

static void open_session(void)
{
    static const uint8_t initialize[16] = "HS\0\0\1\0AA", join[16] = "HS\x11\0\0\0\0\1";
    uint64_t output;
    hislip_new(words, strings, 0x4141, HISLIP_SYNCHRONIZED);
    hislip_open(words, strings, 0);
    hislip_open(words, strings, 1);
    output = hislip_deliver(words, strings, 0, initialize, 16, out, sizeof out).output;
    output += hislip_deliver(words, strings, 1, join, 16, out, sizeof out).output;
    expect("a session", output == 2 * (1 + HISLIP_HEADER));
}

int main(void)
{
    static const char *const patterns[] = {
        "A[:A[:A[:A[:A[:A[:A[:A[:A]]]]]]]]", "A[[[[[[[[:A]]]]]]]][[[[[[[[:A]]]]]]]]",
        "A[:A][:A][:A][:A][:A][:A][:A][:A][:A][:A][:A][:A][:A][:A][:A][:A][:A][:A][:A][:A][:A][:A][:A][:A]",
    };
    open_session();
    for (size_t i = 0; i < sizeof patterns / sizeof *patterns; i++) {
        list_of(patterns[i]);
        expect_little(patterns[i], set_list);
        expect("  and it is set", told == HISLIP_ACCEPTED);
        command(500);
        expect_little("  a command of 1,001 bytes", deliver);
        expect("  which is not allowed", told == HISLIP_ERROR_SENT && out[4] == HISLIP_NOT_ALLOWED);
        command(5);
        expect_little("  a command of 11 bytes", deliver);
    }
    return verdict();
}
