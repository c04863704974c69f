/* Every number and name of the headers, one a line, for the test that holds the Rust wrapper to them. */
#include <inttypes.h>
#include <stdio.h>

#include "hislip_names.h"

static void sizes(void)
{
    const uint64_t values[] = {HISLIP_WORDS, HISLIP_STRING_BYTES, HISLIP_SESSIONS, HISLIP_CONNECTIONS,
                               HISLIP_HEADER, HISLIP_PAYLOAD, HISLIP_LOCK_STRING, HISLIP_OUTPUT,
                               HISLIP_CLOCK_MAX, HISLIP_PATTERNS, HISLIP_PATTERN, HISLIP_NOT_ALLOWED};
    for (size_t i = 0; i < sizeof values / sizeof *values; i++)
        printf("size %" PRIu64 "\n", values[i]);
    printf("lent %" PRIu64 " %" PRIu64 "\n", hislip_words(), hislip_string_bytes());
    printf("version %s %d.%d.%d\n", HISLIP_VERSION, HISLIP_VERSION_MAJOR, HISLIP_VERSION_MINOR,
           HISLIP_VERSION_PATCH);
}

/* Where the fields of a row lie, in their order, and how long it is. */
static void row(void)
{
    const size_t places[] = {offsetof(hislip_row, session), offsetof(hislip_row, exclusive),
                             offsetof(hislip_row, shared), offsetof(hislip_row, granted_at),
                             offsetof(hislip_row, grants), sizeof(hislip_row)};
    for (size_t i = 0; i < sizeof places / sizeof *places; i++)
        printf("row %u\n", (unsigned)places[i]);
}

/* The same of a record of readings. */
static void record(void)
{
    const size_t places[] = {offsetof(hislip_record, refusal), offsetof(hislip_record, seen),
                             offsetof(hislip_record, last), offsetof(hislip_record, lowest),
                             offsetof(hislip_record, highest), sizeof(hislip_record)};
    for (size_t i = 0; i < sizeof places / sizeof *places; i++)
        printf("record %u\n", (unsigned)places[i]);
}

/* The same of the answer to a list of patterns. */
static void listed(void)
{
    const size_t places[] = {offsetof(hislip_listed, refusal), offsetof(hislip_listed, pattern),
                             offsetof(hislip_listed, place), sizeof(hislip_listed)};
    for (size_t i = 0; i < sizeof places / sizeof *places; i++)
        printf("listed %u\n", (unsigned)places[i]);
}

/* The named types, in the order of their numbers. */
static const uint8_t types[] = {
    HISLIP_TYPE_INITIALIZE, HISLIP_TYPE_INITIALIZE_RESPONSE, HISLIP_TYPE_FATAL_ERROR, HISLIP_TYPE_ERROR,
    HISLIP_TYPE_ASYNC_LOCK, HISLIP_TYPE_ASYNC_LOCK_RESPONSE, HISLIP_TYPE_DATA, HISLIP_TYPE_DATA_END,
    HISLIP_TYPE_DEVICE_CLEAR_COMPLETE, HISLIP_TYPE_DEVICE_CLEAR_ACKNOWLEDGE,
    HISLIP_TYPE_ASYNC_REMOTE_LOCAL_CONTROL, HISLIP_TYPE_ASYNC_REMOTE_LOCAL_RESPONSE,
    HISLIP_TYPE_TRIGGER, HISLIP_TYPE_INTERRUPTED, HISLIP_TYPE_ASYNC_INTERRUPTED,
    HISLIP_TYPE_ASYNC_MAXIMUM_MESSAGE_SIZE, HISLIP_TYPE_ASYNC_MAXIMUM_MESSAGE_SIZE_RESPONSE,
    HISLIP_TYPE_ASYNC_INITIALIZE, HISLIP_TYPE_ASYNC_INITIALIZE_RESPONSE,
    HISLIP_TYPE_ASYNC_DEVICE_CLEAR, HISLIP_TYPE_ASYNC_SERVICE_REQUEST, HISLIP_TYPE_ASYNC_STATUS_QUERY,
    HISLIP_TYPE_ASYNC_STATUS_RESPONSE, HISLIP_TYPE_ASYNC_DEVICE_CLEAR_ACKNOWLEDGE,
    HISLIP_TYPE_ASYNC_LOCK_INFO, HISLIP_TYPE_ASYNC_LOCK_INFO_RESPONSE,
};

int main(void)
{
    sizes();
    row();
    record();
    listed();
    for (size_t i = 0; i < sizeof types; i++)
        printf("constant %u\n", types[i]);
    for (unsigned type = 0; type <= UINT8_MAX; type++)
        printf("type %u %s\n", type, hislip_type_name((uint8_t)type));
    for (uint64_t refusal = HISLIP_ACCEPTED; refusal <= HISLIP_REFUSED_TOO_MANY_PATTERNS + 1; refusal++)
        printf("refusal %" PRIu64 " %s\n", refusal, hislip_refusal_name(refusal));
    for (uint64_t outcome = HISLIP_MORE_NEEDED; outcome <= HISLIP_ACTED_ON + 1; outcome++)
        printf("outcome %" PRIu64 " %s\n", outcome, hislip_outcome_name(outcome));
    return 0;
}
