/* hislip_names.h - the numbers of hislip_server.h in words, for logs. C99, or C++.
 *
 * Each function takes any number and returns text that is never null and lasts for ever. Nothing here
 * is in the archive, and the proofs do not speak of it. */
#ifndef HISLIP_NAMES_H
#define HISLIP_NAMES_H

#include "hislip_server.h"

/* The cause of a refusal. */
static inline const char *hislip_refusal_name(uint64_t refusal)
{
    switch (refusal) {
    case HISLIP_ACCEPTED: return "accepted";
    case HISLIP_REFUSED_CONNECTION: return "the connection number is above 63, or not open";
    case HISLIP_REFUSED_ALREADY_OPEN: return "the connection is already open";
    case HISLIP_REFUSED_CLOCK_BACKWARDS: return "the clock is below the last reading";
    case HISLIP_REFUSED_CLOCK_TOO_HIGH: return "the clock is above 2^62";
    case HISLIP_REFUSED_NOTHING_ASKED: return "the session has asked nothing";
    case HISLIP_REFUSED_ANSWER_TOO_LONG: return "the answer is above 1,024 bytes or above the client's size";
    case HISLIP_REFUSED_SHORT_BUFFER: return "the output buffer is under 2,048 bytes";
    case HISLIP_REFUSED_NO_SESSION: return "no live session has that number";
    case HISLIP_REFUSED_LIST_TOO_SHORT: return "the list of rows is shorter than the holders";
    case HISLIP_REFUSED_BAD_LIMITS: return "a limit is not a number, or low is above high";
    case HISLIP_REFUSED_BAD_PATTERN: return "a text of the list is no command pattern";
    case HISLIP_REFUSED_TOO_MANY_PATTERNS: return "the list has more than 32 command patterns";
    default: return "no refusal has that number";
    }
}

/* The outcome of a delivery. */
static inline const char *hislip_outcome_name(uint64_t outcome)
{
    switch (outcome) {
    case HISLIP_MORE_NEEDED: return "more needed";
    case HISLIP_SKIPPED: return "skipped";
    case HISLIP_HELD: return "held";
    case HISLIP_IGNORED: return "ignored";
    case HISLIP_ERROR_SENT: return "Error sent";
    case HISLIP_CLOSED: return "closed";
    case HISLIP_ACTED_ON: return "acted on";
    default: return "no outcome has that number";
    }
}

/* The type of a message, byte 2 of it (IVI-6.1, Table 4). */
static inline const char *hislip_type_name(uint8_t type)
{
    static const char *const names[] = {
        "Initialize", "InitializeResponse", "FatalError", "Error", "AsyncLock", "AsyncLockResponse",
        "Data", "DataEND", "DeviceClearComplete", "DeviceClearAcknowledge", "AsyncRemoteLocalControl",
        "AsyncRemoteLocalResponse", "Trigger", "Interrupted", "AsyncInterrupted",
        "AsyncMaximumMessageSize", "AsyncMaximumMessageSizeResponse", "AsyncInitialize",
        "AsyncInitializeResponse", "AsyncDeviceClear", "AsyncServiceRequest", "AsyncStatusQuery",
        "AsyncStatusResponse", "AsyncDeviceClearAcknowledge", "AsyncLockInfo", "AsyncLockInfoResponse",
    };
    if (type < sizeof names / sizeof *names)
        return names[type];
    return type >= HISLIP_TYPE_VENDOR ? "a vendor's message" : "unrecognised";
}

#endif
