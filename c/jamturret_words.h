/*
 * Numbers in words, for messages to a person. Include jamturret.h. Each
 * function answers every number; one that has no meaning is said to be
 * unknown.
 */
/* Before the guard: jamturret.h includes its parts in their order. */
#include "jamturret.h"

#ifndef JAMTURRET_WORDS_H
#define JAMTURRET_WORDS_H

#ifdef __cplusplus
extern "C" {
#endif

/* The number of an answer: an enum jamturret_number. */
static inline const char *jamturret_refusal_words(uint32_t number)
{
    switch (number) {
    case JAMTURRET_SUCCESS:
        return "success";
    case JAMTURRET_SHORT_SHEET:
        return "the sheet is under 16 bytes";
    case JAMTURRET_RANGE:
        return "the number of boards, communicators, operations or payload bytes is out of range";
    case JAMTURRET_OFFSETS:
        return "an offset, or the sheet's length, differs from what the sizes give in either "
               "edition";
    case JAMTURRET_CRC:
        return "the CRC differs";
    case JAMTURRET_BOARD:
        return "a board entry is wrong (first operation, attached size, inbox or standard room), "
               "or the counts do not total the operations";
    case JAMTURRET_OPERATION:
        return "a field of an operation is wrong";
    case JAMTURRET_SLOT_OR_AREA:
        return "a request slot is taken or not held, an area is shared with a held one, "
               "or a request is never waited for";
    case JAMTURRET_ROOM:
        return "a lent room is short";
    case JAMTURRET_ORDER:
        return "the order names a rank that is not able, or no rank of the sheet";
    case JAMTURRET_ANY_SOURCE:
        return "a receive or a probe names any source";
    case JAMTURRET_READY:
        return "a send is ready";
    case JAMTURRET_UNCOVERED:
        return "an attached buffer does not cover all buffered sends of its board";
    case JAMTURRET_STATUS_QUERY:
        return "an operation is a status query";
    case JAMTURRET_STANDARD_UNCOVERED:
        return "a standard room is above 0 and does not cover all standard sends of its board";
    case JAMTURRET_WIDE_HEADER:
        return "a number of the header does not fit its field";
    case JAMTURRET_WIDE_BOARD:
        return "a number of a board does not fit its field";
    case JAMTURRET_WIDE_OPERATION:
        return "a number of an operation does not fit its field";
    case JAMTURRET_SHEET_ROOM:
        return "the room for the sheet is short";
    default:
        return "unknown refusal";
    }
}

/* What the place of an answer with this number counts; "place" where it is always 0. */
static inline const char *jamturret_place_words(uint32_t number)
{
    switch (number) {
    case JAMTURRET_BOARD:
    case JAMTURRET_UNCOVERED:
    case JAMTURRET_STANDARD_UNCOVERED:
    case JAMTURRET_WIDE_BOARD:
        return "rank";
    case JAMTURRET_OPERATION:
    case JAMTURRET_SLOT_OR_AREA:
    case JAMTURRET_ANY_SOURCE:
    case JAMTURRET_READY:
    case JAMTURRET_STATUS_QUERY:
    case JAMTURRET_WIDE_OPERATION:
        return "operation";
    case JAMTURRET_ROOM:
        return "room";
    case JAMTURRET_ORDER:
        return "index in the order";
    case JAMTURRET_SHEET_ROOM:
        return "bytes needed";
    default:
        return "place";
    }
}

/* The place of refusal 8: an enum jamturret_room. */
static inline const char *jamturret_room_words(uint64_t place)
{
    switch (place) {
    case JAMTURRET_ROOM_INBOX:
        return "inbox";
    case JAMTURRET_ROOM_REPORT:
        return "report";
    case JAMTURRET_ROOM_ORDER_OUT:
        return "order out";
    case JAMTURRET_ROOM_SCRATCH:
        return "scratch";
    default:
        return "unknown room";
    }
}

static inline const char *jamturret_verdict_words(unsigned verdict)
{
    switch (verdict) {
    case JAMTURRET_STILL_ABLE:
        return "some board is still able";
    case JAMTURRET_FINISHED:
        return "all boards finished";
    case JAMTURRET_DEADLOCK:
        return "deadlock";
    case JAMTURRET_OVERFLOW:
        return "overflow";
    case JAMTURRET_NOT_READY:
        return "not ready";
    default:
        return "unknown verdict";
    }
}

static inline const char *jamturret_board_state_words(unsigned state)
{
    switch (state) {
    case JAMTURRET_BOARD_NEITHER:
        return "neither finished nor able";
    case JAMTURRET_BOARD_ABLE:
        return "able";
    case JAMTURRET_BOARD_FINISHED:
        return "finished";
    default:
        return "unknown state";
    }
}

static inline const char *jamturret_operation_state_words(unsigned state)
{
    switch (state) {
    case JAMTURRET_OPERATION_NOT_ENTERED:
        return "not entered";
    case JAMTURRET_OPERATION_PENDING:
        return "pending";
    case JAMTURRET_OPERATION_BUFFERED:
        return "buffered";
    case JAMTURRET_OPERATION_MATCHED:
        return "matched";
    case JAMTURRET_OPERATION_ENDED:
        return "wait, probe or query finished";
    default:
        return "unknown state";
    }
}

/* What a status query told of its operation: jamturret_operation_row_complete. */
static inline const char *jamturret_complete_words(unsigned complete)
{
    switch (complete) {
    case 0:
        return "not complete";
    case 1:
        return "complete";
    default:
        return "unknown answer";
    }
}

#ifdef __cplusplus
}
#endif

#endif
