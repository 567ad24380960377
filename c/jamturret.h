/*
 * Jamturret: judges what the boards of a job sheet do to each other under
 * MPI's point-to-point rules. Services: check a sheet, say whether the order
 * of steps can matter for it, follow it with a given order of ranks, run it;
 * and the CRC that a sheet has to carry.
 *
 * This is the header to include. With it come
 *   jamturret_sheet.h    the format of a sheet, its limits, and a builder
 *   jamturret_report.h   the format of a report, and a reader of each field
 *   jamturret_words.h    refusals, verdicts and states in words
 *
 * The library is target/staticlib/libjamturret.a, made by
 * `c/build` at the repository root:
 *   cc -Ic program.c target/staticlib/libjamturret.a
 *
 * WHAT A CALL NEEDS
 *
 * Platform. x86-64 with the System V calling convention. Of its environment
 * the library needs `memmove` and `memset` and nothing else: no heap, no
 * files, no other function. As the convention allows it uses SSE2 registers
 * and the red zone, 128 bytes below the stack pointer. Where interrupts are
 * taken without an operating system, their handlers have to keep the first and
 * run on another stack.
 *
 * Buffers. A buffer passes as a pointer and a length in bytes. The pointer is
 * not NULL, also where the length is 0; any address serves then. It may have
 * any alignment. The length is at most what the buffer has. A buffer that is
 * written shares no byte with any other buffer of the call; those that are
 * only read (sheet, order) may overlap. Every content and every length is
 * accepted: what is wrong is answered with a refusal.
 *
 * Threads. The library has no variables and keeps nothing between calls. Calls
 * may run at once in several threads where none writes a buffer that another
 * one uses. They may read the same sheet and the same order.
 *
 * Stack. JAMTURRET_STACK bytes serve every input: the library's code has no
 * recursion and no array whose size depends on a sheet. The other working
 * memory is the lent scratch.
 */
#ifndef JAMTURRET_H
#define JAMTURRET_H

#include <stddef.h>
#include <stdint.h>

/* A conversion that C++ compilers take under -Wold-style-cast, too. */
#ifdef __cplusplus
#define JAMTURRET_CAST(type, value) static_cast<type>(value)
#else
#define JAMTURRET_CAST(type, value) ((type)(value))
#endif

#ifdef __cplusplus
extern "C" {
#endif

/*
 * The edition of a sheet and of its report (document 02, K6). In edition 2 each
 * board has a standard room, in which its unmatched standard sends are buffered
 * where they fit. A sheet tells its edition (jamturret_sheet_edition); a report
 * does not, and is of its sheet's edition.
 */
enum jamturret_edition {
    JAMTURRET_EDITION_1 = 1,
    JAMTURRET_EDITION_2 = 2
};

/*
 * Stack to have free at a call, in bytes. Measured on sheets of 2,048
 * operations (stack_test.c): 1,103, with the call's arguments and the red
 * zone. The rest is margin for another build of the library. A signal handler
 * is not in it, nor is what a dynamic linker takes at the first call of
 * memmove or memset, nor a memmove or memset that takes much itself (a
 * sanitizer's).
 */
#define JAMTURRET_STACK 1536

/*
 * Scratch for follow and run. Its bytes may be anything before; it is zeroed
 * whole at the end, also what is longer than this.
 */
#define JAMTURRET_SCRATCH JAMTURRET_CAST(size_t, 65536)

/*
 * Room for the order that run writes down: two steps an operation, one byte a
 * step. JAMTURRET_MOST_ORDER serves every sheet.
 *
 * The other rooms: JAMTURRET_REPORT_OF (jamturret_report.h) for the report; for
 * the inboxes the sum of the inbox sizes in the board table. Longer rooms are
 * accepted, and what is left over of them keeps its bytes, save in scratch.
 */
#define JAMTURRET_ORDER_OUT(operations) (2 * JAMTURRET_CAST(size_t, operations))
#define JAMTURRET_MOST_ORDER JAMTURRET_ORDER_OUT(JAMTURRET_MOST_OPERATIONS)

/*
 * What a service answers: number 0 and place 0, or a refusal. It is returned
 * by value in two registers (number in eax, place in rdx).
 */
typedef struct jamturret_answer {
    uint32_t number; /* an enum jamturret_number */
    uint64_t place;  /* where; what it counts is said at each number */
} jamturret_answer;

/*
 * The lowest number that applies is given, each judged over the whole sheet
 * (document 01, When the desk says no). P, C, N and L are the header's
 * numbers of boards, communicators, operations and payload bytes.
 *
 * Number 7 has two rounds (document 02, K7): a slot that is taken twice, a
 * wait for one that is not held or a status query of it, an area that is
 * shared; and, where the whole sheet has none of these, a forgotten request: a
 * nonblocking operation whose slot its board's script never frees (in MPI, a
 * request leak). A status query frees nothing.
 */
enum jamturret_number {
    JAMTURRET_SUCCESS = 0,
    JAMTURRET_SHORT_SHEET = 1,  /* sheet under 16 bytes; place 0 */
    JAMTURRET_RANGE = 2,        /* P, C, N or L outside its range; place 0 */
    JAMTURRET_OFFSETS = 3,      /* an offset or the sheet's length differs; place 0 */
    JAMTURRET_CRC = 4,          /* CRC differs; place 0 */
    JAMTURRET_BOARD = 5,        /* first wrong board entry; P if only the counts' total */
    JAMTURRET_OPERATION = 6,    /* first operation with a wrong field */
    JAMTURRET_SLOT_OR_AREA = 7, /* first operation with wrong slot or area, else first forgotten */
    JAMTURRET_ROOM = 8,         /* first short room: an enum jamturret_room */
    JAMTURRET_ORDER = 9,        /* first index whose rank is above P-1 or not able */
    /* Premise only: why the order may matter. */
    JAMTURRET_ANY_SOURCE = 20,         /* first receive or probe from any source */
    JAMTURRET_READY = 21,              /* first ready send */
    JAMTURRET_UNCOVERED = 22,          /* first rank whose buffer is short of its buffered sends */
    JAMTURRET_STATUS_QUERY = 23,       /* first status query */
    JAMTURRET_STANDARD_UNCOVERED = 24, /* first rank whose room is short of its standard sends */
    /* The builders only (jamturret_sheet.h): why nothing was written. */
    JAMTURRET_WIDE_HEADER = 30,    /* a number of the header does not fit its field; place 0 */
    JAMTURRET_WIDE_BOARD = 31,     /* first board with a number that does not fit its field */
    JAMTURRET_WIDE_OPERATION = 32, /* first operation with such a number */
    JAMTURRET_SHEET_ROOM = 33      /* room for the sheet short; place: the bytes needed */
};

/* The place of refusal 8: the first room that is short. */
enum jamturret_room {
    JAMTURRET_ROOM_INBOX = 1,
    JAMTURRET_ROOM_REPORT = 2,
    JAMTURRET_ROOM_ORDER_OUT = 3, /* run only */
    JAMTURRET_ROOM_SCRATCH = 4
};

/*
 * The CRC that a sheet of these bytes has to carry: CRC-16/IBM-3740
 * (polynomial 1021 hex, start FFFF hex, high bit first, no final change) over
 * bytes 0 to 13 and then 16 to the end. Bytes 14 and 15, where it stands in
 * the sheet, are not looked at. Of a sheet under 16 bytes: over what there is
 * of bytes 0 to 13. There are no refusals.
 */
uint16_t jamturret_crc(const uint8_t *sheet, size_t sheet_len);

/* Checks a sheet. Refusals 1 to 7. */
jamturret_answer jamturret_check(const uint8_t *sheet, size_t sheet_len);

/*
 * Says whether the order of steps can matter for a sheet. Refusals 1 to 7 as
 * check gives them; then 20 to 24, the lowest first, each at its first place
 * (an operation, but for 22 and 24 a rank). Success means: from the same inbox
 * bytes, any two orders that follow accepts and after which no board is able
 * leave the same inboxes and the same report, peaks aside, and so does run. The
 * verdict of one run is then that of every such order. A buffer covers the
 * buffered sends of its board where their charges, as if none were matched,
 * add up to at most its size; a charge is the length of a message and
 * JAMTURRET_BSEND_OVERHEAD. What a status query tells is a matter of the
 * order, and so is what a probe from any source tells; a probe of one source
 * is not (document 02, K9). A standard room, of edition 2, is 0 or has to cover
 * the standard sends of its board, each with its length: in one that is too
 * small for all of them the order decides which ones wait (document 02, K6).
 */
jamturret_answer jamturret_premise(const uint8_t *sheet, size_t sheet_len);

/*
 * STEPS (document 01, How a board steps)
 *
 * A board takes its script's operations in turn. Sends and receives have an
 * initiating step, in which they are matched with what fits or become pending.
 * A blocking one then has a waiting half, a second step that can be taken once
 * it is complete; a wait is only a waiting half, of the operation that holds
 * its slot. Send and receive are both complete at their match, whatever else
 * their boards do; a buffered send is complete, too, once it is in the buffer,
 * and in edition 2 a standard send once it is in the standard room.
 *
 * Probe and status query have one step each, which changes nothing but their
 * own row (document 02, K9). A probe tells the earliest arrived pending message
 * that fits it, and takes nothing: a receive of the told source and tag that
 * stands next in the script gets the told message, whatever other boards do in
 * between. A status query tells whether the operation that holds its slot is
 * complete, and leaves it the slot.
 *
 * A board is able when the job is not stopped, the board is not finished, and
 * its next step is an initiating one, a waiting half whose operation is
 * complete, a probe that a pending message fits, or a status query. A step that
 * overflows an attached buffer, and a ready send without a posted receive, stop
 * the job. A standard send never does: one that does not fit the room waits.
 *
 * A message up to the receive's capacity is copied to the start of its area.
 * A longer one is cut: its first bytes fill the area, and the report tells its
 * full length.
 */

/*
 * Follows a sheet with an order of ranks, one byte a step, and fills report
 * and inbox. The order may stop early, or be empty. Refusals 1 to 9.
 *
 * Inbox is the boards' inboxes one after another in rank order. Only bytes
 * that a message brings are written; the others keep their values.
 *
 * After a refusal inbox and report are untouched. Scratch is untouched by
 * refusals 1 to 8 and all zero after 9 or success.
 */
jamturret_answer jamturret_follow(const uint8_t *sheet, size_t sheet_len,
                                  const uint8_t *order, size_t order_len,
                                  uint8_t *inbox, size_t inbox_len,
                                  uint8_t *report, size_t report_len,
                                  uint8_t *scratch, size_t scratch_len);

/*
 * Runs a sheet: at each step the lowest rank that is able, until none is.
 * Fills report and inbox as follow does and writes the order down; the report
 * says how many steps it has, and bytes of order_out after them keep their
 * values. Refusals 1 to 8, which leave inbox, report, order_out and scratch
 * untouched; after success scratch is all zero.
 */
jamturret_answer jamturret_run(const uint8_t *sheet, size_t sheet_len,
                               uint8_t *inbox, size_t inbox_len,
                               uint8_t *report, size_t report_len,
                               uint8_t *order_out, size_t order_out_len,
                               uint8_t *scratch, size_t scratch_len);

#ifdef __cplusplus
}
#endif

#include "jamturret_report.h"
#include "jamturret_sheet.h"
#include "jamturret_words.h"

#endif
