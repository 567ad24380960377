/*
 * A job sheet: its format and limits (document 01, The sheet, byte by byte),
 * and a builder that lays one out from plain arrays. Include jamturret.h.
 *
 * A sheet is a header, a board table (an entry a rank), an operation table
 * (rank 0's script, then rank 1's, and so on) and the payload that sends read.
 * All numbers are little-endian: the low byte first.
 *
 * The two editions (document 02, K6) differ in the size of a board entry, and so
 * in the offsets of what stands behind the board table. A sheet has a board or
 * more, so that the operation table's offset is that of one edition alone.
 */
/* Before the guard: jamturret.h includes its parts in their order. */
#include "jamturret.h"

#ifndef JAMTURRET_SHEET_H
#define JAMTURRET_SHEET_H

#ifdef __cplusplus
extern "C" {
#endif

/* Limits. Counts of boards and communicators start at 1, the others at 0. */
#define JAMTURRET_MOST_BOARDS 16
#define JAMTURRET_MOST_COMMUNICATORS 8
#define JAMTURRET_MOST_OPERATIONS 2048 /* all boards together */
#define JAMTURRET_MOST_PAYLOAD 16384
#define JAMTURRET_MOST_ATTACHED 16384      /* the buffer of one board */
#define JAMTURRET_MOST_STANDARD_ROOM 16384 /* of one board, in edition 2 */
#define JAMTURRET_MOST_INBOXES 16384       /* all inboxes of a sheet together */
#define JAMTURRET_MOST_TAG 32767
#define JAMTURRET_MOST_LENGTH 4096 /* of a message, and capacity of a receive */
#define JAMTURRET_SLOTS 32         /* request slots of a board: 0 to 31 */

/*
 * What a message in the attached buffer costs beside its bytes, an empty one
 * too (MPI_BSEND_OVERHEAD; document 02, K2). In a standard room a message costs
 * its bytes alone.
 */
#define JAMTURRET_BSEND_OVERHEAD 32

/* Any source as the peer of a receive or probe, any tag as its tag. */
#define JAMTURRET_ANY 65535

/* Where the header's fields stand. */
#define JAMTURRET_SHEET_BOARDS_AT 0          /* 2 bytes: P, 1 to 16 */
#define JAMTURRET_SHEET_COMMUNICATORS_AT 2   /* 2 bytes: C, 1 to 8; each holds all boards */
#define JAMTURRET_SHEET_OPERATIONS_AT 4      /* 2 bytes: N, 0 to 2,048 */
#define JAMTURRET_SHEET_BOARD_TABLE_AT 6     /* 2 bytes: its offset, 16 */
#define JAMTURRET_SHEET_OPERATION_TABLE_AT 8 /* 2 bytes: 16 + 8 P, in edition 2 16 + 10 P */
#define JAMTURRET_SHEET_PAYLOAD_AT 10        /* 2 bytes: 16 N behind the operation table's */
#define JAMTURRET_SHEET_PAYLOAD_LENGTH_AT 12 /* 2 bytes: L, 0 to 16,384 */
#define JAMTURRET_SHEET_CRC_AT 14            /* 2 bytes: what jamturret_crc gives */
#define JAMTURRET_SHEET_HEADER_BYTES 16

/*
 * Where a board entry's fields stand. Rank r's entry is at 16 + 8 r, in edition
 * 2 at 16 + 10 r. Inboxes lie one after another in rank order; the first entry
 * that brings their total above 16,384 is wrong.
 */
#define JAMTURRET_ENTRY_FIRST_AT 0    /* 2 bytes: first operation, the sum of the counts before */
#define JAMTURRET_ENTRY_COUNT_AT 2    /* 2 bytes: its operations; all counts add up to N */
#define JAMTURRET_ENTRY_ATTACHED_AT 4 /* 2 bytes: attached buffer size, 0 to 16,384 */
#define JAMTURRET_ENTRY_INBOX_AT 6    /* 2 bytes: inbox size */
#define JAMTURRET_ENTRY_BYTES 8       /* of an entry of edition 1 */
#define JAMTURRET_ENTRY_STANDARD_ROOM_AT 8 /* 2 bytes, edition 2: standard room, 0 to 16,384 */
#define JAMTURRET_ENTRY_2_BYTES 10         /* of an entry of edition 2 */

/*
 * Where an operation's fields stand. Operation i is 16 i behind the operation
 * table's offset, with i counted over the whole sheet. In a wait and in a status
 * query all fields but kind and slot are 0, in a probe all but kind, peer,
 * communicator and tag.
 *
 * Slots: a nonblocking operation takes a slot that its board does not hold,
 * and holds it. A wait names a held slot and frees it; a status query names a
 * held slot and leaves it held (document 02, K9). No slot is held at the end of
 * a script: each nonblocking operation has its wait (document 02, K7).
 *
 * Areas: offset and length of a send lie inside the payload, which sends may
 * share; those of a receive inside its board's own inbox. A receive's area
 * shares no byte with that of an earlier receive of the same board whose slot
 * is still held. An empty area shares nothing.
 */
#define JAMTURRET_OPERATION_KIND_AT 0         /* 1 byte: an enum jamturret_kind */
#define JAMTURRET_OPERATION_FLAG_AT 1         /* 1 byte: an enum jamturret_flag */
#define JAMTURRET_OPERATION_PEER_AT 2         /* 2 bytes: rank; receive, probe also any */
#define JAMTURRET_OPERATION_COMMUNICATOR_AT 4 /* 2 bytes: 0 to C-1 */
#define JAMTURRET_OPERATION_ZERO_AT 6         /* 2 bytes: 0 */
#define JAMTURRET_OPERATION_TAG_AT 8          /* 2 bytes: 0 to 32,767; receive, probe also any */
#define JAMTURRET_OPERATION_OFFSET_AT 10      /* 2 bytes: in the payload, or in the own inbox */
#define JAMTURRET_OPERATION_LENGTH_AT 12      /* 2 bytes: length or capacity, 0 to 4,096 */
#define JAMTURRET_OPERATION_SLOT_AT 14        /* 2 bytes: 0 to 31; of a blocking one 0 */
#define JAMTURRET_OPERATION_BYTES 16

/*
 * Kinds. A message fits a receive or a probe where it is addressed to its
 * board, the communicators are equal, and source and tag are equal or any. A
 * send takes the earliest posted receive that fits; the comment says what
 * becomes of it where there is none (document 01, How a board steps). Probe and
 * status query (document 02, K9) are MPI_PROBE and MPI_REQUEST_GET_STATUS.
 */
enum jamturret_kind {
    JAMTURRET_KIND_STANDARD = 1,    /* send: pending; complete where it fits the standard room */
    JAMTURRET_KIND_BUFFERED = 2,    /* send: in the attached buffer and complete, or overflow */
    JAMTURRET_KIND_SYNCHRONOUS = 3, /* send: pending, not complete */
    JAMTURRET_KIND_READY = 4,       /* send: the job stops, not ready */
    JAMTURRET_KIND_RECEIVE = 5,     /* takes the earliest arrived message, or is pending */
    JAMTURRET_KIND_WAIT = 6,        /* until the operation that holds its slot is complete */
    JAMTURRET_KIND_PROBE = 7,       /* until a message fits; tells of it and takes nothing */
    JAMTURRET_KIND_STATUS_QUERY = 8 /* tells whether what holds its slot is complete */
};

enum jamturret_flag {
    JAMTURRET_FLAG_BLOCKING = 0,   /* also of a wait, a probe and a status query */
    JAMTURRET_FLAG_NONBLOCKING = 1 /* its board waits for it later on */
};

/* The length of a sheet of an edition, of one of edition 1, and of the longest of all. */
#define JAMTURRET_SHEET_OF(edition, boards, operations, payload)              \
    (JAMTURRET_SHEET_HEADER_BYTES                                             \
     + JAMTURRET_ENTRY_BYTES_OF(edition) * JAMTURRET_CAST(size_t, boards)     \
     + JAMTURRET_OPERATION_BYTES * JAMTURRET_CAST(size_t, operations)         \
     + JAMTURRET_CAST(size_t, payload))
#define JAMTURRET_ENTRY_BYTES_OF(edition)                                     \
    JAMTURRET_CAST(size_t, (edition) == JAMTURRET_EDITION_2 ? JAMTURRET_ENTRY_2_BYTES \
                                                            : JAMTURRET_ENTRY_BYTES)
#define JAMTURRET_SHEET(boards, operations, payload)                          \
    JAMTURRET_SHEET_OF(JAMTURRET_EDITION_1, boards, operations, payload)
#define JAMTURRET_MOST_SHEET                                                  \
    JAMTURRET_SHEET_OF(JAMTURRET_EDITION_2, JAMTURRET_MOST_BOARDS,            \
                       JAMTURRET_MOST_OPERATIONS, JAMTURRET_MOST_PAYLOAD)

/* The edition of a sheet that check accepts. */
static inline unsigned jamturret_sheet_edition(const uint8_t *sheet)
{
    const size_t boards = jamturret_word_at(sheet, JAMTURRET_SHEET_BOARDS_AT);
    return jamturret_word_at(sheet, JAMTURRET_SHEET_OPERATION_TABLE_AT)
                   == JAMTURRET_SHEET_OF(JAMTURRET_EDITION_2, boards, 0, 0)
               ? JAMTURRET_EDITION_2
               : JAMTURRET_EDITION_1;
}

/*
 * THE BUILDER
 *
 * Numbers are wider than the sheet's fields, so that one that does not fit is
 * seen and not wrapped: a -1 as peer is no JAMTURRET_ANY.
 */
typedef struct jamturret_board {
    uint32_t count;    /* operations of its script */
    uint32_t attached; /* buffer size: length and JAMTURRET_BSEND_OVERHEAD a message */
    uint32_t inbox;    /* inbox size */
} jamturret_board;

typedef struct jamturret_operation {
    uint32_t kind; /* an enum jamturret_kind */
    uint32_t flag; /* an enum jamturret_flag */
    uint32_t peer;
    uint32_t communicator;
    uint32_t tag;
    uint32_t offset;
    uint32_t length; /* capacity of a receive */
    uint32_t slot;
} jamturret_operation;

typedef struct jamturret_job {
    size_t communicators;
    const jamturret_board *boards; /* in rank order */
    size_t board_count;
    const jamturret_operation *operations; /* rank 0's script, then rank 1's, and so on */
    size_t operation_count;
    const uint8_t *payload;
    size_t payload_len;
} jamturret_job;

/* A blocking send of payload bytes, on communicator 0. The mode is its kind. */
static inline jamturret_operation jamturret_send(uint32_t mode, uint32_t to, uint32_t tag,
                                                 uint32_t offset, uint32_t length)
{
    const jamturret_operation made = {mode, JAMTURRET_FLAG_BLOCKING, to, 0, tag, offset, length, 0};
    return made;
}

/*
 * A blocking receive into the own inbox, on communicator 0. Source and tag may
 * be JAMTURRET_ANY.
 */
static inline jamturret_operation jamturret_receive(uint32_t from, uint32_t tag, uint32_t offset,
                                                    uint32_t capacity)
{
    const jamturret_operation made
        = {JAMTURRET_KIND_RECEIVE, JAMTURRET_FLAG_BLOCKING, from, 0, tag, offset, capacity, 0};
    return made;
}

/* A wait for the operation that holds a slot. */
static inline jamturret_operation jamturret_wait(uint32_t slot)
{
    const jamturret_operation made
        = {JAMTURRET_KIND_WAIT, JAMTURRET_FLAG_BLOCKING, 0, 0, 0, 0, 0, slot};
    return made;
}

/*
 * A probe for a message to its own board, on communicator 0. Source and tag
 * may be JAMTURRET_ANY. It is always blocking.
 */
static inline jamturret_operation jamturret_probe(uint32_t from, uint32_t tag)
{
    const jamturret_operation made
        = {JAMTURRET_KIND_PROBE, JAMTURRET_FLAG_BLOCKING, from, 0, tag, 0, 0, 0};
    return made;
}

/* A query whether the operation that holds a slot is complete. It waits for nothing. */
static inline jamturret_operation jamturret_status_query(uint32_t slot)
{
    const jamturret_operation made
        = {JAMTURRET_KIND_STATUS_QUERY, JAMTURRET_FLAG_BLOCKING, 0, 0, 0, 0, 0, slot};
    return made;
}

/*
 * The same send or receive, nonblocking, with a slot. Its script has to wait
 * for it later on, or the sheet is refused.
 */
static inline jamturret_operation jamturret_nonblocking(jamturret_operation made, uint32_t slot)
{
    made.flag = JAMTURRET_FLAG_NONBLOCKING;
    made.slot = slot;
    return made;
}

/* The same send, receive or probe on another communicator. */
static inline jamturret_operation jamturret_on(jamturret_operation made, uint32_t communicator)
{
    made.communicator = communicator;
    return made;
}

static inline jamturret_answer jamturret_answer_of(uint32_t number, uint64_t place)
{
    const jamturret_answer answer = {number, place};
    return answer;
}

/*
 * A job with the edition that it is laid out in. The rooms are those of the
 * boards in rank order; they are not looked at in edition 1.
 */
typedef struct jamturret_layout {
    const jamturret_job *job;
    unsigned edition; /* an enum jamturret_edition */
    const uint32_t *standard_rooms;
} jamturret_layout;

static inline uint32_t jamturret_layout_room(const jamturret_layout *layout, size_t rank)
{
    return layout->edition == JAMTURRET_EDITION_2 ? layout->standard_rooms[rank] : 0;
}

/* Where things stand in the sheet: behind so many boards, operations and payload bytes. */
static inline size_t jamturret_layout_at(const jamturret_layout *layout, size_t boards,
                                         size_t operations, size_t payload)
{
    return JAMTURRET_SHEET_OF(layout->edition, boards, operations, payload);
}

static inline size_t jamturret_layout_length(const jamturret_layout *layout)
{
    const jamturret_job *job = layout->job;
    return jamturret_layout_at(layout, job->board_count, job->operation_count, job->payload_len);
}

/* Numbers joined bit by bit fit into some bits exactly where each of them does. */
static inline int jamturret_board_fits(const jamturret_layout *layout, size_t rank, uint32_t first)
{
    const jamturret_board *board = &layout->job->boards[rank];
    const uint32_t sizes = board->attached | board->inbox | jamturret_layout_room(layout, rank);
    return (first | board->count | sizes) <= 0xFFFF;
}

static inline int jamturret_operation_fits(const jamturret_operation *operation)
{
    const uint32_t words = operation->peer | operation->communicator | operation->tag
                           | operation->offset | operation->length | operation->slot;
    return (operation->kind | operation->flag) <= 0xFF && words <= 0xFFFF;
}

/* Where the counts fit, the offset of the payload cannot wrap. */
static inline int jamturret_header_fits(const jamturret_layout *layout)
{
    const jamturret_job *job = layout->job;
    const size_t counts
        = job->board_count | job->communicators | job->operation_count | job->payload_len;
    return counts <= 0xFFFF
           && jamturret_layout_at(layout, job->board_count, job->operation_count, 0) <= 0xFFFF;
}

/* Why a job cannot be laid out in this room, or success. */
static inline jamturret_answer jamturret_build_refusal(const jamturret_layout *layout,
                                                       size_t sheet_room)
{
    const jamturret_job *job = layout->job;
    uint32_t first = 0;
    size_t i;
    if (!jamturret_header_fits(layout)) {
        return jamturret_answer_of(JAMTURRET_WIDE_HEADER, 0);
    }
    for (i = 0; i < job->board_count; i++) {
        if (!jamturret_board_fits(layout, i, first)) {
            return jamturret_answer_of(JAMTURRET_WIDE_BOARD, i);
        }
        first += job->boards[i].count;
    }
    for (i = 0; i < job->operation_count; i++) {
        if (!jamturret_operation_fits(&job->operations[i])) {
            return jamturret_answer_of(JAMTURRET_WIDE_OPERATION, i);
        }
    }
    if (sheet_room < jamturret_layout_length(layout)) {
        return jamturret_answer_of(JAMTURRET_SHEET_ROOM, jamturret_layout_length(layout));
    }
    return jamturret_answer_of(JAMTURRET_SUCCESS, 0);
}

static inline void jamturret_put_word(uint8_t *at, size_t value)
{
    at[0] = JAMTURRET_CAST(uint8_t, value & 0xFF);
    at[1] = JAMTURRET_CAST(uint8_t, value >> 8 & 0xFF);
}

/* The header but its CRC, which is taken over all the rest. */
static inline void jamturret_put_header(const jamturret_layout *layout, uint8_t *at)
{
    const jamturret_job *job = layout->job;
    const size_t boards = job->board_count;
    const size_t operations = job->operation_count;
    const size_t operation_table = jamturret_layout_at(layout, boards, 0, 0);
    const size_t payload = jamturret_layout_at(layout, boards, operations, 0);
    jamturret_put_word(at + JAMTURRET_SHEET_BOARDS_AT, boards);
    jamturret_put_word(at + JAMTURRET_SHEET_COMMUNICATORS_AT, job->communicators);
    jamturret_put_word(at + JAMTURRET_SHEET_OPERATIONS_AT, operations);
    jamturret_put_word(at + JAMTURRET_SHEET_BOARD_TABLE_AT, JAMTURRET_SHEET_HEADER_BYTES);
    jamturret_put_word(at + JAMTURRET_SHEET_OPERATION_TABLE_AT, operation_table);
    jamturret_put_word(at + JAMTURRET_SHEET_PAYLOAD_AT, payload);
    jamturret_put_word(at + JAMTURRET_SHEET_PAYLOAD_LENGTH_AT, job->payload_len);
}

static inline void jamturret_put_board(const jamturret_layout *layout, size_t rank, uint32_t first,
                                       uint8_t *at)
{
    const jamturret_board *board = &layout->job->boards[rank];
    jamturret_put_word(at + JAMTURRET_ENTRY_FIRST_AT, first);
    jamturret_put_word(at + JAMTURRET_ENTRY_COUNT_AT, board->count);
    jamturret_put_word(at + JAMTURRET_ENTRY_ATTACHED_AT, board->attached);
    jamturret_put_word(at + JAMTURRET_ENTRY_INBOX_AT, board->inbox);
    if (layout->edition == JAMTURRET_EDITION_2) {
        jamturret_put_word(at + JAMTURRET_ENTRY_STANDARD_ROOM_AT,
                           jamturret_layout_room(layout, rank));
    }
}

static inline void jamturret_put_operation(const jamturret_operation *operation, uint8_t *at)
{
    at[JAMTURRET_OPERATION_KIND_AT] = JAMTURRET_CAST(uint8_t, operation->kind);
    at[JAMTURRET_OPERATION_FLAG_AT] = JAMTURRET_CAST(uint8_t, operation->flag);
    jamturret_put_word(at + JAMTURRET_OPERATION_PEER_AT, operation->peer);
    jamturret_put_word(at + JAMTURRET_OPERATION_COMMUNICATOR_AT, operation->communicator);
    jamturret_put_word(at + JAMTURRET_OPERATION_ZERO_AT, 0);
    jamturret_put_word(at + JAMTURRET_OPERATION_TAG_AT, operation->tag);
    jamturret_put_word(at + JAMTURRET_OPERATION_OFFSET_AT, operation->offset);
    jamturret_put_word(at + JAMTURRET_OPERATION_LENGTH_AT, operation->length);
    jamturret_put_word(at + JAMTURRET_OPERATION_SLOT_AT, operation->slot);
}

/* What the two builders below share: a job laid out in its edition. */
static inline jamturret_answer jamturret_lay_out(const jamturret_layout *layout, uint8_t *sheet,
                                                 size_t sheet_room)
{
    const jamturret_answer refusal = jamturret_build_refusal(layout, sheet_room);
    const jamturret_job *job = layout->job;
    uint8_t *at = sheet;
    uint32_t first = 0;
    size_t i;
    if (refusal.number != JAMTURRET_SUCCESS) {
        return refusal;
    }
    jamturret_put_header(layout, at);
    at += JAMTURRET_SHEET_HEADER_BYTES;
    for (i = 0; i < job->board_count; i++) {
        jamturret_put_board(layout, i, first, at);
        first += job->boards[i].count;
        at += JAMTURRET_ENTRY_BYTES_OF(layout->edition);
    }
    for (i = 0; i < job->operation_count; i++) {
        jamturret_put_operation(&job->operations[i], at);
        at += JAMTURRET_OPERATION_BYTES;
    }
    for (i = 0; i < job->payload_len; i++) {
        at[i] = job->payload[i];
    }
    jamturret_put_word(sheet + JAMTURRET_SHEET_CRC_AT,
                       jamturret_crc(sheet, jamturret_layout_length(layout)));
    return refusal;
}

/*
 * Lays out a job as a sheet of edition 1, with its CRC, in the first
 * JAMTURRET_SHEET(board_count, operation_count, payload_len) bytes of a room
 * that shares no byte with the job's arrays; later bytes of it keep their
 * values. An array whose count is 0 is not looked at. A board's first
 * operation is the sum of the counts before it.
 *
 * Answers 30 to 33, the lowest first, where a number does not fit its field or
 * the room is short; nothing is written then. Nothing else is looked at: what
 * fits its field and breaks a rule is laid out as it stands, for
 * jamturret_check to refuse.
 */
static inline jamturret_answer jamturret_build(const jamturret_job *job, uint8_t *sheet,
                                               size_t sheet_room)
{
    const jamturret_layout layout = {job, JAMTURRET_EDITION_1, NULL};
    return jamturret_lay_out(&layout, sheet, sheet_room);
}

/*
 * The same as a sheet of edition 2, of JAMTURRET_SHEET_OF(JAMTURRET_EDITION_2,
 * board_count, operation_count, payload_len) bytes, with the boards' standard
 * rooms in rank order: an array of board_count numbers.
 */
static inline jamturret_answer jamturret_build_2(const jamturret_job *job,
                                                 const uint32_t *standard_rooms, uint8_t *sheet,
                                                 size_t sheet_room)
{
    const jamturret_layout layout = {job, JAMTURRET_EDITION_2, standard_rooms};
    return jamturret_lay_out(&layout, sheet, sheet_room);
}

#ifdef __cplusplus
}
#endif

#endif
