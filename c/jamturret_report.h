/*
 * A report: its format (document 01, The report), and a reader of each field.
 * Include jamturret.h.
 *
 * A report is a header, a row a board in rank order, and a row an operation in
 * the sheet's order. All numbers are little-endian: the low byte first. It is of
 * its sheet's edition, which it does not tell (document 02, K6).
 *
 * Finished is not delivered: a job can finish with messages pending, since a
 * buffered send is complete once it is in its sender's buffer, and in edition 2
 * a standard send once it is in its sender's standard room. Look at the
 * pending messages, too. Nothing else is pending then: every request was
 * waited for (document 02, K7), so each receive got its message, and each send
 * that was not buffered was received.
 */
/* Before the guard: jamturret.h includes its parts in their order. */
#include "jamturret.h"

#ifndef JAMTURRET_REPORT_H
#define JAMTURRET_REPORT_H

#ifdef __cplusplus
extern "C" {
#endif

/* None: as stop operation, partner, source and tag; and as stop rank. */
#define JAMTURRET_NONE 65535
#define JAMTURRET_NO_RANK 255

/* Where the header's fields stand. */
#define JAMTURRET_REPORT_VERDICT_AT 0           /* 1 byte: an enum jamturret_verdict */
#define JAMTURRET_REPORT_STOP_RANK_AT 1         /* 1 byte: whose step stopped the job, or none */
#define JAMTURRET_REPORT_STOP_OPERATION_AT 2    /* 2 bytes: its operation, or none */
#define JAMTURRET_REPORT_STEPS_AT 4             /* 2 bytes: steps taken, a stopping one too */
#define JAMTURRET_REPORT_BOARDS_AT 6            /* 2 bytes: the sheet's P */
#define JAMTURRET_REPORT_OPERATIONS_AT 8        /* 2 bytes: the sheet's N */
#define JAMTURRET_REPORT_PENDING_MESSAGES_AT 10 /* 2 bytes: sent and not matched, buffered too */
#define JAMTURRET_REPORT_PENDING_RECEIVES_AT 12 /* 2 bytes: posted and not matched */
#define JAMTURRET_REPORT_CUT_MESSAGES_AT 14     /* 2 bytes: matched, longer than the capacity */
#define JAMTURRET_REPORT_HEADER_BYTES 16

/*
 * Where a board row's fields stand. Rank r's row is at 16 + 8 r, in edition 2 at
 * 16 + 12 r: there the figures of the standard room follow.
 */
#define JAMTURRET_BOARD_ROW_FINISHED_AT 0 /* 2 bytes: operations finished */
#define JAMTURRET_BOARD_ROW_IN_USE_AT 2   /* 2 bytes: buffer bytes charged and not yet matched */
#define JAMTURRET_BOARD_ROW_PEAK_AT 4     /* 2 bytes: the most in use after any step so far */
#define JAMTURRET_BOARD_ROW_STATE_AT 6    /* 1 byte: an enum jamturret_board_state */
#define JAMTURRET_BOARD_ROW_ZERO_AT 7     /* 1 byte: 0 */
#define JAMTURRET_BOARD_ROW_BYTES 8       /* of a row of edition 1 */
#define JAMTURRET_BOARD_ROW_STANDARD_IN_USE_AT 8 /* 2 bytes: room charged and not yet matched */
#define JAMTURRET_BOARD_ROW_STANDARD_PEAK_AT 10  /* 2 bytes: the most of it after any step so far */
#define JAMTURRET_BOARD_ROW_2_BYTES 12           /* of a row of edition 2 */

/*
 * Where an operation row's fields stand. Operation i's row is at
 * 16 + 8 P + 12 i, in edition 2 at 16 + 12 P + 12 i. Source, tag and length tell
 * what message a matched receive got, as an MPI status does. Of a cut message
 * the length is the full one, and as many bytes as the receive's capacity were
 * copied. In the row of a finished probe they tell the message that it found,
 * with its full length, and in that of a finished status query the length is 1
 * where the operation was complete (document 02, K9). In all other rows they are
 * none, none and 0.
 */
#define JAMTURRET_OPERATION_ROW_STATE_AT 0   /* 1 byte: an enum jamturret_operation_state */
#define JAMTURRET_OPERATION_ROW_CUT_AT 1     /* 1 byte: 1 in a receive whose message was cut */
#define JAMTURRET_OPERATION_ROW_PARTNER_AT 2 /* 2 bytes: the operation matched with, or none */
#define JAMTURRET_OPERATION_ROW_SOURCE_AT 4  /* 2 bytes: the sender's rank */
#define JAMTURRET_OPERATION_ROW_TAG_AT 6     /* 2 bytes: the message's tag */
#define JAMTURRET_OPERATION_ROW_LENGTH_AT 8  /* 2 bytes: the message's full length, or complete */
#define JAMTURRET_OPERATION_ROW_ZERO_AT 10   /* 2 bytes: 0 */
#define JAMTURRET_OPERATION_ROW_BYTES 12

enum jamturret_verdict {
    JAMTURRET_STILL_ABLE = 0, /* the order stopped early; follow only */
    JAMTURRET_FINISHED = 1,   /* all boards are; only buffered messages may be pending */
    JAMTURRET_DEADLOCK = 2,   /* some board is unfinished and none is able */
    JAMTURRET_OVERFLOW = 3,   /* stopped: an unmatched buffered send found too little room */
    JAMTURRET_NOT_READY = 4   /* stopped: a ready send found no posted receive */
};

enum jamturret_board_state {
    JAMTURRET_BOARD_NEITHER = 0, /* waits for a completion or a message to probe, or job stopped */
    JAMTURRET_BOARD_ABLE = 1,    /* could take a step */
    JAMTURRET_BOARD_FINISHED = 2
};

/* Pending messages are the sends in states 1 and 2. */
enum jamturret_operation_state {
    JAMTURRET_OPERATION_NOT_ENTERED = 0, /* also the one that stopped the job */
    JAMTURRET_OPERATION_PENDING = 1,
    JAMTURRET_OPERATION_BUFFERED = 2, /* a buffered or standard send: complete, and not received */
    JAMTURRET_OPERATION_MATCHED = 3,
    JAMTURRET_OPERATION_ENDED = 5, /* a wait, a probe or a status query is finished */
    JAMTURRET_OPERATION_WAIT_FINISHED = JAMTURRET_OPERATION_ENDED /* the same, of a wait */
};

/* The length of a report of an edition, of one of edition 1, and of the longest of all. */
#define JAMTURRET_REPORT_OF(edition, boards, operations)                      \
    (JAMTURRET_REPORT_HEADER_BYTES                                            \
     + JAMTURRET_BOARD_ROW_BYTES_OF(edition) * JAMTURRET_CAST(size_t, boards) \
     + JAMTURRET_OPERATION_ROW_BYTES * JAMTURRET_CAST(size_t, operations))
#define JAMTURRET_BOARD_ROW_BYTES_OF(edition)                                 \
    JAMTURRET_CAST(size_t, (edition) == JAMTURRET_EDITION_2 ? JAMTURRET_BOARD_ROW_2_BYTES \
                                                            : JAMTURRET_BOARD_ROW_BYTES)
#define JAMTURRET_REPORT(boards, operations)                                  \
    JAMTURRET_REPORT_OF(JAMTURRET_EDITION_1, boards, operations)
#define JAMTURRET_MOST_REPORT                                                 \
    JAMTURRET_REPORT_OF(JAMTURRET_EDITION_2, JAMTURRET_MOST_BOARDS, JAMTURRET_MOST_OPERATIONS)

/*
 * THE READERS
 *
 * For a report that follow or run filled. Each is named as its field above,
 * in small letters; jamturret_operation_row_complete reads the length of a
 * status query. Those of the header serve both editions, those of rows edition
 * 1. The rows of either edition are read whole: jamturret_board_figures_of and
 * jamturret_operation_figures_of, at the end.
 */
static inline unsigned jamturret_word_at(const uint8_t *bytes, size_t at)
{
    return bytes[at] + 256u * bytes[at + 1];
}

static inline unsigned jamturret_report_verdict(const uint8_t *report)
{
    return report[JAMTURRET_REPORT_VERDICT_AT];
}

static inline unsigned jamturret_report_stop_rank(const uint8_t *report)
{
    return report[JAMTURRET_REPORT_STOP_RANK_AT];
}

static inline unsigned jamturret_report_stop_operation(const uint8_t *report)
{
    return jamturret_word_at(report, JAMTURRET_REPORT_STOP_OPERATION_AT);
}

static inline unsigned jamturret_report_steps(const uint8_t *report)
{
    return jamturret_word_at(report, JAMTURRET_REPORT_STEPS_AT);
}

static inline unsigned jamturret_report_boards(const uint8_t *report)
{
    return jamturret_word_at(report, JAMTURRET_REPORT_BOARDS_AT);
}

static inline unsigned jamturret_report_operations(const uint8_t *report)
{
    return jamturret_word_at(report, JAMTURRET_REPORT_OPERATIONS_AT);
}

static inline unsigned jamturret_report_pending_messages(const uint8_t *report)
{
    return jamturret_word_at(report, JAMTURRET_REPORT_PENDING_MESSAGES_AT);
}

static inline unsigned jamturret_report_pending_receives(const uint8_t *report)
{
    return jamturret_word_at(report, JAMTURRET_REPORT_PENDING_RECEIVES_AT);
}

static inline unsigned jamturret_report_cut_messages(const uint8_t *report)
{
    return jamturret_word_at(report, JAMTURRET_REPORT_CUT_MESSAGES_AT);
}

/* Rows. The rank is below jamturret_report_boards; that is not looked at. */
static inline const uint8_t *jamturret_board_row(const uint8_t *report, size_t rank)
{
    return report + JAMTURRET_REPORT(rank, 0);
}

static inline unsigned jamturret_board_row_finished(const uint8_t *report, size_t rank)
{
    return jamturret_word_at(jamturret_board_row(report, rank), JAMTURRET_BOARD_ROW_FINISHED_AT);
}

static inline unsigned jamturret_board_row_in_use(const uint8_t *report, size_t rank)
{
    return jamturret_word_at(jamturret_board_row(report, rank), JAMTURRET_BOARD_ROW_IN_USE_AT);
}

static inline unsigned jamturret_board_row_peak(const uint8_t *report, size_t rank)
{
    return jamturret_word_at(jamturret_board_row(report, rank), JAMTURRET_BOARD_ROW_PEAK_AT);
}

static inline unsigned jamturret_board_row_state(const uint8_t *report, size_t rank)
{
    return jamturret_board_row(report, rank)[JAMTURRET_BOARD_ROW_STATE_AT];
}

/* The operation is below jamturret_report_operations; that is not looked at. */
static inline const uint8_t *jamturret_operation_row(const uint8_t *report, size_t operation)
{
    return report + JAMTURRET_REPORT(jamturret_report_boards(report), operation);
}

static inline unsigned jamturret_operation_row_state(const uint8_t *report, size_t operation)
{
    return jamturret_operation_row(report, operation)[JAMTURRET_OPERATION_ROW_STATE_AT];
}

static inline unsigned jamturret_operation_row_cut(const uint8_t *report, size_t operation)
{
    return jamturret_operation_row(report, operation)[JAMTURRET_OPERATION_ROW_CUT_AT];
}

static inline unsigned jamturret_operation_row_partner(const uint8_t *report, size_t operation)
{
    return jamturret_word_at(jamturret_operation_row(report, operation),
                             JAMTURRET_OPERATION_ROW_PARTNER_AT);
}

static inline unsigned jamturret_operation_row_source(const uint8_t *report, size_t operation)
{
    return jamturret_word_at(jamturret_operation_row(report, operation),
                             JAMTURRET_OPERATION_ROW_SOURCE_AT);
}

static inline unsigned jamturret_operation_row_tag(const uint8_t *report, size_t operation)
{
    return jamturret_word_at(jamturret_operation_row(report, operation),
                             JAMTURRET_OPERATION_ROW_TAG_AT);
}

static inline unsigned jamturret_operation_row_length(const uint8_t *report, size_t operation)
{
    return jamturret_word_at(jamturret_operation_row(report, operation),
                             JAMTURRET_OPERATION_ROW_LENGTH_AT);
}

/*
 * Of a status query in state JAMTURRET_OPERATION_ENDED: 1 if the operation that
 * holds its slot was complete at its step, else 0. Not for rows of other kinds.
 */
static inline unsigned jamturret_operation_row_complete(const uint8_t *report, size_t operation)
{
    return jamturret_operation_row_length(report, operation);
}

/* A board row in numbers. */
typedef struct jamturret_board_figures {
    unsigned finished;
    unsigned in_use;
    unsigned peak;
    unsigned state;           /* an enum jamturret_board_state */
    unsigned standard_in_use; /* 0 in edition 1 */
    unsigned standard_peak;   /* 0 in edition 1 */
} jamturret_board_figures;

/* An operation row in numbers. */
typedef struct jamturret_operation_figures {
    unsigned state; /* an enum jamturret_operation_state */
    unsigned cut;
    unsigned partner;
    unsigned source;
    unsigned tag;
    unsigned length; /* of a status query: complete */
} jamturret_operation_figures;

/* Of a report of this edition. The rank is below jamturret_report_boards. */
static inline jamturret_board_figures jamturret_board_figures_of(unsigned edition,
                                                                 const uint8_t *report, size_t rank)
{
    const uint8_t *row = report + JAMTURRET_REPORT_OF(edition, rank, 0);
    const int has_room = edition == JAMTURRET_EDITION_2;
    const jamturret_board_figures figures = {
        jamturret_word_at(row, JAMTURRET_BOARD_ROW_FINISHED_AT),
        jamturret_word_at(row, JAMTURRET_BOARD_ROW_IN_USE_AT),
        jamturret_word_at(row, JAMTURRET_BOARD_ROW_PEAK_AT),
        row[JAMTURRET_BOARD_ROW_STATE_AT],
        has_room ? jamturret_word_at(row, JAMTURRET_BOARD_ROW_STANDARD_IN_USE_AT) : 0,
        has_room ? jamturret_word_at(row, JAMTURRET_BOARD_ROW_STANDARD_PEAK_AT) : 0,
    };
    return figures;
}

/* Of a report of this edition. The operation is below jamturret_report_operations. */
static inline jamturret_operation_figures
jamturret_operation_figures_of(unsigned edition, const uint8_t *report, size_t operation)
{
    const size_t boards = jamturret_report_boards(report);
    const uint8_t *row = report + JAMTURRET_REPORT_OF(edition, boards, operation);
    const jamturret_operation_figures figures = {
        row[JAMTURRET_OPERATION_ROW_STATE_AT],
        row[JAMTURRET_OPERATION_ROW_CUT_AT],
        jamturret_word_at(row, JAMTURRET_OPERATION_ROW_PARTNER_AT),
        jamturret_word_at(row, JAMTURRET_OPERATION_ROW_SOURCE_AT),
        jamturret_word_at(row, JAMTURRET_OPERATION_ROW_TAG_AT),
        jamturret_word_at(row, JAMTURRET_OPERATION_ROW_LENGTH_AT),
    };
    return figures;
}

#ifdef __cplusplus
}
#endif

#endif
