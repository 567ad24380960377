/*
 * jamturret_report.h and jamturret_words.h: where the fields stand, the readers
 * against document 01's whole report and against a report in which no two
 * fields are equal, read in both editions, verdicts and states against the
 * library, and words for every number.
 */
#include "test_expect.h"

#include <string.h>

/* The fields of a record lie one after another, with the widths of document 01, and fill it. */
static void expect_fields(const char *record, const size_t *at, const char *widths, size_t bytes)
{
    size_t next = 0;
    size_t i;
    for (i = 0; widths[i] != '\0'; i++) {
        expect(record, at[i], next);
        next += widths[i] == '1' ? 1 : 2;
    }
    expect(record, bytes, next);
}

static void fields(void)
{
    static const size_t sheet[]
        = {JAMTURRET_SHEET_BOARDS_AT,          JAMTURRET_SHEET_COMMUNICATORS_AT,
           JAMTURRET_SHEET_OPERATIONS_AT,      JAMTURRET_SHEET_BOARD_TABLE_AT,
           JAMTURRET_SHEET_OPERATION_TABLE_AT, JAMTURRET_SHEET_PAYLOAD_AT,
           JAMTURRET_SHEET_PAYLOAD_LENGTH_AT,  JAMTURRET_SHEET_CRC_AT};
    static const size_t entry[]
        = {JAMTURRET_ENTRY_FIRST_AT, JAMTURRET_ENTRY_COUNT_AT, JAMTURRET_ENTRY_ATTACHED_AT,
           JAMTURRET_ENTRY_INBOX_AT, JAMTURRET_ENTRY_STANDARD_ROOM_AT};
    static const size_t operation[]
        = {JAMTURRET_OPERATION_KIND_AT,   JAMTURRET_OPERATION_FLAG_AT,
           JAMTURRET_OPERATION_PEER_AT,   JAMTURRET_OPERATION_COMMUNICATOR_AT,
           JAMTURRET_OPERATION_ZERO_AT,   JAMTURRET_OPERATION_TAG_AT,
           JAMTURRET_OPERATION_OFFSET_AT, JAMTURRET_OPERATION_LENGTH_AT,
           JAMTURRET_OPERATION_SLOT_AT};
    static const size_t report[]
        = {JAMTURRET_REPORT_VERDICT_AT,          JAMTURRET_REPORT_STOP_RANK_AT,
           JAMTURRET_REPORT_STOP_OPERATION_AT,   JAMTURRET_REPORT_STEPS_AT,
           JAMTURRET_REPORT_BOARDS_AT,           JAMTURRET_REPORT_OPERATIONS_AT,
           JAMTURRET_REPORT_PENDING_MESSAGES_AT, JAMTURRET_REPORT_PENDING_RECEIVES_AT,
           JAMTURRET_REPORT_CUT_MESSAGES_AT};
    static const size_t board_row[]
        = {JAMTURRET_BOARD_ROW_FINISHED_AT,        JAMTURRET_BOARD_ROW_IN_USE_AT,
           JAMTURRET_BOARD_ROW_PEAK_AT,            JAMTURRET_BOARD_ROW_STATE_AT,
           JAMTURRET_BOARD_ROW_ZERO_AT,            JAMTURRET_BOARD_ROW_STANDARD_IN_USE_AT,
           JAMTURRET_BOARD_ROW_STANDARD_PEAK_AT};
    static const size_t operation_row[]
        = {JAMTURRET_OPERATION_ROW_STATE_AT,   JAMTURRET_OPERATION_ROW_CUT_AT,
           JAMTURRET_OPERATION_ROW_PARTNER_AT, JAMTURRET_OPERATION_ROW_SOURCE_AT,
           JAMTURRET_OPERATION_ROW_TAG_AT,     JAMTURRET_OPERATION_ROW_LENGTH_AT,
           JAMTURRET_OPERATION_ROW_ZERO_AT};
    expect_fields("sheet's header", sheet, "22222222", JAMTURRET_SHEET_HEADER_BYTES);
    expect_fields("board entry", entry, "2222", JAMTURRET_ENTRY_BYTES);
    expect_fields("board entry of edition 2", entry, "22222", JAMTURRET_ENTRY_2_BYTES);
    expect_fields("operation", operation, "112222222", JAMTURRET_OPERATION_BYTES);
    expect_fields("report's header", report, "112222222", JAMTURRET_REPORT_HEADER_BYTES);
    expect_fields("board row", board_row, "22211", JAMTURRET_BOARD_ROW_BYTES);
    expect_fields("board row of edition 2", board_row, "2221122", JAMTURRET_BOARD_ROW_2_BYTES);
    expect_fields("operation row", operation_row, "1122222", JAMTURRET_OPERATION_ROW_BYTES);
}

/* What the readers give, in the order of the fields. */
static void expect_header(const char *what, const uint8_t *report, const unsigned *wanted)
{
    const unsigned got[9]
        = {jamturret_report_verdict(report),          jamturret_report_stop_rank(report),
           jamturret_report_stop_operation(report),   jamturret_report_steps(report),
           jamturret_report_boards(report),           jamturret_report_operations(report),
           jamturret_report_pending_messages(report), jamturret_report_pending_receives(report),
           jamturret_report_cut_messages(report)};
    size_t i;
    for (i = 0; i < 9; i++) {
        expect(what, got[i], wanted[i]);
    }
}

static void expect_board(const char *what, const uint8_t *report, size_t rank,
                         const unsigned *wanted)
{
    const unsigned got[4]
        = {jamturret_board_row_finished(report, rank), jamturret_board_row_in_use(report, rank),
           jamturret_board_row_peak(report, rank), jamturret_board_row_state(report, rank)};
    size_t i;
    for (i = 0; i < 4; i++) {
        expect(what, got[i], wanted[i]);
    }
}

static void expect_operation(const char *what, const uint8_t *report, size_t operation,
                             const unsigned *wanted)
{
    const unsigned got[6] = {
        jamturret_operation_row_state(report, operation),
        jamturret_operation_row_cut(report, operation),
        jamturret_operation_row_partner(report, operation),
        jamturret_operation_row_source(report, operation),
        jamturret_operation_row_tag(report, operation),
        jamturret_operation_row_length(report, operation),
    };
    size_t i;
    for (i = 0; i < 6; i++) {
        expect(what, got[i], wanted[i]);
    }
}

/* Document 01, The report: the whole report for case 1 under run. */
static void document_report(void)
{
    static const uint8_t report[] = {
        0x01, 0xFF, 0xFF, 0xFF, 0x04, 0x00, 0x02, 0x00,
        0x02, 0x00, 0x00, 0x00, 0x00, 0x00, 0x00, 0x00,
        0x01, 0x00, 0x00, 0x00, 0x00, 0x00, 0x02, 0x00,
        0x01, 0x00, 0x00, 0x00, 0x00, 0x00, 0x02, 0x00,
        0x03, 0x00, 0x01, 0x00, 0xFF, 0xFF, 0xFF, 0xFF, 0x00, 0x00, 0x00, 0x00,
        0x03, 0x00, 0x00, 0x00, 0x00, 0x00, 0x07, 0x00, 0x03, 0x00, 0x00, 0x00,
    };
    static const unsigned header[]
        = {JAMTURRET_FINISHED, JAMTURRET_NO_RANK, JAMTURRET_NONE, 4, 2, 2, 0, 0, 0};
    static const unsigned board[] = {1, 0, 0, JAMTURRET_BOARD_FINISHED};
    static const unsigned send[]
        = {JAMTURRET_OPERATION_MATCHED, 0, 1, JAMTURRET_NONE, JAMTURRET_NONE, 0};
    static const unsigned receive[] = {JAMTURRET_OPERATION_MATCHED, 0, 0, 0, 7, 3};
    expect("length of document 01's report", JAMTURRET_REPORT(2, 2), sizeof report);
    expect_header("document 01's header", report, header);
    expect_board("document 01's rank 0", report, 0, board);
    expect_board("document 01's rank 1", report, 1, board);
    expect_operation("document 01's operation 0", report, 0, send);
    expect_operation("document 01's operation 1", report, 1, receive);
}

/* The rows of rank 1 and of operation 1, read whole. */
static void expect_figures(const char *what, unsigned edition, const uint8_t *report,
                           const unsigned *board, const unsigned *operation)
{
    const jamturret_board_figures read = jamturret_board_figures_of(edition, report, 1);
    const jamturret_operation_figures told = jamturret_operation_figures_of(edition, report, 1);
    const unsigned got[12] = {read.finished,        read.in_use,        read.peak,   read.state,
                              read.standard_in_use, read.standard_peak, told.state,  told.cut,
                              told.partner,         told.source,        told.tag,    told.length};
    size_t i;
    for (i = 0; i < 12; i++) {
        expect(what, got[i], i < 6 ? board[i] : operation[i - 6]);
    }
}

/*
 * Each byte of two boards' and two operations' report is its own place, but P
 * and N. Rank 1's row is at 24 and operation 1's at 44, in edition 2 at 28 and
 * at 52.
 */
static void numbered_report(void)
{
    static const unsigned header[]
        = {0x00, 0x01, 0x0302, 0x0504, 2, 2, 0x0B0A, 0x0D0C, 0x0F0E};
    static const unsigned board[] = {0x1918, 0x1B1A, 0x1D1C, 0x1E, 0, 0};
    static const unsigned operation[] = {0x2C, 0x2D, 0x2F2E, 0x3130, 0x3332, 0x3534};
    static const unsigned board_2[] = {0x1D1C, 0x1F1E, 0x2120, 0x22, 0x2524, 0x2726};
    static const unsigned operation_2[] = {0x34, 0x35, 0x3736, 0x3938, 0x3B3A, 0x3D3C};
    uint8_t report[64];
    size_t i;
    for (i = 0; i < sizeof report; i++) {
        report[i] = JAMTURRET_CAST(uint8_t, i);
    }
    report[6] = 2;
    report[7] = 0;
    report[8] = 2;
    report[9] = 0;
    expect_header("numbered header", report, header);
    expect_board("numbered rank 1", report, 1, board);
    expect_operation("numbered operation 1", report, 1, operation);
    expect_figures("numbered rows", JAMTURRET_EDITION_1, report, board, operation);
    expect_figures("numbered rows of edition 2", JAMTURRET_EDITION_2, report, board_2, operation_2);
    expect("length of edition 2", JAMTURRET_REPORT_OF(JAMTURRET_EDITION_2, 2, 2), sizeof report);
}

/* Rank 1's inbox of four bytes, and two bytes behind it. */
static uint8_t inbox[6];

/*
 * Rank 0 has the given script and buffer, rank 1 receives tag 1 from rank 0
 * into four bytes. Follows it for some steps of the order 0, 1, 1, 0, from an
 * inbox of 0xEE.
 */
static const uint8_t *followed(const jamturret_operation *script, uint32_t count, uint32_t attached,
                               size_t steps)
{
    static const uint8_t order[] = {0, 1, 1, 0};
    static const uint8_t payload[] = {1, 2, 3, 4, 5};
    static uint8_t sheet[JAMTURRET_SHEET(2, 3, 5)];
    static uint8_t report[JAMTURRET_REPORT(2, 3)];
    static uint8_t scratch[JAMTURRET_SCRATCH];
    const jamturret_board boards[] = {{count, attached, 0}, {1, 0, 4}};
    jamturret_operation operations[3];
    const jamturret_job job = {1, boards, 2, operations, count + 1, payload, 5};
    memset(inbox, 0xEE, sizeof inbox);
    memcpy(operations, script, count * sizeof *script);
    operations[count] = jamturret_receive(0, 1, 0, 4);
    expect_answer("build", jamturret_build(&job, sheet, sizeof sheet), JAMTURRET_SUCCESS, 0);
    expect_answer("follow",
                  jamturret_follow(sheet, JAMTURRET_SHEET(2, count + 1, 5), order, steps, inbox,
                                   sizeof inbox, report, sizeof report, scratch, sizeof scratch),
                  JAMTURRET_SUCCESS, 0);
    return report;
}

/* The row of an operation that is not matched tells nothing but its state. */
static void expect_unmatched(const char *what, const uint8_t *report, size_t operation,
                             unsigned state)
{
    const unsigned row[] = {state, 0, JAMTURRET_NONE, JAMTURRET_NONE, JAMTURRET_NONE, 0};
    expect_operation(what, report, operation, row);
}

/* Five bytes, buffered. They go into an attached buffer of 5 + 32 and not into one byte less. */
static void buffered_send(void)
{
    static const unsigned able[]
        = {JAMTURRET_STILL_ABLE, JAMTURRET_NO_RANK, JAMTURRET_NONE, 0, 2, 2, 0, 0, 0};
    static const unsigned at_start[] = {0, 0, 0, JAMTURRET_BOARD_ABLE};
    static const unsigned in_use[] = {0, 37, 37, JAMTURRET_BOARD_ABLE};
    static const unsigned overflow[] = {JAMTURRET_OVERFLOW, 0, 0, 1, 2, 2, 0, 0, 0};
    static const unsigned stopped[] = {0, 0, 0, JAMTURRET_BOARD_NEITHER};
    const jamturret_operation send = jamturret_send(JAMTURRET_KIND_BUFFERED, 1, 1, 0, 5);
    const uint8_t *report = followed(&send, 1, 37, 0);
    expect_header("no step", report, able);
    expect_board("no step", report, 0, at_start);
    expect_unmatched("no step", report, 0, JAMTURRET_OPERATION_NOT_ENTERED);
    report = followed(&send, 1, 37, 1);
    expect_board("buffered", report, 0, in_use);
    expect_unmatched("buffered", report, 0, JAMTURRET_OPERATION_BUFFERED);
    report = followed(&send, 1, 36, 1);
    expect_header("overflow", report, overflow);
    expect_board("overflow", report, 0, stopped);
    expect_unmatched("overflow", report, 0, JAMTURRET_OPERATION_NOT_ENTERED);
}

/* Rank 1 has not posted its receive when the ready send starts. */
static void ready_send(void)
{
    static const unsigned not_ready[] = {JAMTURRET_NOT_READY, 0, 0, 1, 2, 2, 0, 0, 0};
    const jamturret_operation send = jamturret_send(JAMTURRET_KIND_READY, 1, 1, 0, 5);
    expect_header("not ready", followed(&send, 1, 0, 1), not_ready);
}

/*
 * Five bytes into four: cut, and the first four are copied. Rank 0 steps for
 * send and wait, rank 1 twice for its receive.
 */
static void nonblocking_send(void)
{
    static const unsigned cut[]
        = {JAMTURRET_FINISHED, JAMTURRET_NO_RANK, JAMTURRET_NONE, 4, 2, 3, 0, 0, 1};
    static const unsigned receive[] = {JAMTURRET_OPERATION_MATCHED, 1, 0, 0, 1, 5};
    static const uint8_t front[] = {1, 2, 3, 4, 0xEE, 0xEE};
    const jamturret_operation script[]
        = {jamturret_nonblocking(jamturret_send(JAMTURRET_KIND_STANDARD, 1, 1, 0, 5), 9),
           jamturret_wait(9)};
    const uint8_t *report = followed(script, 2, 0, 4);
    expect_header("cut", report, cut);
    expect_unmatched("wait", report, 1, JAMTURRET_OPERATION_ENDED);
    expect_operation("cut", report, 2, receive);
    expect("the front of a cut message, and nothing behind it",
           memcmp(inbox, front, sizeof front) == 0, 1);
}

/* Tag 2 does not fit: after two steps both are pending and nobody is able. */
static void unfit_send(void)
{
    static const unsigned deadlock[]
        = {JAMTURRET_DEADLOCK, JAMTURRET_NO_RANK, JAMTURRET_NONE, 2, 2, 2, 1, 1, 0};
    const jamturret_operation send = jamturret_send(JAMTURRET_KIND_STANDARD, 1, 2, 0, 5);
    const uint8_t *report = followed(&send, 1, 0, 2);
    expect_header("deadlock", report, deadlock);
    expect_unmatched("deadlock", report, 0, JAMTURRET_OPERATION_PENDING);
    expect_unmatched("deadlock", report, 1, JAMTURRET_OPERATION_PENDING);
}

static const char *room_words(uint32_t number)
{
    return jamturret_room_words(number);
}

/*
 * Every number has words; those listed, and no others, have words that differ
 * from those of a number without meaning, and from each other's.
 */
static void expect_words(const char *what, const char *(*words)(uint32_t), const uint32_t *known,
                         size_t count)
{
    const char *unknown = words(UINT32_MAX);
    uint32_t number;
    size_t i;
    size_t j;
    for (number = 0; number < 1000; number++) {
        int listed = 0;
        for (i = 0; i < count; i++) {
            listed = listed || known[i] == number;
        }
        expect(what, strlen(words(number)) > 0, 1);
        expect(what, strcmp(words(number), unknown) != 0, listed != 0);
    }
    for (i = 0; i < count; i++) {
        for (j = 0; j < i; j++) {
            expect(what, strcmp(words(known[i]), words(known[j])) != 0, 1);
        }
    }
}

static void words(void)
{
    static const uint32_t refusals[]
        = {0, 1, 2, 3, 4, 5, 6, 7, 8, 9, 20, 21, 22, 23, 24, 30, 31, 32, 33};
    static const uint32_t rooms[] = {1, 2, 3, 4};
    static const uint32_t verdicts[] = {0, 1, 2, 3, 4};
    static const uint32_t board_states[] = {0, 1, 2};
    static const uint32_t operation_states[] = {0, 1, 2, 3, 5};
    static const uint32_t completeness[] = {0, 1};
    uint32_t number;
    expect_words("words of refusals", jamturret_refusal_words, refusals, 19);
    expect_words("words of rooms", room_words, rooms, 4);
    expect_words("words of verdicts", jamturret_verdict_words, verdicts, 5);
    expect_words("words of board states", jamturret_board_state_words, board_states, 3);
    expect_words("words of operation states", jamturret_operation_state_words, operation_states, 5);
    expect_words("words of queries", jamturret_complete_words, completeness, 2);
    expect("place of a status query",
           strcmp(jamturret_place_words(JAMTURRET_STATUS_QUERY), "operation") == 0, 1);
    expect("place of a short standard room",
           strcmp(jamturret_place_words(JAMTURRET_STANDARD_UNCOVERED), "rank") == 0, 1);
    for (number = 0; number < 1000; number++) {
        expect("words of places", strlen(jamturret_place_words(number)) > 0, 1);
    }
}

int main(void)
{
    fields();
    document_report();
    numbered_report();
    buffered_send();
    ready_send();
    nonblocking_send();
    unfit_send();
    words();
    return expect_end("report_test");
}
