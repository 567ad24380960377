/*
 * One sheet at a time for the tests, put to every service: its bytes, the rooms
 * that are lent, and calls with them.
 */
#ifndef TEST_SERVICES_H
#define TEST_SERVICES_H

#include "test_expect.h"

#include <string.h>

/* The largest sheet of these tests, and what stands in a room before a call. */
enum { TEST_OPERATIONS = 2 * JAMTURRET_SLOTS, TEST_INBOXES = 16, TEST_PAYLOAD = 8, FILL = 0xA5 };

static uint8_t sheet[JAMTURRET_SHEET_OF(JAMTURRET_EDITION_2, JAMTURRET_MOST_BOARDS,
                                        TEST_OPERATIONS, TEST_PAYLOAD)];
static size_t sheet_len;
static uint8_t inbox[TEST_INBOXES];
static uint8_t report[JAMTURRET_REPORT_OF(JAMTURRET_EDITION_2, JAMTURRET_MOST_BOARDS,
                                          TEST_OPERATIONS)];
static uint8_t order[JAMTURRET_ORDER_OUT(TEST_OPERATIONS)];
static uint8_t scratch[JAMTURRET_SCRATCH];

static inline void lay_out(const jamturret_job *job)
{
    expect_answer("build", jamturret_build(job, sheet, sizeof sheet), JAMTURRET_SUCCESS, 0);
    sheet_len = JAMTURRET_SHEET(job->board_count, job->operation_count, job->payload_len);
}

/* In edition 2, with the boards' standard rooms. */
static inline void lay_out_2(const jamturret_job *job, const uint32_t *standard_rooms)
{
    expect_answer("build", jamturret_build_2(job, standard_rooms, sheet, sizeof sheet),
                  JAMTURRET_SUCCESS, 0);
    sheet_len = JAMTURRET_SHEET_OF(JAMTURRET_EDITION_2, job->board_count, job->operation_count,
                                   job->payload_len);
}

/* Of a sheet whose bytes were changed behind the builder's back. */
static inline void mend_crc(void)
{
    jamturret_put_word(sheet + JAMTURRET_SHEET_CRC_AT, jamturret_crc(sheet, sheet_len));
}

static inline void fill_rooms(void)
{
    memset(inbox, FILL, sizeof inbox);
    memset(report, FILL, sizeof report);
    memset(order, FILL, sizeof order);
    memset(scratch, FILL, sizeof scratch);
}

static inline jamturret_answer run(void)
{
    return jamturret_run(sheet, sheet_len, inbox, sizeof inbox, report, sizeof report, order,
                         sizeof order, scratch, sizeof scratch);
}

static inline jamturret_answer follow(const uint8_t *steps, size_t count)
{
    return jamturret_follow(sheet, sheet_len, steps, count, inbox, sizeof inbox, report,
                            sizeof report, scratch, sizeof scratch);
}

/* Of a sheet that passes. The rooms are zeroed: whatever is answered, the report can be read. */
static inline void expect_run(const char *what)
{
    memset(inbox, 0, sizeof inbox);
    memset(report, 0, sizeof report);
    expect_answer(what, run(), JAMTURRET_SUCCESS, 0);
}

static inline void expect_followed(const char *what, const uint8_t *steps, size_t count)
{
    memset(inbox, 0, sizeof inbox);
    memset(report, 0, sizeof report);
    expect_answer(what, follow(steps, count), JAMTURRET_SUCCESS, 0);
}

/* Of the sheet that was laid out: neither short rooms nor a false step is told. */
static inline void expect_refused(const char *what, uint32_t number, uint64_t place)
{
    static const uint8_t no_rank[] = {255};
    expect_answer(what, jamturret_check(sheet, sheet_len), number, place);
    expect_answer(what, jamturret_premise(sheet, sheet_len), number, place);
    fill_rooms();
    expect_answer(what, run(), number, place);
    expect_answer(what, follow(no_rank, 0), number, place);
    expect_answer(what, follow(no_rank, 1), number, place);
    expect_answer(what, jamturret_run(sheet, sheet_len, inbox, 0, report, 0, order, 0, scratch, 0),
                  number, place);
    expect_answer(what,
                  jamturret_follow(sheet, sheet_len, no_rank, 1, inbox, 0, report, 0, scratch, 0),
                  number, place);
    expect_filled("inbox after a refusal", inbox, FILL, sizeof inbox);
    expect_filled("report after a refusal", report, FILL, sizeof report);
    expect_filled("order after a refusal", order, FILL, sizeof order);
    expect_filled("scratch after a refusal", scratch, FILL, sizeof scratch);
}

/* The sheet that was laid out passes, with this answer of premise. */
static inline void expect_accepted(const char *what, uint32_t number, uint64_t place)
{
    static const uint8_t no_rank[] = {255};
    expect_answer(what, jamturret_check(sheet, sheet_len), JAMTURRET_SUCCESS, 0);
    expect_answer(what, jamturret_premise(sheet, sheet_len), number, place);
    fill_rooms();
    expect_answer(what, run(), JAMTURRET_SUCCESS, 0);
    expect_answer(what, follow(no_rank, 0), JAMTURRET_SUCCESS, 0);
    expect_answer(what, follow(no_rank, 1), JAMTURRET_ORDER, 0);
}

#endif
