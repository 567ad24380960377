/*
 * One block of eight bytes that nobody receives, sent buffered and sent
 * synchronously: the first job finishes and delivers nothing, the second hangs.
 * Then bench job 1 of document 01, whole, and what refusals look like; and two
 * boards that both send first, without and with standard rooms.
 */
#include "jamturret.h"

#include <inttypes.h>
#include <stdio.h>

/*
 * Rooms for any sheet, zeroed. What one sheet needs: JAMTURRET_SHEET_OF,
 * JAMTURRET_REPORT_OF, JAMTURRET_ORDER_OUT, and its own inboxes.
 */
static uint8_t sheet[JAMTURRET_MOST_SHEET];
static uint8_t inbox[JAMTURRET_MOST_INBOXES];
static uint8_t report[JAMTURRET_MOST_REPORT];
static uint8_t order[JAMTURRET_MOST_ORDER];
static uint8_t scratch[JAMTURRET_SCRATCH];

static void print_refusal(const char *what, jamturret_answer answer)
{
    printf("%s: refusal %" PRIu32 ", %s %" PRIu64, what, answer.number,
           jamturret_place_words(answer.number), answer.place);
    if (answer.number == JAMTURRET_ROOM) {
        printf(" (%s)", jamturret_room_words(answer.place));
    }
    printf(": %s\n", jamturret_refusal_words(answer.number));
}

static void print_bytes(const char *name, const uint8_t *bytes, size_t count)
{
    size_t i;
    printf("  %s:", name);
    for (i = 0; i < count; i++) {
        printf(" %02X", bytes[i]);
    }
    printf("\n");
}

/* Does the verdict of one run hold for every order? */
static void print_premise(size_t sheet_len)
{
    const jamturret_answer answer = jamturret_premise(sheet, sheet_len);
    if (answer.number == JAMTURRET_SUCCESS) {
        printf("  premise: every order, taken until no board is able, ends like this\n");
    } else {
        print_refusal("  premise: another order may end otherwise", answer);
    }
}

static const char *delivery_words(unsigned verdict, unsigned pending)
{
    if (pending == 0) {
        return "every message sent was matched";
    }
    return verdict == JAMTURRET_FINISHED ? "finished but not delivered" : "not delivered";
}

/* The verdict alone does not say that the messages arrived. */
static void print_verdict(void)
{
    const unsigned verdict = jamturret_report_verdict(report);
    const unsigned pending = jamturret_report_pending_messages(report);
    printf("  verdict: %s, steps: %u\n", jamturret_verdict_words(verdict),
           jamturret_report_steps(report));
    printf("  pending messages: %u, %s\n", pending, delivery_words(verdict, pending));
}

/* Run checks the sheet itself. */
static int run(size_t sheet_len)
{
    const jamturret_answer answer
        = jamturret_run(sheet, sheet_len, inbox, sizeof inbox, report, sizeof report, order,
                        sizeof order, scratch, sizeof scratch);
    if (answer.number != JAMTURRET_SUCCESS) {
        print_refusal("run", answer);
    }
    return answer.number == JAMTURRET_SUCCESS;
}

/*
 * Rank 0 sends the block to rank 1, which has an inbox for it and no receive.
 * These are the bytes of sheets/block-buffered.sheet and
 * sheets/block-synchronous.sheet.
 */
static int block(const char *title, uint32_t mode)
{
    static const uint8_t payload[] = {0x0B, 0x0C, 0x0D, 0x0E, 0x0F, 0x10, 0x11, 0x12};
    /* number of operations, attached buffer, inbox */
    const jamturret_board boards[]
        = {{1, sizeof payload + JAMTURRET_BSEND_OVERHEAD, 0}, {0, 0, sizeof payload}};
    const jamturret_operation operations[] = {jamturret_send(mode, 1, 1, 0, sizeof payload)};
    const jamturret_job job = {1, boards, 2, operations, 1, payload, sizeof payload};
    const size_t sheet_len = JAMTURRET_SHEET(2, 1, sizeof payload);
    const jamturret_answer answer = jamturret_build(&job, sheet, sizeof sheet);
    if (answer.number != JAMTURRET_SUCCESS) {
        print_refusal("build", answer);
        return 0;
    }
    printf("%s\n", title);
    printf("  sheet: %zu bytes, CRC %04X\n", sheet_len, jamturret_crc(sheet, sheet_len));
    if (!run(sheet_len)) {
        return 0;
    }
    print_verdict();
    printf("  operation 0: %s\n",
           jamturret_operation_state_words(jamturret_operation_row_state(report, 0)));
    printf("  rank 0: %s, buffer in use: %u\n",
           jamturret_board_state_words(jamturret_board_row_state(report, 0)),
           jamturret_board_row_in_use(report, 0));
    print_premise(sheet_len);
    return 1;
}

/* Rank 0 sends 3 bytes with tag 7, synchronous; rank 1 receives any tag into 4 bytes. */
static size_t build_handshake(void)
{
    static const uint8_t payload[] = {'J', 'A', 'M'};
    const jamturret_board boards[] = {{1, 0, 0}, {1, 0, 4}};
    const jamturret_operation operations[] = {
        jamturret_send(JAMTURRET_KIND_SYNCHRONOUS, 1, 7, 0, sizeof payload),
        jamturret_receive(0, JAMTURRET_ANY, 0, 4),
    };
    const jamturret_job job = {1, boards, 2, operations, 2, payload, sizeof payload};
    const jamturret_answer answer = jamturret_build(&job, sheet, sizeof sheet);
    if (answer.number != JAMTURRET_SUCCESS) {
        print_refusal("build", answer);
        return 0;
    }
    return JAMTURRET_SHEET(2, 2, sizeof payload);
}

static int handshake(size_t sheet_len)
{
    printf("Bench job 1, a synchronous send that is received\n");
    if (!run(sheet_len)) {
        return 0;
    }
    print_verdict();
    print_premise(sheet_len);
    print_bytes("report", report, JAMTURRET_REPORT(2, 2));
    print_bytes("order", order, jamturret_report_steps(report));
    printf("  operation 1: %s with operation %u, source %u, tag %u, %u bytes\n",
           jamturret_operation_state_words(jamturret_operation_row_state(report, 1)),
           jamturret_operation_row_partner(report, 1), jamturret_operation_row_source(report, 1),
           jamturret_operation_row_tag(report, 1), jamturret_operation_row_length(report, 1));
    print_bytes("inbox of rank 1", inbox, 4);
    return 1;
}

/* What is wrong is answered, and no room is touched. */
static void refusals(size_t sheet_len)
{
    /* The job has finished after four steps: nobody is able to take a fifth. */
    static const uint8_t too_long[] = {0, 1, 0, 1, 1};
    const jamturret_board board = {1, 0, 0};
    const jamturret_operation wide = jamturret_send(JAMTURRET_KIND_STANDARD, 0, 70000, 0, 0);
    const jamturret_job job = {1, &board, 1, &wide, 1, NULL, 0};
    printf("Refusals\n");
    print_refusal("  a tag of 70,000", jamturret_build(&job, sheet, sizeof sheet));
    print_refusal("  report room one byte short",
                  jamturret_run(sheet, sheet_len, inbox, sizeof inbox, report,
                                JAMTURRET_REPORT(2, 2) - 1, order, sizeof order, scratch,
                                sizeof scratch));
    print_refusal("  order with a fifth step",
                  jamturret_follow(sheet, sheet_len, too_long, sizeof too_long, inbox, sizeof inbox,
                                   report, sizeof report, scratch, sizeof scratch));
    sheet[sheet_len - 1] ^= 1;
    print_refusal("  a bit of the payload flipped", jamturret_check(sheet, sheet_len));
}

/*
 * Bench job 6 in edition 2: both boards send two bytes in standard mode, then
 * receive. With rooms of two bytes these are the bytes of
 * sheets/both-send-first-covered.sheet.
 */
static int both_send_first(uint32_t room)
{
    static const uint8_t payload[] = {0x0B, 0x0C, 0x0D, 0x0E};
    const jamturret_board boards[] = {{2, 0, 2}, {2, 0, 2}};
    const uint32_t standard_rooms[] = {room, room};
    const jamturret_operation operations[] = {
        jamturret_send(JAMTURRET_KIND_STANDARD, 1, 5, 0, 2), jamturret_receive(1, 5, 0, 2),
        jamturret_send(JAMTURRET_KIND_STANDARD, 0, 5, 2, 2), jamturret_receive(0, 5, 0, 2),
    };
    const jamturret_job job = {1, boards, 2, operations, 4, payload, sizeof payload};
    const size_t sheet_len = JAMTURRET_SHEET_OF(JAMTURRET_EDITION_2, 2, 4, sizeof payload);
    const jamturret_answer answer = jamturret_build_2(&job, standard_rooms, sheet, sizeof sheet);
    jamturret_board_figures rank_0;
    if (answer.number != JAMTURRET_SUCCESS) {
        print_refusal("build", answer);
        return 0;
    }
    printf("Both boards send first, standard rooms of %" PRIu32 " bytes\n", room);
    if (!run(sheet_len)) {
        return 0;
    }
    print_verdict();
    rank_0 = jamturret_board_figures_of(jamturret_sheet_edition(sheet), report, 0);
    printf("  rank 0: %s, standard room in use: %u, at the peak: %u\n",
           jamturret_board_state_words(rank_0.state), rank_0.standard_in_use, rank_0.standard_peak);
    print_premise(sheet_len);
    return 1;
}

int main(void)
{
    size_t sheet_len;
    if (!block("A block that nobody receives, sent buffered", JAMTURRET_KIND_BUFFERED)
        || !block("The same block, sent synchronously", JAMTURRET_KIND_SYNCHRONOUS)) {
        return 1;
    }
    sheet_len = build_handshake();
    if (sheet_len == 0 || !handshake(sheet_len)) {
        return 1;
    }
    refusals(sheet_len);
    return both_send_first(0) && both_send_first(2) ? 0 : 1;
}
