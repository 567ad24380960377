/*
 * Refusal 7: slots that are taken twice or not held, shared areas, and behind
 * them forgotten requests (document 02, K7). Every service that reads a sheet
 * answers the same, before it looks at rooms and order, and leaves every room
 * as it was. Then what is pending where a job finishes.
 */
#include "test_services.h"

/* The scripts are those of the first rank and of the last. */
enum { LAST = JAMTURRET_MOST_BOARDS - 1, INBOX = TEST_INBOXES / 2 };

/* A job of these scripts, one after the other in the array. */
static void build(const jamturret_operation *operations, uint32_t first, uint32_t last)
{
    static const uint8_t payload[] = {0x0B};
    jamturret_board boards[JAMTURRET_MOST_BOARDS];
    const jamturret_job job
        = {1, boards, JAMTURRET_MOST_BOARDS, operations, first + last, payload, 1};
    memset(boards, 0, sizeof boards);
    boards[0].count = first;
    boards[0].inbox = INBOX;
    boards[LAST].count = last;
    boards[LAST].inbox = INBOX;
    lay_out(&job);
}

/* A nonblocking send of one byte, a nonblocking receive into four. */
static jamturret_operation isend(uint32_t to, uint32_t slot)
{
    return jamturret_nonblocking(jamturret_send(JAMTURRET_KIND_STANDARD, to, 0, 0, 1), slot);
}

static jamturret_operation ireceive(uint32_t from, uint32_t offset, uint32_t slot)
{
    return jamturret_nonblocking(jamturret_receive(from, 0, offset, 4), slot);
}

typedef struct scripts {
    const char *name;
    uint64_t place; /* of refusal 7 */
    uint32_t first; /* operations of the first rank */
    uint32_t last;
    jamturret_operation operations[5];
} scripts;

static void expect_all_refused(const scripts *refused, size_t count)
{
    size_t i;
    for (i = 0; i < count; i++) {
        build(refused[i].operations, refused[i].first, refused[i].last);
        expect_refused(refused[i].name, JAMTURRET_SLOT_OR_AREA, refused[i].place);
    }
}

/* The place is the operation's, whatever its slot; a wait frees a slot of its own board alone. */
static void forgotten(void)
{
    const jamturret_operation send = jamturret_send(JAMTURRET_KIND_STANDARD, LAST, 0, 0, 1);
    const jamturret_operation receive = jamturret_receive(0, 0, 0, 4);
    const scripts refused[] = {
        {"send, first rank", 0, 1, 1, {isend(LAST, 3), receive}},
        {"receive, first rank", 1, 2, 1, {send, ireceive(LAST, 0, 3), receive}},
        {"send, last rank", 1, 1, 1, {send, isend(0, 3)}},
        {"receive, last rank", 1, 1, 1, {send, ireceive(0, 0, 3)}},
        {"the table's last operation",
         4, 2, 3, {isend(LAST, 0), jamturret_wait(0), isend(0, 1), jamturret_wait(1), isend(0, 0)}},
        {"two on one rank", 1, 3, 0, {send, isend(LAST, 31), ireceive(LAST, 0, 0)}},
        {"two on two ranks",
         2, 3, 1, {isend(LAST, 0), jamturret_wait(0), isend(LAST, 1), isend(0, 0)}},
        {"two behind one that is waited for",
         1, 4, 0, {isend(LAST, 5), isend(LAST, 2), ireceive(LAST, 0, 9), jamturret_wait(5)}},
        {"slot taken again", 2, 3, 0, {isend(LAST, 7), jamturret_wait(7), ireceive(LAST, 0, 7)}},
        {"slot that another rank frees", 0, 1, 2, {isend(LAST, 0), isend(0, 0), jamturret_wait(0)}},
        {"slot 31", 0, 1, 0, {isend(LAST, 31)}},
    };
    expect_all_refused(refused, sizeof refused / sizeof refused[0]);
}

/* What else 7 is given for wins, also behind a forgotten request and on another rank. */
static void other_rules_first(void)
{
    const scripts refused[] = {
        {"shared area on the same rank",
         2, 5, 0, {isend(LAST, 0), ireceive(LAST, 0, 1), ireceive(LAST, 3, 2), jamturret_wait(1),
                   jamturret_wait(2)}},
        {"shared area on a later rank",
         2, 1, 4, {ireceive(LAST, 0, 0), ireceive(0, 0, 0), ireceive(0, 3, 1), jamturret_wait(0),
                   jamturret_wait(1)}},
        {"slot taken twice on a later rank",
         2, 1, 3, {isend(LAST, 0), isend(0, 4), isend(0, 4), jamturret_wait(4)}},
        {"wait for nothing on a later rank", 1, 1, 1, {isend(LAST, 0), jamturret_wait(0)}},
        {"second wait for a slot",
         3, 4, 0, {isend(LAST, 0), isend(LAST, 1), jamturret_wait(1), jamturret_wait(1)}},
        {"wait before its operation", 0, 2, 0, {jamturret_wait(3), isend(LAST, 3)}},
    };
    jamturret_operation wrong[2];
    expect_all_refused(refused, sizeof refused / sizeof refused[0]);
    wrong[0] = isend(LAST, 0);
    wrong[1] = jamturret_send(JAMTURRET_KIND_STANDARD, 0, JAMTURRET_MOST_TAG + 1, 0, 1);
    build(wrong, 1, 1);
    expect_refused("wrong field on a later rank", JAMTURRET_OPERATION, 1);
}

/* The wait is the last operation of a script, and of the whole table. */
static void waited_for(void)
{
    const jamturret_operation last[]
        = {isend(LAST, 31), jamturret_wait(31), ireceive(0, 0, 31), jamturret_wait(31)};
    const jamturret_operation again[]
        = {isend(LAST, 7),       jamturret_wait(7), isend(LAST, 7),
           ireceive(LAST, 0, 6), jamturret_wait(6), jamturret_wait(7)};
    build(last, 2, 2);
    expect_accepted("waits at the end", JAMTURRET_SUCCESS, 0);
    build(again, 6, 0);
    expect_accepted("slot taken again and waited for", JAMTURRET_SUCCESS, 0);
}

/* A rank holds all its slots at once and waits for all of them; then for all but one. */
static void every_slot(void)
{
    jamturret_operation operations[TEST_OPERATIONS];
    uint32_t left_out;
    for (left_out = 0; left_out <= JAMTURRET_SLOTS; left_out++) {
        uint32_t count = 0;
        uint32_t slot;
        for (slot = 0; slot < JAMTURRET_SLOTS; slot++) {
            operations[count++] = isend(0, slot);
        }
        for (slot = 0; slot < JAMTURRET_SLOTS; slot++) {
            if (slot != left_out) {
                operations[count++] = jamturret_wait(slot);
            }
        }
        build(operations, 0, count);
        if (left_out < JAMTURRET_SLOTS) {
            expect_refused("all slots but one", JAMTURRET_SLOT_OR_AREA, left_out);
        } else {
            expect_accepted("all slots", JAMTURRET_SUCCESS, 0);
        }
    }
}

/*
 * The first rank starts an operation that nobody answers and waits for it.
 * Only a buffered send is then complete: the job finishes, with its message in
 * the buffer. The others hang. Without the wait each of them is refused.
 */
static void unanswered(void)
{
    static const struct {
        const char *name;
        uint32_t kind;
        unsigned verdict;
        unsigned state;
        unsigned messages;
        unsigned receives;
    } ends[] = {
        {"buffered", JAMTURRET_KIND_BUFFERED, JAMTURRET_FINISHED, JAMTURRET_OPERATION_BUFFERED, 1,
         0},
        {"standard", JAMTURRET_KIND_STANDARD, JAMTURRET_DEADLOCK, JAMTURRET_OPERATION_PENDING, 1,
         0},
        {"synchronous", JAMTURRET_KIND_SYNCHRONOUS, JAMTURRET_DEADLOCK,
         JAMTURRET_OPERATION_PENDING, 1, 0},
        {"receive", JAMTURRET_KIND_RECEIVE, JAMTURRET_DEADLOCK, JAMTURRET_OPERATION_PENDING, 0, 1},
    };
    static const uint8_t payload[] = {0x0B};
    size_t i;
    for (i = 0; i < sizeof ends / sizeof ends[0]; i++) {
        const jamturret_board boards[] = {{2, 1 + JAMTURRET_BSEND_OVERHEAD, 1}, {0, 0, 0}};
        jamturret_operation operations[] = {isend(1, 0), jamturret_wait(0)};
        const jamturret_job job = {1, boards, 2, operations, 2, payload, sizeof payload};
        operations[0].kind = ends[i].kind;
        lay_out(&job);
        expect_run(ends[i].name);
        expect(ends[i].name, jamturret_report_verdict(report), ends[i].verdict);
        expect(ends[i].name, jamturret_operation_row_state(report, 0), ends[i].state);
        expect(ends[i].name, jamturret_report_pending_messages(report), ends[i].messages);
        expect(ends[i].name, jamturret_report_pending_receives(report), ends[i].receives);
        build(operations, 1, 0);
        expect_refused(ends[i].name, JAMTURRET_SLOT_OR_AREA, 0);
    }
}

int main(void)
{
    forgotten();
    other_rules_first();
    waited_for();
    every_slot();
    unanswered();
    return expect_end("requests_test");
}
