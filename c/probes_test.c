/*
 * Probes and status queries (document 02, K9): which fields and slots they may
 * have, when a probe's board is able, what their rows tell, and that their steps
 * change nothing else. The reports are worked out by hand from K9.
 */
#include "test_services.h"

/* All sheets here have two communicators, and the bytes 0B, 0C and so on as payload. */
static const uint8_t payload[TEST_PAYLOAD] = {0x0B, 0x0C, 0x0D, 0x0E, 0x0F, 0x10, 0x11, 0x12};

static void build(const jamturret_board *boards, size_t count,
                  const jamturret_operation *operations)
{
    jamturret_job job = {2, boards, count, operations, 0, payload, TEST_PAYLOAD};
    size_t rank;
    for (rank = 0; rank < count; rank++) {
        job.operation_count += boards[rank].count;
    }
    lay_out(&job);
}

/* A sheet of these scripts: rank 0's, then rank 1's. Each may have all in its buffer. */
static void build_two(const jamturret_operation *operations, uint32_t first, uint32_t second)
{
    const jamturret_board boards[]
        = {{first, JAMTURRET_MOST_ATTACHED, 8}, {second, JAMTURRET_MOST_ATTACHED, 8}};
    build(boards, 2, operations);
}

static jamturret_operation isend(uint32_t mode, uint32_t to, uint32_t slot)
{
    return jamturret_nonblocking(jamturret_send(mode, to, 0, 0, 1), slot);
}

static jamturret_operation ireceive(uint32_t from, uint32_t slot)
{
    return jamturret_nonblocking(jamturret_receive(from, 0, 0, 4), slot);
}

/*
 * Rank 0 sends three bytes with tag 7, synchronous and nonblocking, and two with
 * tag 9, buffered. Each probe of rank 1 tells the first that has arrived and is
 * not received, and the receive behind it names what was told.
 */
static void sized_receives(void)
{
    static const uint8_t steps[] = {0, 0, 0, 1, 1, 0, 1, 1, 1, 1};
    static const uint8_t wanted[] = {
        0x01, 0xFF, 0xFF, 0xFF, 0x0A, 0x00, 0x02, 0x00,
        0x07, 0x00, 0x00, 0x00, 0x00, 0x00, 0x00, 0x00,
        0x03, 0x00, 0x00, 0x00, 0x22, 0x00, 0x02, 0x00,
        0x04, 0x00, 0x00, 0x00, 0x00, 0x00, 0x02, 0x00,
        0x03, 0x00, 0x04, 0x00, 0xFF, 0xFF, 0xFF, 0xFF, 0x00, 0x00, 0x00, 0x00,
        0x03, 0x00, 0x06, 0x00, 0xFF, 0xFF, 0xFF, 0xFF, 0x00, 0x00, 0x00, 0x00,
        0x05, 0x00, 0xFF, 0xFF, 0xFF, 0xFF, 0xFF, 0xFF, 0x00, 0x00, 0x00, 0x00,
        0x05, 0x00, 0xFF, 0xFF, 0x00, 0x00, 0x07, 0x00, 0x03, 0x00, 0x00, 0x00,
        0x03, 0x00, 0x00, 0x00, 0x00, 0x00, 0x07, 0x00, 0x03, 0x00, 0x00, 0x00,
        0x05, 0x00, 0xFF, 0xFF, 0x00, 0x00, 0x09, 0x00, 0x02, 0x00, 0x00, 0x00,
        0x03, 0x00, 0x01, 0x00, 0x00, 0x00, 0x09, 0x00, 0x02, 0x00, 0x00, 0x00,
    };
    const jamturret_board boards[] = {{3, 2 + JAMTURRET_BSEND_OVERHEAD, 0}, {4, 0, 8}};
    const jamturret_operation any_tag = jamturret_probe(0, JAMTURRET_ANY);
    const jamturret_operation operations[] = {
        jamturret_nonblocking(jamturret_send(JAMTURRET_KIND_SYNCHRONOUS, 1, 7, 0, 3), 0),
        jamturret_send(JAMTURRET_KIND_BUFFERED, 1, 9, 3, 2), jamturret_wait(0),
        any_tag, jamturret_receive(0, 7, 0, 3), any_tag, jamturret_receive(0, 9, 3, 2),
    };
    build(boards, 2, operations);
    expect_accepted("sized receives", JAMTURRET_SUCCESS, 0);
    expect_run("sized receives, run");
    expect_bytes("sized receives, run", report, wanted, sizeof wanted);
    expect_bytes("sized receives, order", order, steps, sizeof steps);
    expect_followed("sized receives", steps, sizeof steps);
    expect_bytes("sized receives", report, wanted, sizeof wanted);
    expect_bytes("sized receives, inbox", inbox, payload, 3 + 2);
    expect_filled("sized receives, behind them", inbox + 5, 0, sizeof inbox - 5);
    expect("source that a probe told", jamturret_operation_row_source(report, 5), 0);
    expect("tag that a probe told", jamturret_operation_row_tag(report, 5), 9);
    expect("length that a probe told", jamturret_operation_row_length(report, 5), 2);
}

/*
 * Rank 0 sends, rank 1 probes. Of the report the probe's step changes the steps,
 * rank 1's count and state, and the probe's row; what is charged stays charged.
 */
static void takes_nothing(void)
{
    static const uint32_t modes[]
        = {JAMTURRET_KIND_STANDARD, JAMTURRET_KIND_BUFFERED, JAMTURRET_KIND_SYNCHRONOUS};
    static const uint8_t steps[] = {0, 1};
    /* state 5, not cut, no partner; from rank 0, tag 6, 2 bytes */
    static const uint8_t row[12] = {5, 0, 0xFF, 0xFF, 0, 0, 6, 0, 2, 0, 0, 0};
    size_t i;
    for (i = 0; i < sizeof modes / sizeof modes[0]; i++) {
        const jamturret_operation operations[]
            = {jamturret_on(jamturret_send(modes[i], 1, 6, 3, 2), 1),
               jamturret_on(jamturret_probe(JAMTURRET_ANY, 6), 1)};
        uint8_t wanted[JAMTURRET_REPORT(2, 2)];
        build_two(operations, 1, 1);
        expect_followed("before the probe", steps, 1);
        expect("before the probe", jamturret_report_pending_messages(report), 1);
        expect("before the probe", jamturret_board_row_state(report, 1), JAMTURRET_BOARD_ABLE);
        memcpy(wanted, report, sizeof wanted);
        wanted[JAMTURRET_REPORT_STEPS_AT] = 2;
        wanted[JAMTURRET_REPORT(1, 0) + JAMTURRET_BOARD_ROW_FINISHED_AT] = 1;
        wanted[JAMTURRET_REPORT(1, 0) + JAMTURRET_BOARD_ROW_STATE_AT] = JAMTURRET_BOARD_FINISHED;
        memcpy(wanted + JAMTURRET_REPORT(2, 1), row, sizeof row);
        if (modes[i] != JAMTURRET_KIND_BUFFERED) {
            wanted[JAMTURRET_REPORT_VERDICT_AT] = JAMTURRET_DEADLOCK; /* nobody receives it */
        }
        expect_followed("probe", steps, 2);
        expect_bytes("probe", report, wanted, sizeof wanted);
        expect_filled("inbox after a probe", inbox, 0, sizeof inbox);
    }
}

/*
 * Rank 1 probes and never gets on, rank 0 is finished. What is in rank 0's
 * buffer differs in tag, communicator, source or destination; the last message
 * fits, and the receive before the probe has taken it.
 */
static void hangs(void)
{
    const jamturret_operation send = jamturret_send(JAMTURRET_KIND_BUFFERED, 1, 0, 0, 1);
    const jamturret_operation receive = jamturret_receive(0, 0, 0, 1);
    const struct {
        const char *name;
        jamturret_operation operations[3];
        uint32_t second; /* operations of rank 1 */
        unsigned messages;
        unsigned finished; /* of rank 1 */
    } jobs[] = {
        {"another tag", {send, jamturret_probe(0, 1)}, 1, 1, 0},
        {"another communicator",
         {send, jamturret_on(jamturret_probe(JAMTURRET_ANY, JAMTURRET_ANY), 1)}, 1, 1, 0},
        {"another source", {send, jamturret_probe(1, JAMTURRET_ANY)}, 1, 1, 0},
        {"to another rank",
         {jamturret_send(JAMTURRET_KIND_BUFFERED, 0, 0, 0, 1), jamturret_probe(0, 0)}, 1, 1, 0},
        {"received before", {send, receive, jamturret_probe(0, 0)}, 2, 0, 1},
    };
    size_t i;
    for (i = 0; i < sizeof jobs / sizeof jobs[0]; i++) {
        const size_t probe = jobs[i].second;
        static const uint8_t untold[12]
            = {0, 0, 0xFF, 0xFF, 0xFF, 0xFF, 0xFF, 0xFF, 0, 0, 0, 0};
        size_t steps;
        build_two(jobs[i].operations, 1, jobs[i].second);
        expect_run(jobs[i].name);
        expect(jobs[i].name, jamturret_report_verdict(report), JAMTURRET_DEADLOCK);
        expect(jobs[i].name, jamturret_report_pending_messages(report), jobs[i].messages);
        expect(jobs[i].name, jamturret_report_pending_receives(report), 0);
        expect(jobs[i].name, jamturret_board_row_state(report, 0), JAMTURRET_BOARD_FINISHED);
        expect(jobs[i].name, jamturret_board_row_state(report, 1), JAMTURRET_BOARD_NEITHER);
        expect(jobs[i].name, jamturret_board_row_finished(report, 1), jobs[i].finished);
        expect_bytes(jobs[i].name, jamturret_operation_row(report, probe), untold, sizeof untold);
        steps = jamturret_report_steps(report);
        order[steps] = 1;
        expect_answer(jobs[i].name, follow(order, steps + 1), JAMTURRET_ORDER, steps);
    }
}

/*
 * Ranks 0 and 1 send to rank 2, which probes any source, and receives from rank
 * 1. What the probe tells depends on the order; where it tells rank 1's message,
 * the receive gets that one, though others have arrived in between.
 */
static void any_source(void)
{
    static const uint8_t told_1[] = {1, 2, 0, 1, 1, 2};
    static const uint8_t told_0[] = {0, 1, 2, 1, 1, 2};
    const jamturret_board boards[] = {{1, 64, 0}, {2, 128, 0}, {2, 0, 4}};
    const jamturret_operation operations[] = {
        jamturret_send(JAMTURRET_KIND_BUFFERED, 2, 5, 0, 1),
        jamturret_send(JAMTURRET_KIND_BUFFERED, 2, 5, 1, 2),
        jamturret_send(JAMTURRET_KIND_BUFFERED, 2, 5, 3, 3),
        jamturret_probe(JAMTURRET_ANY, JAMTURRET_ANY),
        jamturret_receive(1, 5, 0, 2),
    };
    /* state 5 or 3, not cut, partner, source, tag, length */
    static const uint8_t probed_1[12] = {5, 0, 0xFF, 0xFF, 1, 0, 5, 0, 2, 0, 0, 0};
    static const uint8_t probed_0[12] = {5, 0, 0xFF, 0xFF, 0, 0, 5, 0, 1, 0, 0, 0};
    static const uint8_t received[12] = {3, 0, 1, 0, 1, 0, 5, 0, 2, 0, 0, 0};
    build(boards, 3, operations);
    expect_accepted("any source", JAMTURRET_ANY_SOURCE, 3);
    expect_followed("rank 1 first", told_1, sizeof told_1);
    expect_bytes("rank 1 first, probe", jamturret_operation_row(report, 3), probed_1, 12);
    expect_bytes("rank 1 first, receive", jamturret_operation_row(report, 4), received, 12);
    expect_followed("rank 0 first", told_0, sizeof told_0);
    expect_bytes("rank 0 first, probe", jamturret_operation_row(report, 3), probed_0, 12);
    expect_bytes("rank 0 first, receive", jamturret_operation_row(report, 4), received, 12);
}

/*
 * Rank 0 starts an operation, asks, lets rank 1 answer it, asks again and waits.
 * The receive that it waits for in between comes behind the answer.
 */
static void before_and_after(void)
{
    static const struct {
        const char *name;
        uint32_t kind;
        unsigned before;
    } asked[] = {
        {"standard", JAMTURRET_KIND_STANDARD, 0},
        {"buffered", JAMTURRET_KIND_BUFFERED, 1},
        {"synchronous", JAMTURRET_KIND_SYNCHRONOUS, 0},
        {"receive", JAMTURRET_KIND_RECEIVE, 0},
    };
    /* state 5, not cut; no partner, source and tag; the length, 0 or 1, is looked at apart */
    static const uint8_t row[8] = {5, 0, 0xFF, 0xFF, 0xFF, 0xFF, 0xFF, 0xFF};
    size_t i;
    for (i = 0; i < sizeof asked / sizeof asked[0]; i++) {
        const int receives = asked[i].kind == JAMTURRET_KIND_RECEIVE;
        const jamturret_operation operations[] = {
            receives ? ireceive(1, 31) : isend(asked[i].kind, 1, 31),
            jamturret_status_query(31),
            jamturret_receive(1, 1, 4, 1),
            jamturret_status_query(31),
            jamturret_wait(31),
            receives ? jamturret_send(JAMTURRET_KIND_STANDARD, 0, 0, 0, 1)
                     : jamturret_receive(0, 0, 0, 1),
            jamturret_send(JAMTURRET_KIND_STANDARD, 0, 1, 0, 1),
        };
        build_two(operations, 5, 2);
        expect_accepted(asked[i].name, JAMTURRET_STATUS_QUERY, 1);
        expect_run(asked[i].name);
        expect(asked[i].name, jamturret_report_verdict(report), JAMTURRET_FINISHED);
        expect(asked[i].name, jamturret_report_steps(report), 10);
        expect(asked[i].name, jamturret_board_row_finished(report, 0), 5);
        expect_bytes(asked[i].name, jamturret_operation_row(report, 1), row, sizeof row);
        expect_bytes(asked[i].name, jamturret_operation_row(report, 3), row, sizeof row);
        expect(asked[i].name, jamturret_operation_row_complete(report, 1), asked[i].before);
        expect(asked[i].name, jamturret_operation_row_complete(report, 3), 1);
        expect(asked[i].name, jamturret_operation_row_state(report, 4), JAMTURRET_OPERATION_ENDED);
        expect(asked[i].name, jamturret_operation_row_length(report, 4), 0);
    }
}

/* Rank 0's ready send finds no receive. Rank 1 could have gone on, but for the stop. */
static void after_a_stop(void)
{
    static const uint8_t steps[] = {1, 0, 1};
    const jamturret_operation next[]
        = {jamturret_status_query(0), jamturret_probe(JAMTURRET_ANY, JAMTURRET_ANY)};
    size_t i;
    for (i = 0; i < 2; i++) {
        const jamturret_operation operations[]
            = {jamturret_send(JAMTURRET_KIND_READY, 1, 0, 0, 1),
               isend(JAMTURRET_KIND_STANDARD, 1, 0), next[i], jamturret_wait(0)};
        build_two(operations, 1, 3);
        expect_followed("before a stop", steps, 1);
        expect("before a stop", jamturret_board_row_state(report, 1), JAMTURRET_BOARD_ABLE);
        expect_followed("stop", steps, 2);
        expect("stop", jamturret_report_verdict(report), JAMTURRET_NOT_READY);
        expect("stop", jamturret_board_row_state(report, 1), JAMTURRET_BOARD_NEITHER);
        expect("stop", jamturret_operation_row_state(report, 2), JAMTURRET_OPERATION_NOT_ENTERED);
        expect_answer("after a stop", follow(steps, 3), JAMTURRET_ORDER, 2);
    }
}

/* Puts a number into the field of an operation, where the builder would not, and the CRC. */
static void put_field(size_t operation, size_t at, uint32_t value)
{
    uint8_t *const field = sheet + JAMTURRET_SHEET(2, operation, 0) + at;
    if (at < JAMTURRET_OPERATION_PEER_AT) {
        *field = JAMTURRET_CAST(uint8_t, value);
    } else {
        jamturret_put_word(field, value);
    }
    mend_crc();
}

typedef struct number {
    const char *name;
    size_t at;
    uint32_t value;
} number;

/* Operation 1 is the probe or the query, between a nonblocking send and its wait. */
static void expect_fields(jamturret_operation asked, const number *wrong, size_t count)
{
    const jamturret_operation operations[]
        = {isend(JAMTURRET_KIND_STANDARD, 1, 0), asked, jamturret_wait(0)};
    size_t i;
    for (i = 0; i < count; i++) {
        build_two(operations, 3, 0);
        expect_answer(wrong[i].name, jamturret_check(sheet, sheet_len), JAMTURRET_SUCCESS, 0);
        put_field(1, wrong[i].at, wrong[i].value);
        expect_refused(wrong[i].name, JAMTURRET_OPERATION, 1);
    }
}

static void fields(void)
{
    static const number of_probe[] = {
        {"probe's flag", JAMTURRET_OPERATION_FLAG_AT, 1},
        {"probe's peer", JAMTURRET_OPERATION_PEER_AT, 2},
        {"probe's peer", JAMTURRET_OPERATION_PEER_AT, JAMTURRET_ANY - 1},
        {"probe's communicator", JAMTURRET_OPERATION_COMMUNICATOR_AT, 2},
        {"probe's communicator", JAMTURRET_OPERATION_COMMUNICATOR_AT, JAMTURRET_ANY},
        {"probe's zero", JAMTURRET_OPERATION_ZERO_AT, 1},
        {"probe's tag", JAMTURRET_OPERATION_TAG_AT, JAMTURRET_MOST_TAG + 1},
        {"probe's tag", JAMTURRET_OPERATION_TAG_AT, JAMTURRET_ANY - 1},
        {"probe's offset", JAMTURRET_OPERATION_OFFSET_AT, 1},
        {"probe's length", JAMTURRET_OPERATION_LENGTH_AT, 1},
        {"probe's slot", JAMTURRET_OPERATION_SLOT_AT, 1},
    };
    static const number of_query[] = {
        {"query's flag", JAMTURRET_OPERATION_FLAG_AT, 1},
        {"query's peer", JAMTURRET_OPERATION_PEER_AT, 1},
        {"query's communicator", JAMTURRET_OPERATION_COMMUNICATOR_AT, 1},
        {"query's zero", JAMTURRET_OPERATION_ZERO_AT, 1},
        {"query's tag", JAMTURRET_OPERATION_TAG_AT, 1},
        {"query's offset", JAMTURRET_OPERATION_OFFSET_AT, 1},
        {"query's length", JAMTURRET_OPERATION_LENGTH_AT, 1},
        {"query's slot", JAMTURRET_OPERATION_SLOT_AT, JAMTURRET_SLOTS},
        {"no kind", JAMTURRET_OPERATION_KIND_AT, 0},
        {"no kind", JAMTURRET_OPERATION_KIND_AT, JAMTURRET_KIND_STATUS_QUERY + 1},
        {"no kind", JAMTURRET_OPERATION_KIND_AT, 255},
    };
    static const uint32_t sources[] = {0, 1, JAMTURRET_ANY};
    static const uint32_t tags[] = {0, JAMTURRET_MOST_TAG, JAMTURRET_ANY};
    size_t i;
    expect_fields(jamturret_probe(0, 0), of_probe, sizeof of_probe / sizeof of_probe[0]);
    expect_fields(jamturret_status_query(0), of_query, sizeof of_query / sizeof of_query[0]);
    for (i = 0; i < 9; i++) {
        const jamturret_operation probe
            = jamturret_on(jamturret_probe(sources[i / 3], tags[i % 3]), i % 2);
        build_two(&probe, 1, 0);
        expect_answer("probe", jamturret_check(sheet, sheet_len), JAMTURRET_SUCCESS, 0);
    }
}

/* Two scripts, and the number and place that are answered. */
typedef struct answered {
    const char *name;
    uint32_t number;
    uint64_t place;
    uint32_t first; /* operations of each rank */
    uint32_t second;
    jamturret_operation operations[5];
} answered;

/* A status query names a slot that its board holds there, and the slot stays held. */
static void slots(void)
{
    enum { SLOT_REFUSED = JAMTURRET_SLOT_OR_AREA };
    const jamturret_operation start = isend(JAMTURRET_KIND_STANDARD, 1, 3);
    const jamturret_operation query = jamturret_status_query(3);
    const jamturret_operation wait = jamturret_wait(3);
    const answered refused[] = {
        {"query of nothing", SLOT_REFUSED, 0, 1, 0, {query}},
        {"query before its operation", SLOT_REFUSED, 0, 3, 0, {query, start, wait}},
        {"query after the wait", SLOT_REFUSED, 2, 3, 0, {start, wait, query}},
        {"query of another slot", SLOT_REFUSED, 1, 3, 0, {start, jamturret_status_query(4), wait}},
        {"query of another rank's slot", SLOT_REFUSED, 2, 2, 1, {start, wait, query}},
        {"query on an earlier rank", SLOT_REFUSED, 0, 1, 2, {query, start, wait}},
        {"slot taken after a query", SLOT_REFUSED, 2, 4, 0, {start, query, start, wait}},
        {"query instead of a wait", SLOT_REFUSED, 0, 2, 0, {start, query}},
        {"forgotten, and a query of nothing", SLOT_REFUSED, 2, 2, 1, {start, query, query}},
    };
    const jamturret_operation twice[] = {start, query, query, wait};
    const jamturret_operation again[] = {start, wait, start, query, wait};
    /* A probe has no slot and no area, so that it may stand where slot 0 and an area are held. */
    const jamturret_operation probe[] = {ireceive(1, 0), jamturret_probe(1, 0), jamturret_wait(0)};
    size_t i;
    for (i = 0; i < sizeof refused / sizeof refused[0]; i++) {
        build_two(refused[i].operations, refused[i].first, refused[i].second);
        expect_refused(refused[i].name, refused[i].number, refused[i].place);
    }
    build_two(twice, 4, 0);
    expect_accepted("two queries", JAMTURRET_STATUS_QUERY, 1);
    build_two(again, 5, 0);
    expect_accepted("query of a slot taken again", JAMTURRET_STATUS_QUERY, 3);
    build_two(probe, 3, 0);
    expect_accepted("probe beside a held slot", JAMTURRET_SUCCESS, 0);
}

/* Numbers 20 and 23, each over the whole sheet, the lowest first. */
static void premise(void)
{
    const jamturret_operation one = jamturret_probe(0, JAMTURRET_ANY);
    const jamturret_operation any = jamturret_probe(JAMTURRET_ANY, 0);
    const jamturret_operation receive = jamturret_receive(JAMTURRET_ANY, 0, 0, 1);
    const jamturret_operation ready = jamturret_send(JAMTURRET_KIND_READY, 1, 0, 0, 1);
    const jamturret_operation buffered = jamturret_send(JAMTURRET_KIND_BUFFERED, 1, 0, 0, 1);
    const jamturret_operation start = isend(JAMTURRET_KIND_STANDARD, 1, 0);
    const jamturret_operation query = jamturret_status_query(0);
    const jamturret_operation wait = jamturret_wait(0);
    const answered jobs[] = {
        {"probe of one source", JAMTURRET_SUCCESS, 0, 1, 0, {one}},
        {"probe of any source", JAMTURRET_ANY_SOURCE, 1, 1, 1, {one, any}},
        {"probe before a receive", JAMTURRET_ANY_SOURCE, 0, 1, 1, {any, receive}},
        {"receive before a probe", JAMTURRET_ANY_SOURCE, 1, 2, 1, {one, receive, any}},
        {"status query", JAMTURRET_STATUS_QUERY, 2, 1, 4, {one, start, query, query, wait}},
        {"any source behind a query", JAMTURRET_ANY_SOURCE, 3, 3, 1, {start, query, wait, any}},
        {"ready behind a query", JAMTURRET_READY, 3, 4, 0, {start, query, wait, ready}},
        {"uncovered behind a query", JAMTURRET_UNCOVERED, 1, 3, 1, {start, query, wait, buffered}},
    };
    size_t i;
    for (i = 0; i < sizeof jobs / sizeof jobs[0]; i++) {
        const jamturret_board boards[] = {{jobs[i].first, JAMTURRET_BSEND_OVERHEAD, 1},
                                          {jobs[i].second, JAMTURRET_BSEND_OVERHEAD, 1}};
        build(boards, 2, jobs[i].operations);
        expect_accepted(jobs[i].name, jobs[i].number, jobs[i].place);
    }
}

int main(void)
{
    sized_receives();
    takes_nothing();
    hangs();
    any_source();
    before_and_after();
    after_a_stop();
    fields();
    slots();
    premise();
    return expect_end("probes_test");
}
