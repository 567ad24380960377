/*
 * Edition 2 (document 02, K6): which sheets are of it, when an unmatched
 * standard send goes into its board's standard room and what it is charged
 * there, what board rows tell of it, refusals 3, 5 and 8 of the new sizes, and
 * number 24 of premise. The reports are worked out by hand from K6.
 */
#include "test_services.h"

enum { STANDARD = JAMTURRET_KIND_STANDARD };

static const unsigned second = JAMTURRET_EDITION_2;

/* All sheets here have one communicator, and the bytes 0B, 0C and so on as payload. */
static const uint8_t payload[TEST_PAYLOAD] = {0x0B, 0x0C, 0x0D, 0x0E, 0x0F, 0x10, 0x11, 0x12};

/* A sheet of two boards with their standard rooms: rank 0's script, then rank 1's. */
static void build(const jamturret_board *boards, uint32_t room_0, uint32_t room_1,
                  const jamturret_operation *operations)
{
    const uint32_t rooms[] = {room_0, room_1};
    const jamturret_job job
        = {1, boards, 2, operations, boards[0].count + boards[1].count, payload, TEST_PAYLOAD};
    lay_out_2(&job, rooms);
}

static jamturret_operation isend(uint32_t mode, uint32_t length, uint32_t slot)
{
    return jamturret_nonblocking(jamturret_send(mode, 1, slot, 0, length), slot);
}

/* Charged and not yet matched, and the most of it: of the attached buffer, of the standard room. */
static void expect_accounts(const char *what, size_t rank, unsigned in_use, unsigned peak,
                            unsigned standard_in_use, unsigned standard_peak)
{
    const jamturret_board_figures row = jamturret_board_figures_of(second, report, rank);
    expect(what, row.in_use, in_use);
    expect(what, row.peak, peak);
    expect(what, row.standard_in_use, standard_in_use);
    expect(what, row.standard_peak, standard_peak);
}

static void expect_state(const char *what, size_t operation, unsigned state)
{
    expect(what, jamturret_operation_figures_of(second, report, operation).state, state);
}

/* Bench job 6: both send two bytes first, then receive. */
static void build_both_send_first(uint32_t room_0, uint32_t room_1)
{
    static const jamturret_board boards[] = {{2, 0, 2}, {2, 0, 2}};
    const jamturret_operation operations[] = {
        jamturret_send(STANDARD, 1, 5, 0, 2), jamturret_receive(1, 5, 0, 2),
        jamturret_send(STANDARD, 0, 5, 2, 2), jamturret_receive(0, 5, 0, 2),
    };
    build(boards, room_0, room_1, operations);
}

/*
 * Rooms that cover the messages: finished. Whoever sends first has its message
 * in its room; a send that finds the other's receive posted is never charged.
 * Orders end alike but for the standard peaks.
 */
static void both_rooms_cover(void)
{
    static const struct {
        uint8_t steps[8];
        uint8_t peaks[2];
    } orders[] = {
        {{0, 0, 0, 1, 0, 1, 1, 1}, {2, 0}}, /* run's */
        {{0, 1, 0, 1, 0, 1, 0, 1}, {2, 2}},
        {{1, 1, 1, 0, 1, 0, 0, 0}, {0, 2}},
    };
    uint8_t wanted[] = {
        0x01, 0xFF, 0xFF, 0xFF, 0x08, 0x00, 0x02, 0x00,
        0x04, 0x00, 0x00, 0x00, 0x00, 0x00, 0x00, 0x00,
        0x02, 0x00, 0x00, 0x00, 0x00, 0x00, 0x02, 0x00, 0x00, 0x00, 0x02, 0x00,
        0x02, 0x00, 0x00, 0x00, 0x00, 0x00, 0x02, 0x00, 0x00, 0x00, 0x00, 0x00,
        0x03, 0x00, 0x03, 0x00, 0xFF, 0xFF, 0xFF, 0xFF, 0x00, 0x00, 0x00, 0x00,
        0x03, 0x00, 0x02, 0x00, 0x01, 0x00, 0x05, 0x00, 0x02, 0x00, 0x00, 0x00,
        0x03, 0x00, 0x01, 0x00, 0xFF, 0xFF, 0xFF, 0xFF, 0x00, 0x00, 0x00, 0x00,
        0x03, 0x00, 0x00, 0x00, 0x00, 0x00, 0x05, 0x00, 0x02, 0x00, 0x00, 0x00,
    };
    static const uint8_t delivered[] = {0x0D, 0x0E, 0x0B, 0x0C};
    size_t i;
    build_both_send_first(2, 2);
    expect_accepted("both rooms cover", JAMTURRET_SUCCESS, 0);
    expect_run("both rooms cover, run");
    expect_bytes("both rooms cover, run", report, wanted, sizeof wanted);
    expect_filled("both rooms cover, behind the report", report + sizeof wanted, 0,
                  sizeof report - sizeof wanted);
    expect_bytes("both rooms cover, order", order, orders[0].steps, sizeof orders[0].steps);
    for (i = 0; i < sizeof orders / sizeof orders[0]; i++) {
        wanted[26] = orders[i].peaks[0];
        wanted[38] = orders[i].peaks[1];
        expect_followed("both rooms cover", orders[i].steps, sizeof orders[i].steps);
        expect_bytes("both rooms cover", report, wanted, sizeof wanted);
        expect_bytes("both rooms cover, inbox", inbox, delivered, sizeof delivered);
    }
}

/* Bench job 6 with rooms a byte short: nothing is buffered, deadlock. Room 0: the same. */
static void no_room_covers(void)
{
    static const uint8_t wanted[] = {
        0x02, 0xFF, 0xFF, 0xFF, 0x02, 0x00, 0x02, 0x00,
        0x04, 0x00, 0x02, 0x00, 0x00, 0x00, 0x00, 0x00,
        0x00, 0x00, 0x00, 0x00, 0x00, 0x00, 0x00, 0x00, 0x00, 0x00, 0x00, 0x00,
        0x00, 0x00, 0x00, 0x00, 0x00, 0x00, 0x00, 0x00, 0x00, 0x00, 0x00, 0x00,
        0x01, 0x00, 0xFF, 0xFF, 0xFF, 0xFF, 0xFF, 0xFF, 0x00, 0x00, 0x00, 0x00,
        0x00, 0x00, 0xFF, 0xFF, 0xFF, 0xFF, 0xFF, 0xFF, 0x00, 0x00, 0x00, 0x00,
        0x01, 0x00, 0xFF, 0xFF, 0xFF, 0xFF, 0xFF, 0xFF, 0x00, 0x00, 0x00, 0x00,
        0x00, 0x00, 0xFF, 0xFF, 0xFF, 0xFF, 0xFF, 0xFF, 0x00, 0x00, 0x00, 0x00,
    };
    build_both_send_first(1, 1);
    expect_accepted("rooms a byte short", JAMTURRET_STANDARD_UNCOVERED, 0);
    expect_run("rooms a byte short");
    expect_bytes("rooms a byte short", report, wanted, sizeof wanted);
    build_both_send_first(0, 0);
    expect_accepted("rooms of 0", JAMTURRET_SUCCESS, 0);
    expect_run("rooms of 0");
    expect_bytes("rooms of 0", report, wanted, sizeof wanted);
    build_both_send_first(2, 0);
    expect_accepted("one room", JAMTURRET_SUCCESS, 0);
    expect_run("one room");
    expect("one room", jamturret_report_verdict(report), JAMTURRET_FINISHED);
}

/*
 * Rank 0 starts three standard sends, which nobody receives, and waits for each.
 * A message is buffered where it fits beside those before it, an empty one too;
 * in room 0 none is. The waits get past what is buffered.
 */
static void lengths_against_rooms(void)
{
    enum { WAITS = 1, ROOM = 2 }; /* the state of a send that is not buffered, and of one that is */
    static const struct {
        const char *name;
        uint32_t room;
        uint32_t lengths[3];
        unsigned states[3];
        unsigned in_use;
        unsigned finished; /* operations of rank 0 after a run */
    } jobs[] = {
        {"exactly full", 5, {3, 2, 1}, {ROOM, ROOM, WAITS}, 5, 5},
        {"one too long between", 5, {4, 2, 1}, {ROOM, WAITS, ROOM}, 5, 4},
        {"the first too long", 1, {2, 0, 1}, {WAITS, ROOM, ROOM}, 1, 3},
        {"empty beside a full room", 1, {0, 1, 0}, {ROOM, ROOM, ROOM}, 1, 6},
        {"empty and no room", 0, {0, 0, 1}, {WAITS, WAITS, WAITS}, 0, 3},
        {"no overhead", 24, {8, 8, 8}, {ROOM, ROOM, ROOM}, 24, 6},
        {"largest room", 16384, {8, 0, 8}, {ROOM, ROOM, ROOM}, 16, 6},
    };
    static const jamturret_board boards[] = {{6, JAMTURRET_MOST_ATTACHED, 0}, {0, 0, 0}};
    static const uint8_t steps[] = {0, 0, 0};
    size_t i;
    for (i = 0; i < sizeof jobs / sizeof jobs[0]; i++) {
        const jamturret_operation operations[]
            = {isend(STANDARD, jobs[i].lengths[0], 0), isend(STANDARD, jobs[i].lengths[1], 1),
               isend(STANDARD, jobs[i].lengths[2], 2), jamturret_wait(0), jamturret_wait(1),
               jamturret_wait(2)};
        size_t sent;
        build(boards, jobs[i].room, 0, operations);
        expect_followed(jobs[i].name, steps, sizeof steps);
        for (sent = 0; sent < 3; sent++) {
            expect_state(jobs[i].name, sent, jobs[i].states[sent]);
        }
        expect_accounts(jobs[i].name, 0, 0, 0, jobs[i].in_use, jobs[i].in_use);
        expect(jobs[i].name, jamturret_report_pending_messages(report), 3);
        expect_run(jobs[i].name);
        expect(jobs[i].name, jamturret_board_figures_of(second, report, 0).finished,
               jobs[i].finished);
        expect(jobs[i].name, jamturret_report_verdict(report),
               jobs[i].finished == 6 ? JAMTURRET_FINISHED : JAMTURRET_DEADLOCK);
    }
}

/*
 * Rank 0 sends three bytes, waits for rank 1's answer and sends two more, which
 * nobody receives: five bytes through a room of three. The job of
 * sheets/room-used-again.sheet.
 */
static void used_again(void)
{
    static const uint8_t steps[] = {0, 0, 0, 1, 1, 1, 0, 0, 0, 1};
    static const jamturret_board boards[] = {{3, 0, 0}, {2, 0, 3}};
    const jamturret_operation operations[] = {
        jamturret_send(STANDARD, 1, 1, 0, 3), jamturret_receive(1, 2, 0, 0),
        jamturret_send(STANDARD, 1, 1, 3, 2), jamturret_receive(0, 1, 0, 3),
        jamturret_send(STANDARD, 0, 2, 0, 0),
    };
    build(boards, 3, 0, operations);
    expect_accepted("used again", JAMTURRET_STANDARD_UNCOVERED, 0);
    expect_followed("first in the room", steps, 3);
    expect_accounts("first in the room", 0, 0, 0, 3, 3);
    expect_followed("first received", steps, 4);
    expect_accounts("first received", 0, 0, 0, 0, 3);
    expect_state("first received", 0, JAMTURRET_OPERATION_MATCHED);
    expect_run("used again");
    expect_bytes("used again, order", order, steps, sizeof steps);
    expect_accounts("used again", 0, 0, 0, 2, 3);
    expect_accounts("used again, rank 1", 1, 0, 0, 0, 0);
    expect_state("used again", 2, JAMTURRET_OPERATION_BUFFERED);
    expect("used again", jamturret_report_verdict(report), JAMTURRET_FINISHED);
    expect("used again", jamturret_report_pending_messages(report), 1);
    expect_bytes("used again, inbox", inbox, payload, 3);
}

/*
 * Rank 0 starts two sends of two bytes with a room of three. What did not fit at
 * its own step waits on, also where the room is free again.
 */
static void waits_on(void)
{
    static const uint8_t steps[] = {0, 0, 1};
    static const jamturret_board boards[] = {{4, 0, 0}, {1, 0, 2}};
    const jamturret_operation operations[]
        = {isend(STANDARD, 2, 0), isend(STANDARD, 2, 1), jamturret_wait(0), jamturret_wait(1),
           jamturret_receive(0, 0, 0, 2)};
    build(boards, 3, 0, operations);
    expect_followed("room free again", steps, sizeof steps);
    expect_state("room free again", 0, JAMTURRET_OPERATION_MATCHED);
    expect_state("room free again", 1, JAMTURRET_OPERATION_PENDING);
    expect_accounts("room free again", 0, 0, 0, 0, 2);
    expect_run("room free again");
    expect("room free again", jamturret_report_verdict(report), JAMTURRET_DEADLOCK);
}

/* A receive is posted before the send: a match, and nothing was ever charged. */
static void matched_at_once(void)
{
    static const uint8_t steps[] = {1, 0};
    static const jamturret_board boards[] = {{1, 0, 0}, {1, 0, 2}};
    const jamturret_operation operations[]
        = {jamturret_send(STANDARD, 1, 0, 0, 2), jamturret_receive(0, 0, 0, 2)};
    build(boards, 8, 8, operations);
    expect_followed("matched at once", steps, sizeof steps);
    expect_state("matched at once", 0, JAMTURRET_OPERATION_MATCHED);
    expect_accounts("matched at once", 0, 0, 0, 0, 0);
}

/*
 * A buffered and a standard send of rank 0, each into its own room; rank 1 takes
 * the standard one first. Of the other modes none goes into a standard room.
 */
static void two_accounts(void)
{
    static const uint8_t steps[] = {0, 0, 0, 0, 1, 1, 1};
    static const jamturret_board boards[] = {{2, 2 + JAMTURRET_BSEND_OVERHEAD, 0}, {2, 0, 5}};
    static const jamturret_board short_by_one[] = {{2, 1 + JAMTURRET_BSEND_OVERHEAD, 0}, {2, 0, 5}};
    jamturret_operation operations[]
        = {jamturret_send(JAMTURRET_KIND_BUFFERED, 1, 1, 0, 2),
           jamturret_send(STANDARD, 1, 2, 2, 3), jamturret_receive(0, 2, 0, 3),
           jamturret_receive(0, 1, 3, 2)};
    build(boards, 3, 0, operations);
    expect_accepted("two accounts", JAMTURRET_SUCCESS, 0);
    expect_followed("both in use", steps, 4);
    expect_accounts("both in use", 0, 34, 34, 3, 3);
    expect_followed("standard one received", steps, 5);
    expect_accounts("standard one received", 0, 34, 34, 0, 3);
    expect_followed("both received", steps, 7);
    expect_accounts("both received", 0, 0, 34, 0, 3);
    build(short_by_one, JAMTURRET_MOST_STANDARD_ROOM, 0, operations);
    expect_run("overflow beside a room");
    expect("overflow beside a room", jamturret_report_verdict(report), JAMTURRET_OVERFLOW);
    operations[0] = jamturret_send(JAMTURRET_KIND_SYNCHRONOUS, 1, 1, 0, 2);
    build(boards, 3, 0, operations);
    expect_followed("synchronous beside a room", steps, 1);
    expect_state("synchronous beside a room", 0, JAMTURRET_OPERATION_PENDING);
    expect_accounts("synchronous beside a room", 0, 0, 0, 0, 0);
    operations[0] = jamturret_send(JAMTURRET_KIND_READY, 1, 1, 0, 2);
    build(boards, 3, 0, operations);
    expect_run("ready beside a room");
    expect("ready beside a room", jamturret_report_verdict(report), JAMTURRET_NOT_READY);
}

/*
 * A status query finds a standard send complete where it is in the room. A probe
 * tells its message and leaves it there, charged.
 */
static void asked(void)
{
    static const uint8_t steps[] = {0, 0, 1};
    static const jamturret_board boards[] = {{3, 0, 0}, {1, 0, 0}};
    const jamturret_operation operations[] = {isend(STANDARD, 2, 4), jamturret_status_query(4),
                                              jamturret_wait(4), jamturret_probe(0, 4)};
    uint32_t room;
    for (room = 1; room <= 2; room++) {
        jamturret_operation_figures told;
        build(boards, room, 0, operations);
        expect_accepted("asked", JAMTURRET_STATUS_QUERY, 1);
        expect_followed("asked", steps, sizeof steps);
        told = jamturret_operation_figures_of(second, report, 1);
        expect("query", told.length, room == 2);
        told = jamturret_operation_figures_of(second, report, 3);
        expect("probe's source", told.source, 0);
        expect("probe's tag", told.tag, 4);
        expect("probe's length", told.length, 2);
        expect_state("probed", 0,
                     room == 2 ? JAMTURRET_OPERATION_BUFFERED : JAMTURRET_OPERATION_PENDING);
        expect_accounts("probed", 0, 0, 0, room == 2 ? 2 : 0, room == 2 ? 2 : 0);
    }
}

/*
 * The offsets and the length of a sheet are all of one edition: with one of them
 * of the other it is refused 3, also with a CRC that is right. So is one whose
 * board entries would have nine bytes.
 */
static void mixed_editions(void)
{
    const size_t tables[] = {JAMTURRET_SHEET(2, 0, 0), JAMTURRET_SHEET_OF(second, 2, 0, 0)};
    const size_t payloads[] = {JAMTURRET_SHEET(2, 4, 0), JAMTURRET_SHEET_OF(second, 2, 4, 0)};
    const size_t lengths[] = {JAMTURRET_SHEET(2, 4, TEST_PAYLOAD),
                              JAMTURRET_SHEET_OF(second, 2, 4, TEST_PAYLOAD)};
    size_t i;
    for (i = 1; i < 7; i++) {
        build_both_send_first(2, 2);
        jamturret_put_word(sheet + JAMTURRET_SHEET_OPERATION_TABLE_AT, tables[i & 1]);
        jamturret_put_word(sheet + JAMTURRET_SHEET_PAYLOAD_AT, payloads[i >> 1 & 1]);
        sheet_len = lengths[i >> 2];
        mend_crc();
        expect_refused("mixed editions", JAMTURRET_OFFSETS, 0);
    }
    build_both_send_first(2, 2);
    jamturret_put_word(sheet + JAMTURRET_SHEET_OPERATION_TABLE_AT, tables[1] - 2);
    jamturret_put_word(sheet + JAMTURRET_SHEET_PAYLOAD_AT, payloads[1] - 2);
    sheet_len = lengths[1] - 2;
    mend_crc();
    expect_refused("no edition", JAMTURRET_OFFSETS, 0);
}

/*
 * A room above 16,384 is refused 5 at its rank, where no rank before is wrong;
 * 5 goes before 6, and after 4.
 */
static void wrong_rooms(void)
{
    static const jamturret_board boards[] = {{1, 0, 0}, {0, 0, 0}};
    static const jamturret_board attached[] = {{1, 0, 0}, {0, JAMTURRET_MOST_ATTACHED + 1, 0}};
    const jamturret_operation to_nobody = jamturret_send(STANDARD, 2, 0, 0, 0);
    const uint32_t most = JAMTURRET_MOST_STANDARD_ROOM;
    build(boards, most + 1, 0, &to_nobody);
    expect_refused("room of rank 0", JAMTURRET_BOARD, 0);
    build(boards, most, most + 1, &to_nobody);
    expect_refused("room of rank 1", JAMTURRET_BOARD, 1);
    build(boards, 65535, 65535, &to_nobody);
    expect_refused("widest rooms", JAMTURRET_BOARD, 0);
    build(attached, most, 0, &to_nobody);
    expect_refused("buffer behind a room", JAMTURRET_BOARD, 1);
    build(attached, most + 1, 0, &to_nobody);
    expect_refused("room before a buffer", JAMTURRET_BOARD, 0);
    build(boards, most, most, &to_nobody);
    expect_refused("rooms at their most", JAMTURRET_OPERATION, 0);
    build(boards, most + 1, 0, &to_nobody);
    sheet[JAMTURRET_SHEET_CRC_AT] ^= 1;
    expect_refused("room and CRC", JAMTURRET_CRC, 0);
}

/* The report room is that of edition 2: 16 + 12 P + 12 N. */
static void report_room(void)
{
    const size_t needed = JAMTURRET_REPORT_OF(second, 2, 4);
    build_both_send_first(2, 2);
    expect("report room", needed, 16 + 24 + 48);
    fill_rooms();
    expect_answer("report room a byte short",
                  jamturret_run(sheet, sheet_len, inbox, sizeof inbox, report, needed - 1, order,
                                sizeof order, scratch, sizeof scratch),
                  JAMTURRET_ROOM, JAMTURRET_ROOM_REPORT);
    expect_answer("report room of edition 1",
                  jamturret_follow(sheet, sheet_len, order, 0, inbox, sizeof inbox, report,
                                   JAMTURRET_REPORT(2, 4), scratch, sizeof scratch),
                  JAMTURRET_ROOM, JAMTURRET_ROOM_REPORT);
    expect_filled("short report room", report, FILL, sizeof report);
    expect_answer("report room",
                  jamturret_follow(sheet, sheet_len, order, 0, inbox, sizeof inbox, report, needed,
                                   scratch, sizeof scratch),
                  JAMTURRET_SUCCESS, 0);
    expect_filled("behind the report", report + needed, FILL, sizeof report - needed);
}

/*
 * 24 is told of the first rank whose room is above 0 and short of its standard
 * sends, behind 20 to 23. Sends of other modes do not count.
 */
static void premise(void)
{
    enum { HOLDS = JAMTURRET_SUCCESS, SHORT = JAMTURRET_STANDARD_UNCOVERED };
    const jamturret_operation send = jamturret_send(STANDARD, 1, 0, 0, 3);
    const jamturret_operation start = isend(STANDARD, 2, 0);
    const jamturret_operation wait = jamturret_wait(0);
    const jamturret_operation any = jamturret_receive(JAMTURRET_ANY, 0, 0, 0);
    const jamturret_operation ready = jamturret_send(JAMTURRET_KIND_READY, 1, 0, 0, 8);
    const jamturret_operation buffered = jamturret_send(JAMTURRET_KIND_BUFFERED, 1, 0, 0, 8);
    const jamturret_operation synchronous = jamturret_send(JAMTURRET_KIND_SYNCHRONOUS, 1, 0, 0, 8);
    const jamturret_operation query = jamturret_status_query(0);
    const struct {
        const char *name;
        uint32_t number;
        uint64_t place;
        uint32_t rooms[2];
        uint32_t counts[2];
        jamturret_operation operations[5];
    } jobs[] = {
        {"covered", HOLDS, 0, {5, 3}, {3, 1}, {send, start, wait, send}},
        {"rank 0 short", SHORT, 0, {4, 2}, {3, 1}, {send, start, wait, send}},
        {"rank 1 short", SHORT, 1, {5, 2}, {3, 1}, {send, start, wait, send}},
        {"rank 1 short behind room 0", SHORT, 1, {0, 1}, {3, 1}, {send, start, wait, send}},
        {"rooms of 0", HOLDS, 0, {0, 0}, {3, 1}, {send, start, wait, send}},
        {"other modes", HOLDS, 0, {3, 1}, {2, 1}, {send, synchronous, synchronous}},
        {"any source first", JAMTURRET_ANY_SOURCE, 1, {1, 0}, {2, 0}, {send, any}},
        {"ready first", JAMTURRET_READY, 1, {1, 0}, {2, 0}, {send, ready}},
        {"buffer first", JAMTURRET_UNCOVERED, 1, {1, 0}, {1, 1}, {send, buffered}},
        {"query first", JAMTURRET_STATUS_QUERY, 2, {1, 0}, {1, 3}, {send, start, query, wait}},
    };
    size_t i;
    for (i = 0; i < sizeof jobs / sizeof jobs[0]; i++) {
        const jamturret_board boards[] = {{jobs[i].counts[0], 0, 0}, {jobs[i].counts[1], 0, 0}};
        build(boards, jobs[i].rooms[0], jobs[i].rooms[1], jobs[i].operations);
        expect_accepted(jobs[i].name, jobs[i].number, jobs[i].place);
    }
}

/*
 * A job in edition 1, and in edition 2 with rooms of 0: the same answers, order
 * and inbox, and the same report but for four zeros behind each board row.
 */
static void same_in_both(void)
{
    static const uint8_t zeros[4] = {0, 0, 0, 0};
    static const uint32_t rooms[] = {0, 0};
    static const jamturret_board boards[] = {{4, 8 + JAMTURRET_BSEND_OVERHEAD, 4}, {3, 0, 8}};
    const jamturret_operation operations[] = {
        isend(STANDARD, 3, 0),       jamturret_send(JAMTURRET_KIND_BUFFERED, 1, 1, 0, 8),
        jamturret_wait(0),           jamturret_receive(1, 0, 0, 4),
        jamturret_receive(0, 1, 0, 4), jamturret_receive(0, 0, 4, 4),
        jamturret_send(STANDARD, 0, 7, 0, 0),
    };
    const jamturret_job job = {1, boards, 2, operations, 7, payload, TEST_PAYLOAD};
    const size_t length = JAMTURRET_REPORT(2, 7);
    uint8_t first[JAMTURRET_REPORT(2, 7)];
    uint8_t first_inbox[sizeof inbox];
    uint8_t first_order[sizeof order];
    lay_out(&job);
    expect_accepted("edition 1", JAMTURRET_SUCCESS, 0);
    expect_run("edition 1");
    expect("edition 1", jamturret_report_verdict(report), JAMTURRET_DEADLOCK);
    memcpy(first, report, length);
    memcpy(first_inbox, inbox, sizeof inbox);
    memcpy(first_order, order, sizeof order);
    lay_out_2(&job, rooms);
    expect_accepted("edition 2", JAMTURRET_SUCCESS, 0);
    expect_run("edition 2");
    expect_bytes("header and rank 0", report, first, 16 + 8);
    expect_bytes("behind rank 0", report + 24, zeros, sizeof zeros);
    expect_bytes("rank 1", report + 28, first + 24, 8);
    expect_bytes("behind rank 1", report + 36, zeros, sizeof zeros);
    expect_bytes("operations", report + 40, first + 32, length - 32);
    expect_bytes("inbox", inbox, first_inbox, sizeof inbox);
    expect_bytes("order", order, first_order, sizeof order);
}

int main(void)
{
    both_rooms_cover();
    no_room_covers();
    lengths_against_rooms();
    used_again();
    waits_on();
    matched_at_once();
    two_accounts();
    asked();
    mixed_editions();
    wrong_rooms();
    report_room();
    premise();
    same_in_both();
    return expect_end("editions_test");
}
