/*
 * The headers' limits, kinds, refusals and sizes against the library: a sheet
 * with a number at its limit passes, one above is refused; rooms of the sizes
 * given serve, and one byte less is refused. All of it in both editions.
 */
#include "test_expect.h"

#include <string.h>

enum { BOARDS = JAMTURRET_MOST_BOARDS + 1, OPERATIONS = JAMTURRET_MOST_OPERATIONS + 1 };

static uint8_t payload[JAMTURRET_MOST_PAYLOAD + 1];
static jamturret_board boards[BOARDS];
static uint32_t standard_rooms[BOARDS];
static jamturret_operation operations[OPERATIONS];
static uint8_t sheet[JAMTURRET_SHEET_OF(JAMTURRET_EDITION_2, BOARDS, OPERATIONS, sizeof payload)];
static size_t sheet_len;

/* That sheets are laid out in. */
static unsigned edition;

/* One board whose script is one empty send to itself. Each test changes a number of it. */
static jamturret_job plain_job(void)
{
    const jamturret_job job = {1, boards, 1, operations, 1, payload, JAMTURRET_MOST_PAYLOAD};
    size_t i;
    memset(boards, 0, sizeof boards);
    memset(standard_rooms, 0, sizeof standard_rooms);
    boards[0].count = 1;
    for (i = 0; i < OPERATIONS; i++) {
        operations[i] = jamturret_send(JAMTURRET_KIND_STANDARD, 0, 0, 0, 0);
    }
    return job;
}

static jamturret_answer built(const jamturret_job *job)
{
    expect_answer("build",
                  edition == JAMTURRET_EDITION_2
                      ? jamturret_build_2(job, standard_rooms, sheet, sizeof sheet)
                      : jamturret_build(job, sheet, sizeof sheet),
                  JAMTURRET_SUCCESS, 0);
    sheet_len
        = JAMTURRET_SHEET_OF(edition, job->board_count, job->operation_count, job->payload_len);
    expect("edition", jamturret_sheet_edition(sheet), edition);
    return jamturret_check(sheet, sheet_len);
}

/* A count of the header: its most passes, one more is refused 2. */
static void count_limits(void)
{
    static const char *const names[] = {"boards", "communicators", "payload"};
    static const size_t limits[]
        = {JAMTURRET_MOST_BOARDS, JAMTURRET_MOST_COMMUNICATORS, JAMTURRET_MOST_PAYLOAD};
    jamturret_job job = plain_job();
    size_t i;
    boards[0].count = JAMTURRET_MOST_OPERATIONS;
    job.operation_count = JAMTURRET_MOST_OPERATIONS;
    expect_answer("operations", built(&job), JAMTURRET_SUCCESS, 0);
    boards[0].count++;
    job.operation_count++;
    expect_answer("operations", built(&job), JAMTURRET_RANGE, 0);
    for (i = 0; i < 3; i++) {
        size_t *const counts[] = {&job.board_count, &job.communicators, &job.payload_len};
        job = plain_job();
        *counts[i] = limits[i];
        expect_answer(names[i], built(&job), JAMTURRET_SUCCESS, 0);
        ++*counts[i];
        expect_answer(names[i], built(&job), JAMTURRET_RANGE, 0);
    }
}

/*
 * A number of a board or of an operation: its most passes, one more is refused
 * 5 or 6. The operation is nonblocking, so that it has a slot, and is waited
 * for.
 */
static void field_limits(void)
{
    static const struct {
        const char *name;
        uint32_t most;
        uint32_t refusal;
    } limits[] = {
        {"attached", JAMTURRET_MOST_ATTACHED, JAMTURRET_BOARD},
        {"inboxes", JAMTURRET_MOST_INBOXES, JAMTURRET_BOARD},
        {"tag", JAMTURRET_MOST_TAG, JAMTURRET_OPERATION},
        {"length", JAMTURRET_MOST_LENGTH, JAMTURRET_OPERATION},
        {"slot", JAMTURRET_SLOTS - 1, JAMTURRET_OPERATION},
    };
    size_t i;
    for (i = 0; i < sizeof limits / sizeof limits[0]; i++) {
        jamturret_job job = plain_job();
        uint32_t *const fields[] = {&boards[0].attached, &boards[0].inbox, &operations[0].tag,
                                    &operations[0].length, &operations[0].slot};
        operations[0].flag = JAMTURRET_FLAG_NONBLOCKING;
        *fields[i] = limits[i].most;
        operations[1] = jamturret_wait(operations[0].slot);
        boards[0].count = 2;
        job.operation_count = 2;
        expect_answer(limits[i].name, built(&job), JAMTURRET_SUCCESS, 0);
        ++*fields[i];
        expect_answer(limits[i].name, built(&job), limits[i].refusal, 0);
    }
}

/* A standard room at its most, and one byte above. */
static void standard_room_limit(void)
{
    const jamturret_job job = plain_job();
    edition = JAMTURRET_EDITION_2;
    standard_rooms[0] = JAMTURRET_MOST_STANDARD_ROOM;
    expect_answer("standard room", built(&job), JAMTURRET_SUCCESS, 0);
    standard_rooms[0]++;
    expect_answer("standard room", built(&job), JAMTURRET_BOARD, 0);
}

/*
 * The largest room covers four of the longest messages and no byte more; sixteen
 * of them and seventeen are 0 and 4,096 bytes modulo 65,536.
 */
static void standard_room_sums(void)
{
    static const uint32_t counts[] = {4, 5, 16, 17};
    size_t i;
    edition = JAMTURRET_EDITION_2;
    for (i = 0; i < sizeof counts / sizeof counts[0]; i++) {
        jamturret_job job = plain_job();
        uint32_t sent;
        standard_rooms[0] = JAMTURRET_MOST_STANDARD_ROOM;
        boards[0].count = counts[i];
        job.operation_count = counts[i];
        for (sent = 0; sent < counts[i]; sent++) {
            operations[sent].length = JAMTURRET_MOST_LENGTH;
        }
        expect_answer("long sends", built(&job), JAMTURRET_SUCCESS, 0);
        expect_answer("long sends", jamturret_premise(sheet, sheet_len),
                      counts[i] == 4 ? JAMTURRET_SUCCESS : JAMTURRET_STANDARD_UNCOVERED, 0);
    }
}

/* Each kind is told from the others by what the library says of it. */
static void kinds(void)
{
    jamturret_job job = plain_job();
    operations[0].length = 1;
    expect_answer("standard", built(&job), JAMTURRET_SUCCESS, 0);
    expect_answer("standard", jamturret_premise(sheet, sheet_len), JAMTURRET_SUCCESS, 0);
    operations[0].kind = JAMTURRET_KIND_BUFFERED;
    expect_answer("buffered", built(&job), JAMTURRET_SUCCESS, 0);
    expect_answer("buffered", jamturret_premise(sheet, sheet_len), JAMTURRET_UNCOVERED, 0);
    boards[0].attached = operations[0].length + JAMTURRET_BSEND_OVERHEAD;
    expect_answer("covered", built(&job), JAMTURRET_SUCCESS, 0);
    expect_answer("covered", jamturret_premise(sheet, sheet_len), JAMTURRET_SUCCESS, 0);
    boards[0].attached--;
    expect_answer("one byte short", built(&job), JAMTURRET_SUCCESS, 0);
    expect_answer("one byte short", jamturret_premise(sheet, sheet_len), JAMTURRET_UNCOVERED, 0);
    operations[0].kind = JAMTURRET_KIND_SYNCHRONOUS;
    expect_answer("synchronous", built(&job), JAMTURRET_SUCCESS, 0);
    operations[0].kind = JAMTURRET_KIND_READY;
    expect_answer("ready", built(&job), JAMTURRET_SUCCESS, 0);
    expect_answer("ready", jamturret_premise(sheet, sheet_len), JAMTURRET_READY, 0);
    operations[0].peer = JAMTURRET_ANY;
    expect_answer("send to any", built(&job), JAMTURRET_OPERATION, 0);
    operations[0] = jamturret_receive(JAMTURRET_ANY, JAMTURRET_ANY, 0, 0);
    expect_answer("receive", built(&job), JAMTURRET_SUCCESS, 0);
    expect_answer("receive", jamturret_premise(sheet, sheet_len), JAMTURRET_ANY_SOURCE, 0);
    operations[0].tag = JAMTURRET_ANY - 1;
    expect_answer("receive of no tag", built(&job), JAMTURRET_OPERATION, 0);
    operations[0] = jamturret_wait(0);
    expect_answer("wait for nothing", built(&job), JAMTURRET_SLOT_OR_AREA, 0);
    operations[0] = jamturret_probe(0, JAMTURRET_ANY);
    expect_answer("probe", built(&job), JAMTURRET_SUCCESS, 0);
    expect_answer("probe", jamturret_premise(sheet, sheet_len), JAMTURRET_SUCCESS, 0);
    operations[0] = jamturret_status_query(0);
    expect_answer("query of nothing", built(&job), JAMTURRET_SLOT_OR_AREA, 0);
    operations[0] = jamturret_on(jamturret_send(JAMTURRET_KIND_STANDARD, 0, 0, 0, 0), 1);
    expect_answer("communicator 1 of 1", built(&job), JAMTURRET_OPERATION, 0);
}

/* The refusals that no limit brings up. */
static void refusals(void)
{
    static const uint8_t order[] = {1};
    static uint8_t inbox[1];
    static uint8_t report[JAMTURRET_REPORT_OF(JAMTURRET_EDITION_2, 1, 1)];
    static uint8_t scratch[JAMTURRET_SCRATCH];
    const jamturret_job job = plain_job();
    expect_answer("plain job", built(&job), JAMTURRET_SUCCESS, 0);
    expect_answer("rank 1 of 1",
                  jamturret_follow(sheet, sheet_len, order, sizeof order, inbox, 0, report,
                                   sizeof report, scratch, sizeof scratch),
                  JAMTURRET_ORDER, 0);
    expect_answer("15 bytes", jamturret_check(sheet, 15), JAMTURRET_SHORT_SHEET, 0);
    expect_answer("a byte less", jamturret_check(sheet, sheet_len - 1), JAMTURRET_OFFSETS, 0);
    sheet[sheet_len - 1] ^= 1;
    expect_answer("a bit flipped", jamturret_check(sheet, sheet_len), JAMTURRET_CRC, 0);
}

/* The largest job: each room at its size, and each once a byte short. */
static void rooms(size_t longest_sheet, size_t longest_report)
{
    static uint8_t inbox[JAMTURRET_MOST_INBOXES];
    static uint8_t report[JAMTURRET_MOST_REPORT];
    static uint8_t order[JAMTURRET_MOST_ORDER];
    static uint8_t scratch[JAMTURRET_SCRATCH];
    jamturret_job job = plain_job();
    uint64_t room;
    job.board_count = JAMTURRET_MOST_BOARDS;
    job.operation_count = JAMTURRET_MOST_OPERATIONS;
    boards[0].count = JAMTURRET_MOST_OPERATIONS;
    boards[0].inbox = JAMTURRET_MOST_INBOXES;
    expect_answer("largest sheet", built(&job), JAMTURRET_SUCCESS, 0);
    expect("longest sheet", sheet_len, longest_sheet);
    for (room = 0; room <= JAMTURRET_ROOM_SCRATCH; room++) {
        const jamturret_answer answer
            = jamturret_run(sheet, sheet_len, inbox,
                            sizeof inbox - (room == JAMTURRET_ROOM_INBOX), report,
                            longest_report - (room == JAMTURRET_ROOM_REPORT), order,
                            sizeof order - (room == JAMTURRET_ROOM_ORDER_OUT), scratch,
                            sizeof scratch - (room == JAMTURRET_ROOM_SCRATCH));
        expect_answer("room", answer, room == 0 ? JAMTURRET_SUCCESS : JAMTURRET_ROOM, room);
    }
}

int main(void)
{
    for (edition = JAMTURRET_EDITION_1; edition <= JAMTURRET_EDITION_2; edition++) {
        count_limits();
        field_limits();
        kinds();
        refusals();
    }
    standard_room_limit();
    standard_room_sums();
    edition = JAMTURRET_EDITION_1;
    rooms(49296, 24720);
    edition = JAMTURRET_EDITION_2;
    rooms(49328, 24784);
    expect("longest sheet of all", JAMTURRET_MOST_SHEET, 49328);
    expect("longest report of all", JAMTURRET_MOST_REPORT, 24784);
    return expect_end("limits_test");
}
