/*
 * jamturret_sheet.h: the builders' bytes against the sample sheets and against
 * bytes laid out by hand from documents 01 and 02, what they refuse, and the
 * CRC. Reads sheets/, so it runs at the repository root.
 */
#include "test_expect.h"

#include <string.h>

enum { FILL = 0xA5, MOST_OFFSET_OPERATIONS = 4094 };

static uint8_t sheet[JAMTURRET_MOST_SHEET];

/* The standard rooms of the jobs that are laid out; NULL where they are of edition 1. */
static const uint32_t *standard_rooms = NULL;

static jamturret_answer build(const jamturret_job *job, size_t room)
{
    return standard_rooms == NULL ? jamturret_build(job, sheet, room)
                                  : jamturret_build_2(job, standard_rooms, sheet, room);
}

static void expect_refused(const char *what, const jamturret_job *job, size_t room, uint32_t number,
                           uint64_t place)
{
    memset(sheet, FILL, sizeof sheet);
    expect_answer(what, build(job, room), number, place);
    expect_filled("bytes after a refusal", sheet, FILL, sizeof sheet);
}

/* Refused in a room one byte short; else the wanted bytes, and none after them. */
static void expect_built(const char *what, const jamturret_job *job, const uint8_t *wanted,
                         size_t wanted_len)
{
    const unsigned edition = standard_rooms == NULL ? JAMTURRET_EDITION_1 : JAMTURRET_EDITION_2;
    const size_t length
        = JAMTURRET_SHEET_OF(edition, job->board_count, job->operation_count, job->payload_len);
    expect(what, length, wanted_len);
    expect_refused(what, job, length - 1, JAMTURRET_SHEET_ROOM, length);
    expect_answer(what, build(job, length), JAMTURRET_SUCCESS, 0);
    expect(what, jamturret_sheet_edition(sheet), edition);
    expect_bytes(what, sheet, wanted, length);
    expect_filled("bytes after the sheet", sheet + length, FILL, sizeof sheet - length);
}

/* The builder gives the sample's bytes, and check this answer to them. */
static void expect_sample(const char *path, const jamturret_job *job, uint32_t number,
                          uint64_t place)
{
    static uint8_t sample[JAMTURRET_MOST_SHEET];
    size_t length;
    FILE *file = fopen(path, "rb");
    if (file == NULL) {
        expect("sample sheets that cannot be read", 1, 0);
        return;
    }
    length = fread(sample, 1, sizeof sample, file);
    fclose(file);
    expect_built(path, job, sample, length);
    expect_answer(path, jamturret_check(sheet, length), number, place);
}

/* All sample sheets have the bytes 0B, 0C and so on as payload. */
static const uint8_t payload[] = {0x0B, 0x0C, 0x0D, 0x0E, 0x0F, 0x10, 0x11, 0x12};

/* sheets/README.md, Safe only by its buffer: eight bytes to rank 1, which receives nothing. */
static void block_sample(const char *path, uint32_t mode)
{
    const jamturret_board boards[] = {{1, 8 + 32, 0}, {0, 0, 8}};
    const jamturret_operation operations[] = {jamturret_send(mode, 1, 1, 0, 8)};
    const jamturret_job job = {1, boards, 2, operations, 1, payload, 8};
    expect_sample(path, &job, JAMTURRET_SUCCESS, 0);
}

/* Bench job 1; and the same with a nonblocking send that is never waited for. */
static void handshake_samples(void)
{
    const jamturret_board boards[] = {{1, 0, 0}, {1, 0, 4}};
    jamturret_operation operations[] = {
        jamturret_send(JAMTURRET_KIND_SYNCHRONOUS, 1, 7, 0, 3),
        jamturret_receive(0, JAMTURRET_ANY, 0, 4),
    };
    const jamturret_job job = {1, boards, 2, operations, 2, payload, 3};
    expect_sample("sheets/handshake.sheet", &job, JAMTURRET_SUCCESS, 0);
    operations[0] = jamturret_nonblocking(operations[0], 0);
    expect_sample("sheets/refused-7-forgotten.sheet", &job, JAMTURRET_SLOT_OR_AREA, 0);
}

/* sheets/README.md, Refused sheets: a slot that is taken while it is held. */
static void taken_slot_sample(void)
{
    const jamturret_board boards[] = {{3, 0, 8}, {0, 0, 0}};
    const jamturret_operation operations[] = {
        jamturret_nonblocking(jamturret_receive(1, 0, 0, 4), 3),
        jamturret_nonblocking(jamturret_receive(1, 0, 4, 4), 3),
        jamturret_wait(3),
    };
    const jamturret_job job = {1, boards, 2, operations, 3, payload, 0};
    expect_sample("sheets/refused-7.sheet", &job, JAMTURRET_SLOT_OR_AREA, 1);
}

/* Bench job 7. */
static void nonblocking_sample(void)
{
    const jamturret_board boards[] = {{4, 0, 0}, {4, 0, 4}};
    const jamturret_operation operations[] = {
        jamturret_nonblocking(jamturret_send(JAMTURRET_KIND_STANDARD, 1, 0, 0, 2), 0),
        jamturret_nonblocking(jamturret_send(JAMTURRET_KIND_STANDARD, 1, 0, 2, 2), 1),
        jamturret_wait(0),
        jamturret_wait(1),
        jamturret_nonblocking(jamturret_receive(0, JAMTURRET_ANY, 0, 2), 0),
        jamturret_nonblocking(jamturret_receive(0, 0, 2, 2), 1),
        jamturret_wait(0),
        jamturret_wait(1),
    };
    const jamturret_job job = {1, boards, 2, operations, 8, payload, 4};
    expect_sample("sheets/nonblocking.sheet", &job, JAMTURRET_SUCCESS, 0);
}

/* sheets/README.md, Probes and status queries. */
static void probe_samples(void)
{
    const jamturret_board sized[] = {{2, 5 + 32, 0}, {4, 0, 8}};
    const jamturret_operation sizes[] = {
        jamturret_send(JAMTURRET_KIND_BUFFERED, 1, 2, 0, 5),
        jamturret_send(JAMTURRET_KIND_SYNCHRONOUS, 1, 1, 5, 3),
        jamturret_probe(0, JAMTURRET_ANY),
        jamturret_receive(0, 2, 0, 5),
        jamturret_probe(0, JAMTURRET_ANY),
        jamturret_receive(0, 1, 5, 3),
    };
    const jamturret_board hanging[] = {{1, 0, 0}, {4, 0, 6}};
    const jamturret_operation hangs[] = {
        jamturret_send(JAMTURRET_KIND_SYNCHRONOUS, 1, 1, 0, 3),
        jamturret_probe(0, JAMTURRET_ANY),
        jamturret_receive(0, 1, 0, 3),
        jamturret_probe(0, JAMTURRET_ANY),
        jamturret_receive(0, 1, 3, 3),
    };
    const jamturret_job sizes_job = {1, sized, 2, sizes, 6, payload, 8};
    const jamturret_job hangs_job = {1, hanging, 2, hangs, 5, payload, 3};
    expect_sample("sheets/probe-sizes-receive.sheet", &sizes_job, JAMTURRET_SUCCESS, 0);
    expect_sample("sheets/hangs-on-probe.sheet", &hangs_job, JAMTURRET_SUCCESS, 0);
}

static void query_sample(void)
{
    const jamturret_board boards[] = {{5, 0, 3}, {2, 0, 0}};
    const jamturret_operation operations[] = {
        jamturret_nonblocking(jamturret_receive(1, 0, 0, 2), 4),
        jamturret_status_query(4),
        jamturret_receive(1, 1, 2, 1),
        jamturret_status_query(4),
        jamturret_wait(4),
        jamturret_send(JAMTURRET_KIND_STANDARD, 0, 0, 0, 2),
        jamturret_send(JAMTURRET_KIND_STANDARD, 0, 1, 2, 1),
    };
    const jamturret_job job = {1, boards, 2, operations, 7, payload, 3};
    expect_sample("sheets/query-before-and-after.sheet", &job, JAMTURRET_SUCCESS, 0);
}

/* sheets/README.md, Rooms for standard sends: bench job 6, and a room that is used again. */
static void room_samples(void)
{
    static const uint32_t covered[] = {2, 2};
    static const uint32_t short_by_one[] = {1, 1};
    static const uint32_t used_again[] = {3, 0};
    const jamturret_board both[] = {{2, 0, 2}, {2, 0, 2}};
    const jamturret_operation send_first[] = {
        jamturret_send(JAMTURRET_KIND_STANDARD, 1, 5, 0, 2), jamturret_receive(1, 5, 0, 2),
        jamturret_send(JAMTURRET_KIND_STANDARD, 0, 5, 2, 2), jamturret_receive(0, 5, 0, 2),
    };
    const jamturret_board answered[] = {{3, 0, 0}, {2, 0, 3}};
    const jamturret_operation twice[] = {
        jamturret_send(JAMTURRET_KIND_STANDARD, 1, 1, 0, 3), jamturret_receive(1, 2, 0, 0),
        jamturret_send(JAMTURRET_KIND_STANDARD, 1, 1, 3, 2), jamturret_receive(0, 1, 0, 3),
        jamturret_send(JAMTURRET_KIND_STANDARD, 0, 2, 0, 0),
    };
    const jamturret_job both_job = {1, both, 2, send_first, 4, payload, 4};
    const jamturret_job twice_job = {1, answered, 2, twice, 5, payload, 5};
    expect_sample("sheets/both-send-first.sheet", &both_job, JAMTURRET_SUCCESS, 0);
    standard_rooms = covered;
    expect_sample("sheets/both-send-first-covered.sheet", &both_job, JAMTURRET_SUCCESS, 0);
    standard_rooms = short_by_one;
    expect_sample("sheets/both-send-first-short.sheet", &both_job, JAMTURRET_SUCCESS, 0);
    standard_rooms = used_again;
    expect_sample("sheets/room-used-again.sheet", &twice_job, JAMTURRET_SUCCESS, 0);
    standard_rooms = NULL;
}

/* Bench job 1 in edition 2, with a room that is too large. */
static void large_room_sample(void)
{
    static const uint32_t rooms[] = {0, JAMTURRET_MOST_STANDARD_ROOM + 1};
    const jamturret_board boards[] = {{1, 0, 0}, {1, 0, 4}};
    const jamturret_operation operations[] = {
        jamturret_send(JAMTURRET_KIND_SYNCHRONOUS, 1, 7, 0, 3),
        jamturret_receive(0, JAMTURRET_ANY, 0, 4),
    };
    const jamturret_job job = {1, boards, 2, operations, 2, payload, 3};
    standard_rooms = rooms;
    expect_sample("sheets/refused-5-room.sheet", &job, JAMTURRET_BOARD, 1);
    standard_rooms = NULL;
}

/*
 * Each number differs from all others, so that no two fields can be exchanged
 * unseen. Check would refuse it.
 */
static void every_field(void)
{
    static const uint8_t last[] = {0x13};
    static const uint8_t wanted[] = {
        /* header; its CRC is that of Python's binascii.crc_hqx, started at FFFF */
        0x01, 0x00, 0x03, 0x00, 0x01, 0x00, 0x10, 0x00,
        0x18, 0x00, 0x28, 0x00, 0x01, 0x00, 0x63, 0xB6,
        /* board entry */
        0x00, 0x00, 0x01, 0x00, 0x02, 0x01, 0x04, 0x03,
        /* operation */
        0x05, 0x06, 0x08, 0x07, 0x0A, 0x09, 0x00, 0x00,
        0x0C, 0x0B, 0x0E, 0x0D, 0x10, 0x0F, 0x12, 0x11,
        /* payload */
        0x13,
    };
    const jamturret_board boards[] = {{1, 0x0102, 0x0304}};
    const jamturret_operation operations[]
        = {{0x05, 0x06, 0x0708, 0x090A, 0x0B0C, 0x0D0E, 0x0F10, 0x1112}};
    const jamturret_job job = {3, boards, 1, operations, 1, last, 1};
    expect_built("every field", &job, wanted, sizeof wanted);
}

/* In edition 2, with two boards: each entry has its own room, and all behind them moves. */
static void every_field_2(void)
{
    static const uint8_t last[] = {0x13};
    static const uint32_t rooms[] = {0x1415, 0x1617};
    static const uint8_t wanted[] = {
        /* header; its CRC is that of Python's binascii.crc_hqx, started at FFFF */
        0x02, 0x00, 0x03, 0x00, 0x01, 0x00, 0x10, 0x00,
        0x24, 0x00, 0x34, 0x00, 0x01, 0x00, 0x4A, 0xF5,
        /* board entries */
        0x00, 0x00, 0x01, 0x00, 0x02, 0x01, 0x04, 0x03, 0x15, 0x14,
        0x01, 0x00, 0x00, 0x00, 0x19, 0x18, 0x1B, 0x1A, 0x17, 0x16,
        /* operation */
        0x05, 0x06, 0x08, 0x07, 0x0A, 0x09, 0x00, 0x00,
        0x0C, 0x0B, 0x0E, 0x0D, 0x10, 0x0F, 0x12, 0x11,
        /* payload */
        0x13,
    };
    const jamturret_board boards[] = {{1, 0x0102, 0x0304}, {0, 0x1819, 0x1A1B}};
    const jamturret_operation operations[]
        = {{0x05, 0x06, 0x0708, 0x090A, 0x0B0C, 0x0D0E, 0x0F10, 0x1112}};
    const jamturret_job job = {3, boards, 2, operations, 1, last, 1};
    standard_rooms = rooms;
    expect_built("every field of edition 2", &job, wanted, sizeof wanted);
    standard_rooms = NULL;
}

/*
 * Each number once at the most that its field holds and once above. The room
 * is short both times, which is said only where all numbers fit.
 */
static void widths(void)
{
    static const char *const names[] = {"kind", "flag", "peer", "communicator", "tag", "offset",
                                        "length", "slot", "count", "attached", "inbox"};
    size_t i;
    for (i = 0; i < sizeof names / sizeof names[0]; i++) {
        jamturret_board boards[] = {{0, 0, 0}, {2, 0, 0}};
        jamturret_operation operations[] = {jamturret_wait(0), jamturret_wait(0)};
        const jamturret_job job = {1, boards, 2, operations, 2, payload, 8};
        jamturret_operation *const operation = &operations[1];
        jamturret_board *const board = &boards[1];
        uint32_t *const fields[]
            = {&operation->kind,   &operation->flag,   &operation->peer,   &operation->communicator,
               &operation->tag,    &operation->offset, &operation->length, &operation->slot,
               &board->count,      &board->attached,   &board->inbox};
        *fields[i] = i < 2 ? 255 : 65535;
        expect_refused(names[i], &job, 71, JAMTURRET_SHEET_ROOM, 72);
        ++*fields[i];
        expect_refused(names[i], &job, 71,
                       i < 8 ? JAMTURRET_WIDE_OPERATION : JAMTURRET_WIDE_BOARD, 1);
    }
}

/* A standard room of the second board, at the most that its field holds and one above. */
static void wide_room(void)
{
    uint32_t rooms[] = {0, 65535};
    const jamturret_board boards[] = {{0, 0, 0}, {0, 0, 0}};
    const jamturret_job job = {1, boards, 2, NULL, 0, payload, 8};
    standard_rooms = rooms;
    expect_refused("standard room", &job, 43, JAMTURRET_SHEET_ROOM, 44);
    rooms[1]++;
    expect_refused("standard room", &job, 43, JAMTURRET_WIDE_BOARD, 1);
    standard_rooms = NULL;
}

/* A board's first operation is a sum: it need not fit where each count does. */
static void wide_sum(void)
{
    jamturret_board boards[] = {{65535, 0, 0}, {0, 0, 0}, {1, 0, 0}};
    const jamturret_job job = {1, boards, 3, NULL, 0, NULL, 0};
    expect_refused("sum of counts 65,535", &job, 0, JAMTURRET_SHEET_ROOM, 40);
    boards[1].count = 1;
    expect_refused("sum of counts 65,536", &job, 0, JAMTURRET_WIDE_BOARD, 2);
}

/* The header's own numbers. Where it is refused the arrays are not looked at. */
static void wide_header(void)
{
    static jamturret_operation operations[MOST_OFFSET_OPERATIONS];
    const jamturret_board boards[] = {{0, 0, 0}};
    const jamturret_job most
        = {65535, boards, 1, operations, MOST_OFFSET_OPERATIONS, payload, 65535};
    jamturret_job wide = most;
    /* 16 + 8 + 16 * 4,094 = 65,528 is the last offset of a payload that fits */
    expect_refused("widest header", &most, 0, JAMTURRET_SHEET_ROOM, 65528 + 65535);
    wide.operation_count = MOST_OFFSET_OPERATIONS + 1;
    expect_refused("payload's offset", &wide, 0, JAMTURRET_WIDE_HEADER, 0);
    wide.operation_count = SIZE_MAX;
    expect_refused("operations", &wide, 0, JAMTURRET_WIDE_HEADER, 0);
    wide = most;
    wide.communicators = 65536;
    expect_refused("communicators", &wide, 0, JAMTURRET_WIDE_HEADER, 0);
    wide = most;
    wide.payload_len = 65536;
    expect_refused("payload", &wide, 0, JAMTURRET_WIDE_HEADER, 0);
    wide = most;
    wide.operation_count = 0;
    wide.board_count = 8190; /* 16 + 8 * 8,190 = 65,536 */
    expect_refused("boards", &wide, 0, JAMTURRET_WIDE_HEADER, 0);
    wide.board_count = SIZE_MAX / 8 + 1; /* its table's length is 0 modulo 2 to the 64th */
    expect_refused("boards past wrapping", &wide, 0, JAMTURRET_WIDE_HEADER, 0);
}

/* Of edition 2, whose board table is longer; without boards its rooms are not looked at. */
static void wide_header_2(void)
{
    static const uint32_t rooms[] = {0};
    static jamturret_operation operations[MOST_OFFSET_OPERATIONS];
    const jamturret_board boards[] = {{0, 0, 0}};
    jamturret_job job = {1, boards, 1, operations, MOST_OFFSET_OPERATIONS, NULL, 0};
    standard_rooms = rooms;
    expect_refused("widest header of edition 2", &job, 0, JAMTURRET_SHEET_ROOM, 65530);
    job.operation_count++;
    expect_refused("payload's offset of edition 2", &job, 0, JAMTURRET_WIDE_HEADER, 0);
    job.operation_count = 0;
    job.board_count = 6552; /* 16 + 10 * 6,552 = 65,536 */
    expect_refused("boards of edition 2", &job, 0, JAMTURRET_WIDE_HEADER, 0);
    standard_rooms = NULL;
    job.board_count = 0;
    expect_answer("no boards in edition 2", jamturret_build_2(&job, NULL, sheet, 16),
                  JAMTURRET_SUCCESS, 0);
}

/*
 * Of CRC-16/IBM-3740 the catalogue has 29B1 for "123456789". The other values
 * are those of Python's binascii.crc_hqx, started at FFFF, over the bytes but
 * those at 14 and 15.
 */
static void crc(void)
{
    const char *text = "12345678901234xy7890";
    uint8_t bytes[20];
    size_t i;
    for (i = 0; i < sizeof bytes; i++) {
        bytes[i] = JAMTURRET_CAST(uint8_t, text[i]);
    }
    expect("CRC of no bytes", jamturret_crc(bytes, 0), 0xFFFF);
    expect("CRC of 9 bytes", jamturret_crc(bytes, 9), 0x29B1);
    expect("CRC of 14 bytes", jamturret_crc(bytes, 14), 0xFCCA);
    expect("CRC of 15 bytes", jamturret_crc(bytes, 15), 0xFCCA);
    expect("CRC of 16 bytes", jamturret_crc(bytes, 16), 0xFCCA);
    expect("CRC of 20 bytes", jamturret_crc(bytes, 20), 0xA9D7);
    bytes[14] ^= 0xFF;
    bytes[15] ^= 0xFF;
    expect("CRC with another CRC field", jamturret_crc(bytes, 20), 0xA9D7);
}

int main(void)
{
    block_sample("sheets/block-buffered.sheet", JAMTURRET_KIND_BUFFERED);
    block_sample("sheets/block-synchronous.sheet", JAMTURRET_KIND_SYNCHRONOUS);
    handshake_samples();
    nonblocking_sample();
    taken_slot_sample();
    probe_samples();
    query_sample();
    room_samples();
    large_room_sample();
    every_field();
    every_field_2();
    widths();
    wide_room();
    wide_sum();
    wide_header();
    wide_header_2();
    crc();
    return expect_end("sheet_test");
}
