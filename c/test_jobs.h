/*
 * Jobs for the tests, drawn from a seed: sheets that pass check, of a given
 * number of operations, whose boards exchange messages in every mode, blocking
 * and with waits, some with probes and status queries, half of them with
 * standard rooms. The same seed gives the same sheet.
 */
#ifndef TEST_JOBS_H
#define TEST_JOBS_H

#include "jamturret.h"

#include <string.h>

/* Each board's inbox: a stretch for each of the slots in use, then one for blocking receives. */
enum { BATCH = 4, STRETCH = 128, INBOX = STRETCH * (BATCH + 1) };

/* What a seed decides for a whole job. */
typedef struct style {
    uint32_t boards;
    int receives_last; /* all sends of a board before its receives, buffered lest they wait */
    int any_source;    /* some receives name any source */
    int may_stop;      /* ready sends, and buffers that may overflow */
    int asks;          /* half of the messages with probes or status queries */
    int rooms;         /* edition 2, with standard rooms that some messages do not fit */
} style;

/* An operation, and the part of the table that it goes to: each board has two parts. */
typedef struct drawn_operation {
    uint32_t part;
    jamturret_operation operation;
} drawn_operation;

typedef struct drawn_job {
    uint32_t state; /* of the generator */
    style chosen;
    size_t count;
    drawn_operation drawn[JAMTURRET_MOST_OPERATIONS];
    jamturret_board boards[JAMTURRET_MOST_BOARDS];
    uint32_t standard_rooms[JAMTURRET_MOST_BOARDS];
    jamturret_operation operations[JAMTURRET_MOST_OPERATIONS];
    uint8_t payload[JAMTURRET_MOST_PAYLOAD];
} drawn_job;

/* A number below a bound, by a linear congruential generator whose low bits are left out. */
static inline uint32_t draw(drawn_job *job, uint32_t below)
{
    job->state = job->state * 1664525u + 1013904223u;
    return (job->state >> 16) % below;
}

static inline void add(drawn_job *job, uint32_t part, jamturret_operation operation)
{
    job->drawn[job->count].part = part;
    job->drawn[job->count].operation = operation;
    job->count++;
}

static inline uint32_t draw_mode(drawn_job *job)
{
    if (job->chosen.receives_last) {
        return JAMTURRET_KIND_BUFFERED;
    }
    if (job->chosen.may_stop && draw(job, 64) == 0) {
        return JAMTURRET_KIND_READY;
    }
    return JAMTURRET_KIND_STANDARD + draw(job, 3);
}

/*
 * The receive for a send. Now and then its capacity is one byte short, and the
 * message is cut; or its tag is another, and nothing fits.
 */
static inline jamturret_operation draw_receive(drawn_job *job, uint32_t from,
                                               jamturret_operation send, uint32_t offset)
{
    const int short_room = send.length > 0 && draw(job, 8) == 0;
    const int any_source = job->chosen.any_source && draw(job, 4) == 0;
    const uint32_t tag = draw(job, 400) == 0 ? send.tag + 1 : send.tag;
    return jamturret_on(jamturret_receive(any_source ? JAMTURRET_ANY : from,
                                          draw(job, 4) == 0 ? JAMTURRET_ANY : tag, offset,
                                          short_room ? send.length - 1 : send.length),
                        send.communicator);
}

/* A probe for any tag of a receive's source, and one for what the receive asks for. */
static inline void add_probes(drawn_job *job, uint32_t part, jamturret_operation receive)
{
    const jamturret_operation any_tag = jamturret_probe(receive.peer, JAMTURRET_ANY);
    const jamturret_operation same_tag = jamturret_probe(receive.peer, receive.tag);
    add(job, part, jamturret_on(any_tag, receive.communicator));
    add(job, part, jamturret_on(same_tag, receive.communicator));
}

/*
 * Messages from one board to another: a single one is blocking and takes two
 * operations, several are nonblocking and take four each, with their waits. Two
 * more each where they are asked for: probes before the receive of a single one,
 * else a status query of both requests.
 */
static inline void add_messages(drawn_job *job, uint32_t messages, int asks)
{
    const uint32_t boards = job->chosen.boards;
    const uint32_t from = draw(job, boards);
    const uint32_t to = (from + 1 + draw(job, boards - 1)) % boards;
    const uint32_t sends = 2 * from;
    const uint32_t receives = 2 * to + (job->chosen.receives_last ? 1u : 0u);
    uint32_t slot;
    for (slot = 0; slot < messages; slot++) {
        const jamturret_operation send
            = jamturret_on(jamturret_send(draw_mode(job), to, draw(job, 3),
                                          draw(job, JAMTURRET_MOST_PAYLOAD - STRETCH),
                                          draw(job, STRETCH + 1)),
                           draw(job, 2));
        const jamturret_operation receive
            = draw_receive(job, from, send, messages == 1 ? STRETCH * BATCH : STRETCH * slot);
        if (asks && messages == 1) {
            add_probes(job, receives, receive);
        }
        add(job, sends, messages == 1 ? send : jamturret_nonblocking(send, slot));
        add(job, receives, messages == 1 ? receive : jamturret_nonblocking(receive, slot));
    }
    for (slot = 0; messages > 1 && slot < messages; slot++) {
        if (asks) {
            add(job, sends, jamturret_status_query(slot));
            add(job, receives, jamturret_status_query(slot));
        }
        add(job, sends, jamturret_wait(slot));
        add(job, receives, jamturret_wait(slot));
    }
}

/* The drawn operations in the order of a table, and each board's count of them. */
static inline void sort_operations(drawn_job *job)
{
    size_t sorted = 0;
    uint32_t part;
    for (part = 0; part < 2 * job->chosen.boards; part++) {
        size_t i;
        for (i = 0; i < job->count; i++) {
            if (job->drawn[i].part == part) {
                job->operations[sorted++] = job->drawn[i].operation;
                job->boards[part / 2].count++;
            }
        }
    }
}

static inline void draw_sizes(drawn_job *job)
{
    uint32_t rank;
    size_t i;
    for (rank = 0; rank < job->chosen.boards; rank++) {
        job->boards[rank].attached = job->chosen.may_stop ? 2048 : JAMTURRET_MOST_ATTACHED;
        job->boards[rank].inbox = INBOX;
        job->standard_rooms[rank] = job->chosen.rooms ? draw(job, 3) * STRETCH : 0;
    }
    for (i = 0; i < sizeof job->payload; i++) {
        job->payload[i] = JAMTURRET_CAST(uint8_t, draw(job, 256));
    }
}

/*
 * Draws a job of an even number of operations and lays it out in a room of
 * JAMTURRET_MOST_SHEET bytes. The five lowest bits of the seed decide the
 * style. The sheet's length, or 0 if the builder refused.
 */
static inline size_t draw_sheet(drawn_job *job, uint32_t seed, size_t operations, uint8_t *sheet)
{
    jamturret_job plan = {2, job->boards, 0, job->operations, operations, job->payload,
                          sizeof job->payload};
    jamturret_layout layout = {&plan, JAMTURRET_EDITION_1, job->standard_rooms};
    memset(job, 0, sizeof *job);
    job->state = seed;
    job->chosen.boards = 2 + draw(job, JAMTURRET_MOST_BOARDS - 1);
    job->chosen.receives_last = (seed & 1) != 0;
    job->chosen.any_source = (seed & 2) != 0;
    job->chosen.may_stop = (seed & 4) != 0;
    job->chosen.asks = (seed & 8) != 0;
    job->chosen.rooms = (seed & 16) != 0;
    while (job->count < operations) {
        const size_t left = operations - job->count;
        const uint32_t messages = left >= 6 * BATCH && draw(job, 2) == 0 ? BATCH : 1;
        add_messages(job, messages, job->chosen.asks && left >= 4 && draw(job, 2) == 0);
    }
    sort_operations(job);
    draw_sizes(job);
    plan.board_count = job->chosen.boards;
    layout.edition = job->chosen.rooms ? JAMTURRET_EDITION_2 : JAMTURRET_EDITION_1;
    return jamturret_lay_out(&layout, sheet, JAMTURRET_MOST_SHEET).number == JAMTURRET_SUCCESS
               ? jamturret_layout_length(&layout)
               : 0;
}

#endif
