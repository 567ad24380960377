/*
 * Calls on separate rooms may run at once. Every job is first asked in one
 * thread alone; then four threads ask all of them at once, each with rooms of
 * its own and each starting at another job, and every answer and every byte of
 * inbox, report, order and scratch is compared.
 */
#define _POSIX_C_SOURCE 200809L

#include "test_jobs.h"

#include <pthread.h>
#include <stdio.h>

enum { THREADS = 4, JOBS = 64, ROUNDS = 12, FILL = 0xA5 };

typedef struct sheet_of_job {
    size_t length;
    uint8_t bytes[JAMTURRET_MOST_SHEET];
} sheet_of_job;

/* The rooms of a call, with nothing between them: they compare as one stretch of bytes. */
typedef struct rooms {
    uint8_t inbox[JAMTURRET_MOST_INBOXES];
    uint8_t report[JAMTURRET_MOST_REPORT];
    uint8_t order[JAMTURRET_MOST_ORDER];
    uint8_t scratch[JAMTURRET_SCRATCH];
} rooms;

/* What the calls for one job answered and left. */
typedef struct outcome {
    uint16_t crc;
    jamturret_answer answers[4]; /* check, premise, run, follow */
    rooms run;
    rooms follow;
} outcome;

typedef struct worker {
    size_t number;
    int failed;
    outcome mine;
} worker;

static sheet_of_job sheets[JOBS];
static outcome alone[JOBS];
static worker workers[THREADS];
static pthread_barrier_t start;

/* Follow takes run's order; in every other job its first half, so that boards are still able. */
static void ask(size_t job, outcome *out)
{
    const sheet_of_job *sheet = &sheets[job];
    rooms *ran = &out->run;
    rooms *followed = &out->follow;
    size_t steps = 0;
    memset(ran, FILL, sizeof *ran);
    memset(followed, FILL, sizeof *followed);
    out->crc = jamturret_crc(sheet->bytes, sheet->length);
    out->answers[0] = jamturret_check(sheet->bytes, sheet->length);
    out->answers[1] = jamturret_premise(sheet->bytes, sheet->length);
    out->answers[2] = jamturret_run(sheet->bytes, sheet->length, ran->inbox, sizeof ran->inbox,
                                    ran->report, sizeof ran->report, ran->order,
                                    sizeof ran->order, ran->scratch, sizeof ran->scratch);
    if (out->answers[2].number == JAMTURRET_SUCCESS) {
        steps = jamturret_report_steps(ran->report) / (job % 2 + 1);
    }
    out->answers[3] = jamturret_follow(sheet->bytes, sheet->length, ran->order, steps,
                                       followed->inbox, sizeof followed->inbox, followed->report,
                                       sizeof followed->report, followed->scratch,
                                       sizeof followed->scratch);
}

/* The first difference in words, or NULL. */
static const char *difference(const outcome *got, const outcome *wanted)
{
    static const char *const services[] = {"check's answer", "premise's answer", "run's answer",
                                           "follow's answer"};
    size_t i;
    if (got->crc != wanted->crc) {
        return "the CRC";
    }
    for (i = 0; i < 4; i++) {
        if (got->answers[i].number != wanted->answers[i].number
            || got->answers[i].place != wanted->answers[i].place) {
            return services[i];
        }
    }
    if (memcmp(&got->run, &wanted->run, sizeof got->run) != 0) {
        return "a room of run";
    }
    if (memcmp(&got->follow, &wanted->follow, sizeof got->follow) != 0) {
        return "a room of follow";
    }
    return NULL;
}

static void *work(void *argument)
{
    worker *self = JAMTURRET_CAST(worker *, argument);
    size_t turn;
    pthread_barrier_wait(&start);
    for (turn = 0; turn < JAMTURRET_CAST(size_t, ROUNDS) * JOBS && !self->failed; turn++) {
        const size_t job = (turn + self->number * (JOBS / THREADS)) % JOBS;
        const char *differs;
        ask(job, &self->mine);
        differs = difference(&self->mine, &alone[job]);
        if (differs != NULL) {
            printf("threads: thread %zu, job %zu: %s differs from that in one thread\n",
                   self->number, job, differs);
            self->failed = 1;
        }
    }
    return NULL;
}

/*
 * Every ninth sheet has a bit flipped and is refused. The verdicts of run that
 * came up, as bits, eight for each edition.
 */
static unsigned ask_alone(void)
{
    static drawn_job drawn;
    unsigned verdicts = 0;
    uint32_t job;
    for (job = 0; job < JOBS; job++) {
        const size_t operations = job % 5 == 0 ? JAMTURRET_MOST_OPERATIONS : 2 * (1 + 5 * job);
        sheets[job].length = draw_sheet(&drawn, job, operations, sheets[job].bytes);
        if (job % 9 == 8) {
            sheets[job].bytes[sheets[job].length / 2] ^= 1;
        }
        ask(job, &alone[job]);
        if (alone[job].answers[2].number == JAMTURRET_SUCCESS) {
            verdicts |= 1u << (jamturret_report_verdict(alone[job].run.report)
                               + 8 * jamturret_sheet_edition(sheets[job].bytes));
        }
    }
    return verdicts;
}

int main(void)
{
    const unsigned each = 1u << JAMTURRET_FINISHED | 1u << JAMTURRET_DEADLOCK
                          | 1u << JAMTURRET_OVERFLOW | 1u << JAMTURRET_NOT_READY;
    const unsigned wanted
        = each << 8 * JAMTURRET_EDITION_1 | each << 8 * JAMTURRET_EDITION_2;
    pthread_t threads[THREADS];
    int failed = 0;
    size_t i;
    if (ask_alone() != wanted) {
        printf("threads: the jobs do not have every verdict of a run in both editions\n");
        return 1;
    }
    pthread_barrier_init(&start, NULL, THREADS);
    for (i = 0; i < THREADS; i++) {
        workers[i].number = i;
        if (pthread_create(&threads[i], NULL, work, &workers[i]) != 0) {
            printf("threads: thread %zu cannot be started\n", i);
            return 1;
        }
    }
    for (i = 0; i < THREADS; i++) {
        pthread_join(threads[i], NULL);
        failed = failed || workers[i].failed;
    }
    if (!failed) {
        printf("threads: %d threads, %d jobs, %d rounds: every byte as in one thread\n", THREADS,
               JOBS, ROUNDS);
    }
    return failed;
}
