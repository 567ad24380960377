/*
 * How much stack a call takes: each service runs in a thread whose stack is
 * painted before, and the deepest byte that lost its paint is looked for right
 * after the call. Fails above JAMTURRET_STACK. What is measured starts at the
 * caller's own frame, so it is a little too much and not too little. Not for a
 * build with sanitizers, whose memmove takes more stack than the library.
 */
#define _POSIX_C_SOURCE 200809L

#include "test_jobs.h"

#include <pthread.h>
#include <stdio.h>
#include <stdlib.h>

enum { STACK_BYTES = 64 * 1024, PAINT = 0xA5, SEEDS = 32 };

static _Alignas(4096) uint8_t stack[STACK_BYTES];
static drawn_job job;
static uint8_t sheet[JAMTURRET_MOST_SHEET];
static size_t sheet_len;
static uint8_t inbox[JAMTURRET_MOST_INBOXES];
static uint8_t report[JAMTURRET_MOST_REPORT];
static uint8_t order[JAMTURRET_MOST_ORDER];
static uint8_t scratch[JAMTURRET_SCRATCH];

static int call_nothing(void)
{
    return 1;
}

static int call_crc(void)
{
    return jamturret_crc(sheet, sheet_len) == jamturret_word_at(sheet, JAMTURRET_SHEET_CRC_AT);
}

static int call_check(void)
{
    return jamturret_check(sheet, sheet_len).number == JAMTURRET_SUCCESS;
}

static int call_premise(void)
{
    const uint32_t number = jamturret_premise(sheet, sheet_len).number;
    return number == JAMTURRET_SUCCESS || number >= JAMTURRET_ANY_SOURCE;
}

static int call_run(void)
{
    return jamturret_run(sheet, sheet_len, inbox, sizeof inbox, report, sizeof report, order,
                         sizeof order, scratch, sizeof scratch).number == JAMTURRET_SUCCESS;
}

/* With the order that run has left. */
static int call_follow(void)
{
    return jamturret_follow(sheet, sheet_len, order, jamturret_report_steps(report), inbox,
                            sizeof inbox, report, sizeof report, scratch, sizeof scratch).number
           == JAMTURRET_SUCCESS;
}

typedef struct trial {
    const char *name;
    int (*call)(void);
    int answered; /* as it has to be for a sheet that passes check */
    size_t used;  /* the most of all sheets */
} trial;

static trial trials[] = {
    {"nothing", call_nothing, 1, 0}, {"crc", call_crc, 1, 0}, {"check", call_check, 1, 0},
    {"premise", call_premise, 1, 0}, {"run", call_run, 1, 0}, {"follow", call_follow, 1, 0},
};
enum { TRIALS = sizeof trials / sizeof trials[0] };

/* Bytes from this frame down to the deepest one that lost its paint. */
static void *on_painted_stack(void *argument)
{
    trial *tried = argument;
    volatile uint8_t here = 0;
    const volatile uint8_t *deepest = stack;
    size_t used;
    tried->answered = tried->answered && tried->call();
    while (*deepest == PAINT) {
        deepest++;
    }
    used = (size_t)((uintptr_t)&here - (uintptr_t)deepest);
    tried->used = used > tried->used ? used : tried->used;
    return NULL;
}

static void fail(const char *what)
{
    printf("stack_test: %s\n", what);
    exit(1);
}

static void measure(trial *tried)
{
    pthread_attr_t attributes;
    pthread_t thread;
    memset(stack, PAINT, sizeof stack);
    if (pthread_attr_init(&attributes) != 0
        || pthread_attr_setstack(&attributes, stack, sizeof stack) != 0
        || pthread_create(&thread, &attributes, on_painted_stack, tried) != 0
        || pthread_join(thread, NULL) != 0) {
        fail("a thread with a stack of its own cannot be had");
    }
    pthread_attr_destroy(&attributes);
}

/* The most that each service takes, over some sheets of the largest number of operations. */
static void measure_all(void)
{
    uint32_t seed;
    size_t i;
    for (seed = 0; seed < SEEDS; seed++) {
        sheet_len = draw_sheet(&job, seed, JAMTURRET_MOST_OPERATIONS, sheet);
        /* A dynamic linker resolves a function at its first call, on the caller's stack. */
        if (sheet_len == 0 || !call_run() || !call_follow()) {
            fail("a drawn sheet is refused");
        }
        for (i = 0; i < TRIALS; i++) {
            measure(&trials[i]);
        }
    }
}

int main(void)
{
    size_t i;
    measure_all();
    printf("stack_test:");
    for (i = 0; i < TRIALS; i++) {
        printf(" %s %zu,", trials[i].name, trials[i].used);
    }
    printf(" of %d bytes\n", JAMTURRET_STACK);
    for (i = 0; i < TRIALS; i++) {
        if (!trials[i].answered) {
            fail("a service answers otherwise in a thread");
        }
        if (trials[i].used > JAMTURRET_STACK) {
            fail("a service takes more stack than jamturret.h says");
        }
        if (i > 0 && trials[i].used <= trials[0].used) {
            fail("a service takes no more stack than a call of nothing: the measure is wrong");
        }
    }
    return 0;
}
