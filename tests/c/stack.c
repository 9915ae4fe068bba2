/*
 * What each call takes of the stack, on the tables whose paths are given: no more than the header
 * says. Each call is made on a stack of its own, painted before; what is no longer painted after it
 * was taken. To be compiled so that arguments do not move the stack pointer.
 */
#include "roskavel.h"

#include <stdio.h>
#include <string.h>
#include <ucontext.h>

enum { TABLE = 8192, RECORDS = 4000, STEPS = 20000, STACK = 1 << 18, PAINT = 0xA5 };

static uint8_t table[TABLE], log_buffer[ROSKAVEL_RECORD_BYTES * RECORDS];
static uint8_t scratch[ROSKAVEL_SCRATCH_BASE + ROSKAVEL_SCRATCH_PER_RECORD * RECORDS];
static uint8_t pile[STEPS];
static uint16_t page[STEPS], lengths[256];
static int64_t begins[STEPS];
static uint64_t figures[ROSKAVEL_FIGURES];
static size_t table_length, steps;
static roskavel_week week;
static roskavel_planned planned;
static roskavel_opening opening;
static roskavel_fire fire;
static roskavel_sight sight;
static roskavel_counts counts;

static _Alignas(16) uint8_t stack[STACK];
static uint8_t *noted;
static ucontext_t here, there;

/* Notes the stack pointer with which the next call is made. */
#define NOTE() __asm__ volatile("mov %%rsp, %0" : "=m"(noted))

static void answer(void)
{
    NOTE();
    roskavel_answer(table, table_length, log_buffer, sizeof log_buffer, scratch, sizeof scratch,
                    figures);
}

static void run(void)
{
    NOTE();
    roskavel_run(table, table_length, log_buffer, sizeof log_buffer, scratch, sizeof scratch, page,
                 STEPS, figures);
}

static void walk(void)
{
    NOTE();
    roskavel_walk(table, table_length, page, steps, pile, sizeof pile, scratch, sizeof scratch,
                  figures);
}

static void plan(void)
{
    NOTE();
    planned = roskavel_plan(table, table_length, page, steps, week, lengths, 256, 0, begins, STEPS);
}

static void desk_open(void)
{
    NOTE();
    opening = roskavel_desk_open(table, table_length);
}

static void desk_fire(void)
{
    NOTE();
    fire = roskavel_desk_fire(&opening.desk, page[0]);
}

static void desk_save(void)
{
    NOTE();
    roskavel_desk_save(&opening.desk, 7);
}

static void desk_return(void)
{
    NOTE();
    roskavel_desk_return(&opening.desk, 7);
}

static void desk_forget(void)
{
    NOTE();
    roskavel_desk_forget(&opening.desk, 7);
}

static void desk_look(void)
{
    NOTE();
    sight = roskavel_desk_look(&opening.desk);
}

static void desk_count(void)
{
    NOTE();
    counts = roskavel_desk_count(&opening.desk);
}

/* A call, what the header says of it, and the most that was taken. In the order of their making. */
static struct {
    const char *name;
    void (*call)(void);
    size_t said, most;
} calls[] = {
    {"answer", answer, ROSKAVEL_ANSWER_STACK, 0},
    {"run", run, ROSKAVEL_RUN_STACK, 0},
    {"walk", walk, ROSKAVEL_WALK_STACK, 0},
    {"plan", plan, ROSKAVEL_PLAN_STACK, 0},
    {"desk_open", desk_open, ROSKAVEL_DESK_OPEN_STACK, 0},
    {"desk_save", desk_save, ROSKAVEL_DESK_SAVE_STACK, 0},
    {"desk_fire", desk_fire, ROSKAVEL_DESK_FIRE_STACK, 0},
    {"desk_look", desk_look, ROSKAVEL_DESK_LOOK_STACK, 0},
    {"desk_count", desk_count, ROSKAVEL_DESK_COUNT_STACK, 0},
    {"desk_return", desk_return, ROSKAVEL_DESK_RETURN_STACK, 0},
    {"desk_forget", desk_forget, ROSKAVEL_DESK_FORGET_STACK, 0},
};

/* The bytes of the stack from the noted pointer down to the last that was taken. */
static size_t taken_by(void (*call)(void))
{
    const uint8_t *last = stack;
    memset(stack, PAINT, sizeof stack);
    getcontext(&there);
    there.uc_stack.ss_sp = stack;
    there.uc_stack.ss_size = sizeof stack;
    there.uc_link = &here;
    makecontext(&there, call, 0);
    swapcontext(&here, &there);
    while (*last == PAINT) {
        last++;
    }
    return (size_t)(noted - last);
}

int main(int count, char **paths)
{
    int failed = 0;
    const int number = (int)(sizeof calls / sizeof calls[0]);
    for (int process = 0; process < 4; process++) {
        week.processes[process].windows[0] = (roskavel_window){0, ROSKAVEL_WEEK_MINUTES};
        week.processes[process].count = 1;
    }
    for (int rule = 0; rule < 256; rule++) {
        lengths[rule] = 1;
    }
    for (int path = 1; path < count; path++) {
        FILE *file = fopen(paths[path], "rb");
        if (file == NULL) {
            fprintf(stderr, "no table: %s\n", paths[path]);
            return 2;
        }
        table_length = fread(table, 1, sizeof table, file);
        fclose(file);
        for (int call = 0; call < number; call++) {
            const size_t taken = taken_by(calls[call].call);
            calls[call].most = taken > calls[call].most ? taken : calls[call].most;
            if (calls[call].call == run) {
                steps = figures[ROSKAVEL_STEPS];
            }
        }
    }
    for (int call = 0; call < number; call++) {
        const size_t said = calls[call].said, most = calls[call].most;
        if (most > said) {
            failed++;
            printf("%s takes %zu bytes of the stack, not %zu\n", calls[call].name, most, said);
        }
    }
    printf("%d passed, %d failed\n", number - failed, failed);
    return failed != 0;
}
