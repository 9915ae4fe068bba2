/*
 * The calls from C: table T, T without its last rule, the empty table, null pointers to empty
 * arrays, and a walk refused at a step and at its start. Every figure and every byte of every buffer
 * is checked. Plans: the layout of the hours, given and
 * refused ones with every place of the list. Then a desk: every call and each of its refusals, with
 * all that it shows and counts, and counts that stop. Argument: the path of table T.
 */
#include "roskavel.h"

#include <stddef.h>
#include <stdio.h>
#include <string.h>

enum { TABLE = 76, LOG = 100, SCRATCH = 34100, PAGE = 5, PILE = 4, BEGINS = 5, DIRT = 0xA5 };

typedef uint64_t figure_list[ROSKAVEL_FIGURES];
typedef uint64_t count_list[4];

static uint8_t table[TABLE];
static uint8_t log_buffer[LOG], scratch[SCRATCH], pile[PILE];
static uint16_t page[PAGE];
static int64_t begins[BEGINS];
static figure_list figures;
static int passed, failed;

static const uint8_t limit[3 * ROSKAVEL_RECORD_BYTES] = {
    1, 0, 255, 255, 255, 1, 255, 255, 255, 1, 0, 1, 0,
    255, 255, 255, 255, 255, 255, 255, 255, 255, 255, 255, 255, 1, 0, 0,
    2, 255, 0, 255, 255, 255, 1, 255, 255, 1, 0, 2, 0,
    255, 255, 255, 255, 255, 255, 255, 255, 255, 255, 255, 255, 1, 0, 0,
    0, 0, 0, 255, 255, 1, 1, 255, 255, 2, 0, 0, 0,
    0, 0, 1, 0, 255, 255, 255, 255, 255, 255, 255, 255, 3, 0, 0,
};

static void check(int good, const char *what)
{
    if (good) {
        passed++;
    } else {
        failed++;
        printf("not as it should be: %s\n", what);
    }
}

/* What a buffer holds before each call counts for nothing. */
static void make_dirty(void)
{
    memset(log_buffer, DIRT, sizeof log_buffer);
    memset(scratch, DIRT, sizeof scratch);
    memset(page, DIRT, sizeof page);
    memset(pile, DIRT, sizeof pile);
    memset(begins, DIRT, sizeof begins);
    memset(figures, DIRT, sizeof figures);
}

static void check_figures(const figure_list expected, const char *what)
{
    check(memcmp(figures, expected, sizeof figures) == 0, what);
}

/* The buffer holds the first bytes, and the byte `rest` in all that follow. */
static void check_bytes(const void *buffer, size_t length, const void *first, size_t count,
                        uint8_t rest, const char *what)
{
    const uint8_t *bytes = buffer;
    int good = memcmp(bytes, first, count) == 0;
    for (size_t place = count; place < length; place++) {
        good = good && bytes[place] == rest;
    }
    check(good, what);
}

static void check_all(const void *buffer, size_t length, uint8_t byte, const char *what)
{
    check_bytes(buffer, length, buffer, 0, byte, what);
}

static void test_sizes(void)
{
    check(roskavel_log_records(83) == 2, "records of a log of 83 bytes");
    check(roskavel_log_records(84) == 3, "records of a log of 84 bytes");
    check(roskavel_log_records(28 * 65536) == 65535, "records of a log above the ceiling");
    check(roskavel_scratch_bytes(84) == 34030, "scratch beside a log of 84 bytes");
    check(roskavel_scratch_bytes(28 * 65536) == 689350, "scratch beside a log above the ceiling");
}

static void test_answer(void)
{
    make_dirty();
    roskavel_answer(table, TABLE, log_buffer, LOG, scratch, SCRATCH, figures);
    check_figures((figure_list){0, 0, ROSKAVEL_VERDICT_REACHABLE, 3, 2, 3},
                  "figures of the answer");
    check_bytes(log_buffer, LOG, limit, sizeof limit, 0, "log of the answer");
    check_all(scratch, SCRATCH, 0, "scratch of the answer");
}

/* T without rule 2, whose item has 17 bytes from place 46 on. */
static void test_unreachable(void)
{
    uint8_t without[TABLE - 17];
    memcpy(without, table, 46);
    memcpy(without + 46, table + 63, TABLE - 63);
    make_dirty();
    roskavel_answer(without, sizeof without, log_buffer, LOG, scratch, SCRATCH, figures);
    check_figures((figure_list){0, 0, ROSKAVEL_VERDICT_UNREACHABLE, 1, 1},
                  "figures of an unreachable answer");
    check_bytes(log_buffer, LOG, limit, ROSKAVEL_RECORD_BYTES, 0, "log of an unreachable answer");
    check_all(scratch, SCRATCH, 0, "scratch of an unreachable answer");

    make_dirty();
    roskavel_run(without, sizeof without, log_buffer, LOG, scratch, SCRATCH, page, PAGE, figures);
    check_figures((figure_list){ROSKAVEL_NO_RUN, 0, ROSKAVEL_NO_VERDICT}, "figures of no run");
    check_bytes(log_buffer, LOG, limit, ROSKAVEL_RECORD_BYTES, 0, "log of no run");
    check_all(scratch, SCRATCH, 0, "scratch of no run");
    check_all(page, sizeof page, DIRT, "page of no run");
}

static void test_run(void)
{
    const uint16_t rules[3] = {0, 1, 2};
    make_dirty();
    roskavel_run(table, TABLE, log_buffer, LOG, scratch, SCRATCH, page, PAGE, figures);
    check_figures((figure_list){0, 0, ROSKAVEL_VERDICT_REACHABLE, 3, 2, 3, 1},
                  "figures of the run");
    check_bytes(log_buffer, LOG, limit, sizeof limit, 0, "log of the run");
    check_all(scratch, SCRATCH, 0, "scratch of the run");
    check_bytes(page, sizeof page, rules, sizeof rules, 0, "page of the run");

    make_dirty();
    roskavel_run(table, TABLE, log_buffer, LOG, scratch, SCRATCH, page, 2, figures);
    check_figures((figure_list){ROSKAVEL_LONG_RUN}, "figures of a long run");
    check_bytes(log_buffer, LOG, limit, sizeof limit, 0, "log of a long run");
    check_all(scratch, SCRATCH, 0, "scratch of a long run");
    check_all(page, sizeof page, DIRT, "page of a long run");
}

static void test_walk(void)
{
    const uint16_t rules[3] = {0, 2, 1};
    const uint16_t idle[4] = {0, 1, 1, 2};
    const uint8_t left[1] = {2};
    make_dirty();
    roskavel_walk(table, TABLE, rules, 3, pile, PILE, scratch, SCRATCH, figures);
    check_figures((figure_list){0, 0, ROSKAVEL_WATCHED_YES, 0, 1, 1, 255, 255, 3, 2, 2},
                  "figures of the walk");
    check_all(pile, PILE, 0, "pile of the walk");
    check_all(scratch, SCRATCH, 0, "scratch of the walk");

    make_dirty();
    roskavel_walk(table, TABLE, rules, 1, pile, PILE, scratch, SCRATCH, figures);
    check_figures((figure_list){0, 0, ROSKAVEL_WATCHED_NO, 2, 0, 0, 255, 255, 1, 1, 1},
                  "figures of a walk that ends unwatched");
    check_bytes(pile, PILE, (uint8_t[]){1, 2}, 2, 0, "pile of a walk that ends unwatched");

    make_dirty();
    roskavel_walk(table, TABLE, idle, 4, pile, PILE, scratch, SCRATCH, figures);
    check_figures((figure_list){[ROSKAVEL_REFUSAL] = ROSKAVEL_IDLE_RULE, [ROSKAVEL_PLACE] = 2,
                                [ROSKAVEL_WATCHED] = ROSKAVEL_NO_ANSWER, [ROSKAVEL_REST] = 2,
                                [ROSKAVEL_COUNTS] = 2, 1},
                  "figures of an idle rule");
    check_bytes(pile, PILE, left, 1, 0, "pile of an idle rule");
    check_all(scratch, SCRATCH, 0, "scratch of an idle rule");

    make_dirty();
    roskavel_walk(table, TABLE, rules, 3, pile, 0, scratch, SCRATCH, figures);
    check_figures((figure_list){[ROSKAVEL_REFUSAL] = ROSKAVEL_FULL_PILE, [ROSKAVEL_REST] = 3},
                  "figures of a full start pile");
    check_all(pile, PILE, DIRT, "pile of a full start pile");
    check_all(scratch, SCRATCH, 0, "scratch of a full start pile");
}

static void check_untouched(const char *what)
{
    check_all(log_buffer, sizeof log_buffer, DIRT, what);
    check_all(scratch, sizeof scratch, DIRT, what);
    check_all(page, sizeof page, DIRT, what);
    check_all(pile, sizeof pile, DIRT, what);
}

/* The empty table is cut at 0, whatever its pointer. */
static void test_empty(void)
{
    const uint16_t rules[2] = {0, 1};
    make_dirty();
    roskavel_answer(table, 0, log_buffer, LOG, scratch, SCRATCH, figures);
    check_figures((figure_list){ROSKAVEL_CUT}, "figures of the empty table's answer");
    check_untouched("buffers of the empty table's answer");
    make_dirty();
    roskavel_run(table, 0, log_buffer, LOG, scratch, SCRATCH, page, PAGE, figures);
    check_figures((figure_list){ROSKAVEL_CUT}, "figures of the empty table's run");
    check_untouched("buffers of the empty table's run");
    make_dirty();
    roskavel_walk(table, 0, rules, 2, pile, PILE, scratch, SCRATCH, figures);
    check_figures((figure_list){[ROSKAVEL_REFUSAL] = ROSKAVEL_CUT, [ROSKAVEL_REST] = 2},
                  "figures of the empty table's walk");
    check_untouched("buffers of the empty table's walk");
}

/* One process of one state, which is watched with the empty pile; no letter and no rule. */
static const uint8_t least[] = {1, 1, 1, 5, 0, 255, 255, 255, 6, 0, 255, 255, 255, 8};

/* An array of no element may be null: nothing is read there or written. */
static void test_null(void)
{
    make_dirty();
    roskavel_answer(NULL, 0, NULL, 0, NULL, 0, figures);
    check_figures((figure_list){ROSKAVEL_CUT}, "figures of an answer on null");
    make_dirty();
    roskavel_run(NULL, 0, NULL, 0, NULL, 0, NULL, 0, figures);
    check_figures((figure_list){ROSKAVEL_CUT}, "figures of a run on null");
    make_dirty();
    roskavel_walk(NULL, 0, NULL, 0, NULL, 0, NULL, 0, figures);
    check_figures((figure_list){ROSKAVEL_CUT}, "figures of a walk on null");
    const roskavel_opening opening = roskavel_desk_open(NULL, 0);
    check(opening.number == ROSKAVEL_CUT && opening.place == 0, "opening on null");

    make_dirty();
    roskavel_answer(least, sizeof least, NULL, 0, scratch, SCRATCH, figures);
    check_figures((figure_list){0, 0, ROSKAVEL_VERDICT_REACHABLE}, "figures with a null log");
    check_all(scratch, SCRATCH, 0, "scratch beside a null log");
    make_dirty();
    roskavel_answer(table, TABLE, NULL, 0, scratch, SCRATCH, figures);
    check_figures((figure_list){ROSKAVEL_SHORT_LOG}, "figures with a null log that is too short");
    make_dirty();
    roskavel_answer(table, TABLE, log_buffer, LOG, NULL, 0, figures);
    check_figures((figure_list){ROSKAVEL_SHORT_SCRATCH}, "figures with a null scratch");
    check_untouched("buffers beside a null scratch");

    make_dirty();
    roskavel_run(least, sizeof least, NULL, 0, scratch, SCRATCH, NULL, 0, figures);
    check_figures((figure_list){0, 0, ROSKAVEL_VERDICT_REACHABLE}, "figures with a null page");
    make_dirty();
    roskavel_run(table, TABLE, log_buffer, LOG, scratch, SCRATCH, NULL, 0, figures);
    check_figures((figure_list){ROSKAVEL_LONG_RUN}, "figures with a null page that is too short");
    check_bytes(log_buffer, LOG, limit, sizeof limit, 0, "log beside a null page");

    make_dirty();
    roskavel_walk(least, sizeof least, NULL, 0, NULL, 0, scratch, SCRATCH, figures);
    check_figures((figure_list){0, 0, ROSKAVEL_WATCHED_YES, 0, 0, 255, 255, 255},
                  "figures with a null list and a null pile");
    check_all(scratch, SCRATCH, 0, "scratch beside a null pile");
    make_dirty();
    roskavel_walk(table, TABLE, NULL, 0, NULL, 0, scratch, SCRATCH, figures);
    check_figures((figure_list){ROSKAVEL_FULL_PILE}, "figures with a null pile that is too short");
    make_dirty();
    roskavel_walk(table, TABLE, NULL, 0, pile, PILE, NULL, 0, figures);
    check_figures((figure_list){ROSKAVEL_SHORT_SCRATCH}, "figures of a walk with a null scratch");
    check_untouched("pile beside a null scratch");

    const roskavel_week week = {{{{{0, 0}}, 0}}};
    roskavel_planned planned = roskavel_plan(NULL, 0, NULL, 0, week, NULL, 0, 0, NULL, 0);
    check(planned.number == ROSKAVEL_CUT && planned.place == 0, "plan on null");
    planned = roskavel_plan(least, sizeof least, NULL, 0, week, NULL, 0, 0, NULL, 0);
    check(planned.number == 0 && planned.place == 0, "plan with null lists");
    planned = roskavel_plan(table, TABLE, NULL, 0, week, NULL, 0, 0, NULL, 0);
    check(planned.number == ROSKAVEL_BAD_HOURS, "plan with null lengths that are too few");
}

static void test_layout(void)
{
    check(sizeof(roskavel_window) == 4, "size of a window");
    check(sizeof(roskavel_hours) == 58, "size of a process's hours");
    check(offsetof(roskavel_hours, count) == 56, "place of the count of windows");
    check(sizeof(roskavel_week) == 232, "size of the week");
    check(sizeof(roskavel_planned) == 16, "size of what planning gives");
    check(offsetof(roskavel_planned, place) == 8, "place of a plan's refusal");
}

/* The arguments of a plan on table T beside the table; the lengths of its arrays may be less. */
typedef struct order {
    uint16_t run[3];
    size_t run_length;
    roskavel_week week;
    uint16_t lengths[3];
    size_t lengths_length;
    int64_t start;
    size_t begins_length;
} order;

/*
 * Process 0 is open on Monday from 8:00 to 12:00 and from 13:00 to 17:00; process 1 from Sunday
 * 22:00 to Monday 1:00, which are two windows, and from 10:00 to 24:00. The other windows and
 * processes are not looked at.
 */
static const order sound = {
    .run = {0, 1, 2},
    .run_length = 3,
    .week = {{{{{480, 720}, {780, 1020}, {9, 8}}, 2},
              {{{9960, 10080}, {600, 1440}, {0, 60}, {0, 10081}}, 3},
              {{{0, 0}}, 255},
              {{{65535, 65535}}, 14}}},
    .lengths = {60, 90, 30},
    .lengths_length = 3,
    .begins_length = BEGINS,
};

static roskavel_planned plan_with(const order *order)
{
    make_dirty();
    return roskavel_plan(table, TABLE, order->run, order->run_length, order->week, order->lengths,
                         order->lengths_length, order->start, begins, order->begins_length);
}

/* The plan is given, with as many begins as the run has steps. */
static void check_given(const order *order, const int64_t *expected, const char *what)
{
    const roskavel_planned planned = plan_with(order);
    check(planned.number == 0 && planned.place == 0, what);
    check_bytes(begins, sizeof begins, expected, order->run_length * sizeof *begins, DIRT, what);
}

/* The plan is refused, and the list is left as it was. */
static void check_refused(const order *order, uint8_t number, size_t place, const char *what)
{
    const roskavel_planned planned = plan_with(order);
    check(planned.number == number && planned.place == place, what);
    check_all(begins, sizeof begins, DIRT, what);
}

/*
 * Both processes are open from 600 on. Process 0 is free at 660, but open for 60 minutes more only;
 * process 1 goes on at once. Over Sunday midnight process 1 is open for 180 minutes.
 */
static void test_plans(void)
{
    order plan = sound;
    check_given(&plan, (int64_t[]){600, 780, 660}, "plan");
    plan.begins_length = 3;
    check_given(&plan, (int64_t[]){600, 780, 660}, "plan in a list as long as the run");
    plan = (order){.run = {2, 2}, .run_length = 2, .week = sound.week, .lengths = {1, 1440, 90},
                   .lengths_length = 3, .start = -60, .begins_length = BEGINS};
    check_given(&plan, (int64_t[]){-60, 600}, "plan from before minute 0");
    plan.start = -ROSKAVEL_START_BOUND;
    check_given(&plan, (int64_t[]){-998040, -997950}, "plan from the first start");
    plan.start = ROSKAVEL_START_BOUND;
    check_given(&plan, (int64_t[]){1007880, 1007970}, "plan from the last start");
    plan.run_length = plan.begins_length = 0;
    check_given(&plan, begins, "plan without a step");
}

/* Rule 1 is longer than process 0 is ever open. */
static void test_never_open(void)
{
    order plan = sound;
    plan.lengths[1] = 241;
    check_refused(&plan, ROSKAVEL_NEVER_OPEN, 1, "plan with a step too long");
    plan.run[1] = 2;
    plan.run[2] = 1;
    check_refused(&plan, ROSKAVEL_NEVER_OPEN, 2, "plan with a last step too long");
    plan.week.processes[1].count = 0;
    check_refused(&plan, ROSKAVEL_NEVER_OPEN, 0, "plan with a process that is never open");
    plan.run[0] = 3;
    check_refused(&plan, ROSKAVEL_BAD_HOURS, 0, "plan with bad hours and a step too long");
}

/* A plan that is sound but for one figure. */
static void test_bad_hours(void)
{
    const roskavel_window bad[] = {{480, 480}, {481, 480}, {0, ROSKAVEL_WEEK_MINUTES + 1}};
    order plan = sound;
    for (size_t number = 0; number < sizeof bad / sizeof bad[0]; number++) {
        plan.week.processes[1].windows[2] = bad[number];
        check_refused(&plan, ROSKAVEL_BAD_HOURS, 0, "plan with a bad window");
    }
    plan = sound;
    plan.week.processes[0].count = ROSKAVEL_WINDOWS + 1;
    check_refused(&plan, ROSKAVEL_BAD_HOURS, 0, "plan with too many windows");
    plan = sound;
    plan.lengths[2] = 0;
    check_refused(&plan, ROSKAVEL_BAD_HOURS, 0, "plan with a rule of no minute");
    plan.lengths[2] = ROSKAVEL_LONGEST_STEP + 1;
    check_refused(&plan, ROSKAVEL_BAD_HOURS, 0, "plan with a rule of too many minutes");
    plan = sound;
    plan.lengths_length = 2;
    check_refused(&plan, ROSKAVEL_BAD_HOURS, 0, "plan with a rule without a length");
    plan = sound;
    plan.start = ROSKAVEL_START_BOUND + 1;
    check_refused(&plan, ROSKAVEL_BAD_HOURS, 0, "plan from a start too late");
    plan.start = -ROSKAVEL_START_BOUND - 1;
    check_refused(&plan, ROSKAVEL_BAD_HOURS, 0, "plan from a start too early");
    plan = sound;
    plan.run[2] = 3;
    check_refused(&plan, ROSKAVEL_BAD_HOURS, 0, "plan with a rule that the table lacks");
    plan = sound;
    plan.begins_length = 2;
    check_refused(&plan, ROSKAVEL_BAD_HOURS, 0, "plan in a list shorter than the run");
}

/* The table is judged first. */
static void test_plans_without_table(void)
{
    const order none = {.start = INT64_MAX};
    for (size_t length = 0; length < TABLE; length += TABLE - 1) {
        make_dirty();
        const roskavel_planned planned =
            roskavel_plan(table, length, none.run, 3, none.week, none.lengths, 0, none.start,
                          begins, 0);
        check(planned.number == ROSKAVEL_CUT && planned.place == length, "plan on a cut table");
        check_all(begins, sizeof begins, DIRT, "list of a plan on a cut table");
    }
}

/* The desk shows these states of two processes and this pile, then zeros. */
static void check_sight(const roskavel_desk *desk, uint8_t first, uint8_t second,
                        const uint8_t *word, size_t length, const char *what)
{
    const uint8_t states[4] = {first, second, 255, 255};
    const roskavel_sight sight = roskavel_desk_look(desk);
    check(memcmp(sight.states, states, sizeof states) == 0, what);
    check(sight.length == length, what);
    check_bytes(sight.pile, sizeof sight.pile, word, length, 0, what);
}

/* The desk has counted these steps. */
static void check_counts(const roskavel_desk *desk, const count_list steps, const char *what)
{
    const roskavel_counts counts = roskavel_desk_count(desk);
    check(memcmp(counts.steps, steps, sizeof counts.steps) == 0, what);
}

/* Firing the rule gives this number and these processes. */
static void check_fire(roskavel_desk *desk, uint16_t rule, uint8_t number, uint8_t processes,
                       const char *what)
{
    const roskavel_fire fire = roskavel_desk_fire(desk, rule);
    check(fire.number == number && fire.processes == processes, what);
}

/* Refused openings: the number and the place stand behind the desk. */
static void test_openings(void)
{
    uint8_t longer[TABLE + 1] = {0};
    memcpy(longer, table, TABLE);
    roskavel_opening opening = roskavel_desk_open(table, 0);
    check(opening.number == ROSKAVEL_CUT && opening.place == 0, "opening on the empty table");
    opening = roskavel_desk_open(table, TABLE - 1);
    check(opening.number == ROSKAVEL_CUT && opening.place == TABLE - 1, "opening on a cut table");
    opening = roskavel_desk_open(longer, TABLE + 1);
    check(opening.number == ROSKAVEL_LEFTOVER && opening.place == TABLE, "opening on a long table");
    longer[TABLE - 2] = 3;
    opening = roskavel_desk_open(longer, TABLE);
    check(opening.number == ROSKAVEL_VALUE && opening.place == 73, "opening on a bad letter");
    opening = roskavel_desk_open(table, TABLE);
    check(opening.number == 0 && opening.place == 0, "opening on table T");
    check_sight(&opening.desk, 0, 0, (uint8_t[]){0}, 1, "desk as opened");
    check_counts(&opening.desk, (count_list){0}, "counts as opened");
}

static void test_fires(void)
{
    roskavel_desk desk = roskavel_desk_open(table, TABLE).desk;
    check_fire(&desk, 1, ROSKAVEL_IDLE_RULE, 0, "idle rule at the desk");
    check_fire(&desk, 3, ROSKAVEL_NO_RULE, 0, "no rule at the desk");
    check_fire(&desk, 65535, ROSKAVEL_NO_RULE, 0, "no rule of the highest number");
    check_sight(&desk, 0, 0, (uint8_t[]){0}, 1, "desk after refused fires");
    check_counts(&desk, (count_list){0}, "counts after refused fires");
    check_fire(&desk, 0, 0, 3, "rule 0 at the desk");
    check_sight(&desk, 0, 0, (uint8_t[]){1, 2}, 2, "desk after rule 0");
    check_counts(&desk, (count_list){1, 1}, "counts after rule 0");
    check_fire(&desk, 2, 0, 2, "rule 2 at the desk");
    check_sight(&desk, 0, 1, (uint8_t[]){1}, 1, "desk after rule 2");
    check_counts(&desk, (count_list){1, 2}, "counts after rule 2");
    check_fire(&desk, 1, 0, 1, "rule 1 at the desk");
    check_sight(&desk, 1, 1, (uint8_t[]){0}, 0, "desk after rule 1");
    check_counts(&desk, (count_list){2, 2}, "counts after rule 1");
}

static void test_names(void)
{
    roskavel_desk desk = roskavel_desk_open(table, TABLE).desk;
    check(roskavel_desk_return(&desk, 7) == ROSKAVEL_EMPTY_NAME, "return to an empty name");
    check(roskavel_desk_forget(&desk, 7) == ROSKAVEL_EMPTY_NAME, "forget of an empty name");
    check(roskavel_desk_save(&desk, ROSKAVEL_NAMES) == ROSKAVEL_BAD_NAME, "save of a bad name");
    check(roskavel_desk_return(&desk, ROSKAVEL_NAMES) == ROSKAVEL_BAD_NAME, "return to a bad name");
    check(roskavel_desk_forget(&desk, 255) == ROSKAVEL_BAD_NAME, "forget of a bad name");
    check(roskavel_desk_save(&desk, 7) == 0, "save");
    check(roskavel_desk_save(&desk, 0) == 0, "save of another name");
    check_fire(&desk, 0, 0, 3, "fire after saves");
    check(roskavel_desk_save(&desk, 7) == 0, "save over a name");
    check_fire(&desk, 1, 0, 1, "fire after a save");
    check_sight(&desk, 1, 0, (uint8_t[]){2}, 1, "desk before returns");
    check_counts(&desk, (count_list){2, 1}, "counts before returns");

    roskavel_desk copy = desk;
    check(roskavel_desk_return(&desk, 0) == 0, "return");
    check_sight(&desk, 0, 0, (uint8_t[]){0}, 1, "desk at the start again");
    check(roskavel_desk_return(&desk, 7) == 0, "return to another name");
    check_sight(&desk, 0, 0, (uint8_t[]){1, 2}, 2, "desk at the other name");
    check_counts(&desk, (count_list){0}, "counts after returns");
    check_fire(&desk, 2, 0, 2, "fire after returns");
    check(roskavel_desk_forget(&desk, 7) == 0, "forget");
    check(roskavel_desk_return(&desk, 7) == ROSKAVEL_EMPTY_NAME, "return to a forgotten name");
    check_sight(&desk, 0, 1, (uint8_t[]){1}, 1, "desk after a forget");
    check_counts(&desk, (count_list){0, 1}, "counts after a forget and a refused return");
    check_sight(&copy, 1, 0, (uint8_t[]){2}, 1, "copy of the desk");
    check_counts(&copy, (count_list){2, 1}, "counts of the copy");
    check(roskavel_desk_return(&copy, 7) == 0, "return of the copy");
    check_sight(&copy, 0, 0, (uint8_t[]){1, 2}, 2, "copy of the desk after a return");
}

/* Letter 1 is written six times by rule 0 and removed by rule 1: 51 fires fill the pile. */
static void test_full_pile(void)
{
    const uint8_t grows[] = {
        1, 1, 1, 2, 1, 2, 1,
        3, 1, 0, 255, 255, 255, 0, 255, 255, 255, 6, 1, 1, 1, 1, 1, 1,
        3, 1, 0, 255, 255, 255, 0, 255, 255, 255, 0, 255, 255, 255, 255, 255, 255,
        6, 0, 255, 255, 255, 7, 1, 8,
    };
    uint8_t full[ROSKAVEL_DESK_PILE];
    int refused = 0;
    memset(full, 1, sizeof full);
    roskavel_opening opening = roskavel_desk_open(grows, sizeof grows);
    check(opening.number == 0, "opening on a table that grows");
    for (int fires = 0; fires < 51; fires++) {
        refused += roskavel_desk_fire(&opening.desk, 0).number != 0;
    }
    check(refused == 0, "fires up to a full pile");
    check_sight(&opening.desk, 0, 255, full, 256, "desk with a full pile");
    check_fire(&opening.desk, 0, ROSKAVEL_FULL_PILE, 0, "fire above a full pile");
    check_sight(&opening.desk, 0, 255, full, 256, "desk after a fire above a full pile");
    check_counts(&opening.desk, (count_list){51}, "counts after a fire above a full pile");
    check_fire(&opening.desk, 1, 0, 1, "fire at a full pile");
    check_sight(&opening.desk, 0, 255, full, 255, "desk below a full pile");
}

/*
 * Four processes of one state. On the pile letter 0, of them all, lies below three of letter 1, of
 * process 0, two of letter 2, of process 1, and one of letter 3, of process 2. Rule 0 writes letter
 * 0 again, rules 1 to 3 remove the others.
 */
static const uint8_t four[] = {
    1, 1, 1, 1, 1, 1, 1, 1, 1, 1, 1, 1, 2, 15, 2, 1, 2, 2, 2, 4,
    3, 0, 0, 0, 0, 0, 0, 0, 0, 0, 1, 0, 255, 255, 255, 255, 255,
    3, 1, 0, 255, 255, 255, 0, 255, 255, 255, 0, 255, 255, 255, 255, 255, 255,
    3, 2, 255, 0, 255, 255, 255, 0, 255, 255, 0, 255, 255, 255, 255, 255, 255,
    3, 3, 255, 255, 0, 255, 255, 255, 0, 255, 0, 255, 255, 255, 255, 255, 255,
    6, 0, 0, 0, 0, 7, 1, 7, 1, 7, 1, 7, 2, 7, 2, 7, 3, 7, 0, 8,
};
static const uint16_t down[7] = {1, 1, 1, 2, 2, 3, 0};

static void test_walk_of_four(void)
{
    uint8_t word[7];
    make_dirty();
    memset(word, DIRT, sizeof word);
    roskavel_walk(four, sizeof four, down, 7, word, sizeof word, scratch, SCRATCH, figures);
    check_figures((figure_list){0, 0, ROSKAVEL_WATCHED_NO, 1, 0, 0, 0, 0, 7, 4, 3, 2, 1},
                  "figures of a walk of four processes");
    check_all(word, sizeof word, 0, "pile of a walk of four processes");
    check_all(scratch, SCRATCH, 0, "scratch of a walk of four processes");
}

/* Where the desk keeps its counts, which are in no other place. */
static size_t place_of_counts(const roskavel_desk *desk)
{
    const size_t words = sizeof desk->opaque / sizeof desk->opaque[0];
    const roskavel_counts counts = roskavel_desk_count(desk);
    size_t place = 0, places = 0;
    for (size_t word = 0; word + 4 <= words; word++) {
        if (memcmp(&desk->opaque[word], counts.steps, sizeof counts.steps) == 0) {
            place = word;
            places++;
        }
    }
    check(places == 1, "one place of the counts in a desk");
    return place;
}

/* Counts that are written into the desk on four processes, about as high as they can be. */
static void test_ceiling(roskavel_desk *desk)
{
    const uint64_t top = 4294967295;
    const count_list high = {top - 1, top, 0, top - 2};
    check(ROSKAVEL_COUNT_CEILING == top, "ceiling of the counts");
    memcpy(&desk->opaque[place_of_counts(desk)], high, sizeof high);
    check_counts(desk, high, "counts below the ceiling");
    check_fire(desk, 0, 0, 15, "fire below the ceiling");
    check_counts(desk, (count_list){top, top, 1, top - 1}, "counts at the ceiling");
    check_fire(desk, 0, 0, 15, "fire at the ceiling");
    check_counts(desk, (count_list){top, top, 2, top}, "counts that stop at the ceiling");
    check_fire(desk, 0, 0, 15, "second fire at the ceiling");
    check_fire(desk, 4, ROSKAVEL_NO_RULE, 0, "refused fire at the ceiling");
    check(roskavel_desk_save(desk, 0) == 0, "save at the ceiling");
    check_counts(desk, (count_list){top, top, 3, top}, "counts that have stopped");
    check(roskavel_desk_return(desk, 0) == 0, "return at the ceiling");
    check_counts(desk, (count_list){0}, "counts after the ceiling and a return");
    check_fire(desk, 0, 0, 15, "fire after the ceiling and a return");
    check_counts(desk, (count_list){1, 1, 1, 1}, "counts from a return on");
}

static void test_counts(void)
{
    int other = 0;
    roskavel_opening opening = roskavel_desk_open(four, sizeof four);
    check(opening.number == 0, "opening on four processes");
    for (size_t step = 0; step < 6; step++) {
        check_fire(&opening.desk, down[step], 0, 1 << (down[step] - 1), "rule of one process");
    }
    check_counts(&opening.desk, (count_list){3, 2, 1, 0}, "counts of single processes");
    for (int fires = 0; fires < 1000; fires++) {
        other += roskavel_desk_fire(&opening.desk, 0).processes != 15;
    }
    check(other == 0, "rule of four processes");
    check_counts(&opening.desk, (count_list){1003, 1002, 1001, 1000}, "counts of four processes");
    test_ceiling(&opening.desk);
}

int main(int count, char **arguments)
{
    FILE *file = count == 2 ? fopen(arguments[1], "rb") : NULL;
    if (file == NULL || fread(table, 1, TABLE, file) != TABLE || fgetc(file) != EOF) {
        fprintf(stderr, "usage: header T, table T of %d bytes\n", TABLE);
        return 2;
    }
    fclose(file);
    test_sizes();
    test_answer();
    test_unreachable();
    test_run();
    test_walk();
    test_empty();
    test_null();
    test_layout();
    test_plans();
    test_never_open();
    test_bad_hours();
    test_plans_without_table();
    test_openings();
    test_fires();
    test_names();
    test_full_pile();
    test_walk_of_four();
    test_counts();
    printf("%d passed, %d failed\n", passed, failed);
    return failed != 0;
}
