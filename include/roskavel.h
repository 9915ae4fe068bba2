/*
 * Roskavel: reachability of cooperating multi-pushdown systems, for C and C++.
 *
 * A table is a string of bytes. It lists processes, letters, rules, an automaton for the set of
 * configurations to watch, and a start. Four calls work on it:
 *
 *   roskavel_answer  says whether some run leads from the start into the watched set,
 *   roskavel_run     gives such a run as well,
 *   roskavel_walk    follows a list of rules from the start and says where it ends,
 *   roskavel_plan    lays a list of rules on the week, by the processes' opening hours.
 *
 * At a desk, which roskavel_desk_open opens on a table, rules are fired one by one, and
 * configurations are saved under names to return to.
 *
 * Link with libexports.a, which `rt lib` in crates/exports writes to its folder out/. It is for
 * x86-64, by the System V calling convention, has no variables of its own, allocates nothing and
 * imports memcpy and memset alone. So calls on different memory may be made at once by any threads.
 *
 * Buffers. The calls keep nothing: all memory is the caller's. Each array is passed as a pointer
 * and a length in elements. It may have any length, and what it holds before is of no account. Its
 * pointer may be null where the length is 0, and only there. The pointers to figures and to a desk
 * must not be null. The arrays of one call, the figures among them, must not overlap: with log and
 * scratch in one place, a verdict can be wrong. GCC and clang warn of some of these mistakes.
 *
 * Stack. ROSKAVEL_.._STACK, before each call, is the most bytes of the stack that it takes, its
 * return address included, as measured on the archive. What is passed or given by value is the
 * caller's and comes to it, as does what memcpy and memset take.
 *
 * Refusals. Any bytes may be given as a table and any length as a buffer: what does not serve is
 * refused with a number and a place. Refusals 1 to 9, 15, 19 and 20 change no buffer; every other
 * return leaves the scratch of a call that has one zero. At an open desk any rule and any name may
 * be given: a refused call changes nothing.
 */
#ifndef ROSKAVEL_H
#define ROSKAVEL_H

#include <stddef.h>
#include <stdint.h>

/*
 * What a compiler is told of pointers, if it listens. RESTRICT: no other array of the call overlaps.
 * NONNULL: the argument of this number is not null. READS, WRITES: the array that is the argument of
 * this number has as many elements as that other argument says, and is only read, or written.
 */
#ifdef __GNUC__
#define ROSKAVEL_RESTRICT __restrict
#elif !defined(__cplusplus)
#define ROSKAVEL_RESTRICT restrict
#else
#define ROSKAVEL_RESTRICT
#endif
#ifdef __has_attribute
#if __has_attribute(nonnull)
#define ROSKAVEL_NONNULL(argument) __attribute__((nonnull(argument)))
#endif
#if __has_attribute(access)
#define ROSKAVEL_READS(array, length) __attribute__((access(read_only, array, length)))
#define ROSKAVEL_WRITES(array, length) __attribute__((access(write_only, array, length)))
#endif
#endif
#ifndef ROSKAVEL_NONNULL
#define ROSKAVEL_NONNULL(argument)
#endif
#ifndef ROSKAVEL_READS
#define ROSKAVEL_READS(array, length)
#define ROSKAVEL_WRITES(array, length)
#endif

#ifdef __cplusplus
extern "C" {
#endif

/* How many figures answer, run and walk give. */
#define ROSKAVEL_FIGURES 16
/* The bytes of one record of the log. */
#define ROSKAVEL_RECORD_BYTES 28
/* The most records that a log is used for. */
#define ROSKAVEL_RECORD_CEILING 65535
/* The bytes of scratch that answer and run need beside an empty log, and for each record that a log
   has room for. */
#define ROSKAVEL_SCRATCH_BASE 34000
#define ROSKAVEL_SCRATCH_PER_RECORD 10
/* The bytes of scratch that a walk needs. */
#define ROSKAVEL_WALK_SCRATCH 2048
/* The most steps of a run that is written or planned; a count above it is given as one more than
   it. */
#define ROSKAVEL_STEP_CEILING 1000000
/* How many names a desk has, from 0. */
#define ROSKAVEL_NAMES 8
/* The most letters of a desk's pile. */
#define ROSKAVEL_DESK_PILE 256
/* Where a desk's count of steps stops. */
#define ROSKAVEL_COUNT_CEILING 4294967295u
/* The most windows of a process. */
#define ROSKAVEL_WINDOWS 14
/* The minutes of a week: no window closes later. */
#define ROSKAVEL_WEEK_MINUTES 10080
/* The most minutes that a rule takes; the least is 1. */
#define ROSKAVEL_LONGEST_STEP 1440
/* How far a plan's start may be from minute 0, before or after it. */
#define ROSKAVEL_START_BOUND 1000000

/*
 * What stands at each place of the figures. A place that the call or its outcome does not name
 * here is 0; so after a refusal are all places but the first two and, of a walk, ROSKAVEL_REST and
 * the four from ROSKAVEL_COUNTS on.
 */
enum roskavel_figure {
    ROSKAVEL_REFUSAL = 0, /* the number of the refusal, or 0 */
    ROSKAVEL_PLACE = 1,   /* where: an offset in the table, a step of the list, or 0 */

    /* roskavel_answer and roskavel_run */
    ROSKAVEL_VERDICT = 2,     /* one of roskavel_verdict */
    ROSKAVEL_TRANSITIONS = 3, /* records of the limit automaton; see roskavel_answer for copies */
    ROSKAVEL_ROUNDS = 4,      /* the highest round of a record */
    ROSKAVEL_STEPS = 5,       /* rules of the run; 0 if unreachable */
    ROSKAVEL_PEAK = 6,        /* roskavel_run: the greatest length of any one process's own pile
                                 along the run, the start included; a process's own pile is the
                                 pile without the letters that it has no part in. A walk's pile
                                 buffer, which holds the whole pile, may need more */

    /* roskavel_walk */
    ROSKAVEL_WATCHED = 2,     /* one of roskavel_watched */
    ROSKAVEL_PILE_LENGTH = 3, /* letters of the pile at the end */
    ROSKAVEL_STATES = 4,      /* 4 to 7: the state of each process, 255 if the table lacks it */
    ROSKAVEL_REST = 8,        /* where the part of the list that is handed back begins */
    ROSKAVEL_COUNTS = 9       /* 9 to 12: the number of steps that each process took part in, which
                                 are the fires of rules whose letter has it; refused at a step, of
                                 the steps before it; 0 with any other refusal */
};

/*
 * The figure ROSKAVEL_VERDICT of an answer or a run. It tells by itself: figures of a refused call,
 * or zeros of none, are no verdict. A run is reachable or refused.
 */
enum roskavel_verdict {
    ROSKAVEL_NO_VERDICT = 0,         /* refused */
    ROSKAVEL_VERDICT_REACHABLE = 1,  /* some run leads into the watched set */
    ROSKAVEL_VERDICT_UNREACHABLE = 2 /* none does, of whatever length */
};

/*
 * The figure ROSKAVEL_WATCHED of a walk. Compare it with these: that it is not 0 says only that
 * there is an answer.
 */
enum roskavel_watched {
    ROSKAVEL_NO_ANSWER = 0,   /* refused */
    ROSKAVEL_WATCHED_YES = 1, /* the configuration at the end is watched */
    ROSKAVEL_WATCHED_NO = 2   /* it is not */
};

/*
 * The refusals. The place of 1 to 9 is an offset in the table, of an item's first byte. The place
 * of every refusal at an open desk is 0.
 */
enum roskavel_refusal {
    ROSKAVEL_CUT = 1,            /* the table ends in an item (its place) or before the end item
                                    (the table's length) */
    ROSKAVEL_STRANGER = 2,       /* no such kind of item */
    ROSKAVEL_TURN = 3,           /* an item out of turn */
    ROSKAVEL_CROWD = 4,          /* more items of the kind than its ceiling */
    ROSKAVEL_VALUE = 5,          /* a byte outside its bounds */
    ROSKAVEL_STRAY = 6,          /* a rule that does not cooperate */
    ROSKAVEL_RE_ENTRY = 7,       /* a watch transition into a state of the system, in a table of
                                    which some process has more than 4 states */
    ROSKAVEL_TWIN = 8,           /* a rule, watch transition or accepting group seen before */
    ROSKAVEL_LEFTOVER = 9,       /* bytes after the end item; the first of them */
    ROSKAVEL_SHORT_LOG = 10,     /* the limit automaton has more records than the log has room
                                    for; 0 */
    ROSKAVEL_LONG_RUN = 11,      /* more steps than the page has places, or than 1,000,000; 0 */
    ROSKAVEL_IDLE_RULE = 12,     /* a rule does not fire; its step in the list, from 0 */
    ROSKAVEL_NO_RULE = 13,       /* the table has no rule of this number; its step */
    ROSKAVEL_FULL_PILE = 14,     /* the pile outgrows its buffer, or ROSKAVEL_DESK_PILE; its
                                    step, 0 for the start */
    ROSKAVEL_SHORT_SCRATCH = 15, /* see roskavel_scratch_bytes, ROSKAVEL_WALK_SCRATCH; 0 */
    ROSKAVEL_NO_RUN = 16,        /* a run is asked for, but none leads there; 0 */
    ROSKAVEL_EMPTY_NAME = 17,    /* the desk holds nothing under this name; 0 */
    ROSKAVEL_BAD_NAME = 18,      /* the name is not below ROSKAVEL_NAMES; 0 */
    ROSKAVEL_BAD_HOURS = 19,     /* a figure of a plan outside its bounds, see roskavel_plan; 0 */
    ROSKAVEL_NEVER_OPEN = 20     /* a step that fits no minute of any week; the first such */
};

/* How many records a log of this many bytes has room for. */
static inline size_t roskavel_log_records(size_t log_bytes)
{
    size_t records = log_bytes / ROSKAVEL_RECORD_BYTES;
    return records < ROSKAVEL_RECORD_CEILING ? records : ROSKAVEL_RECORD_CEILING;
}

/* The bytes of scratch that answer and run need beside a log of this many bytes. */
static inline size_t roskavel_scratch_bytes(size_t log_bytes)
{
    return ROSKAVEL_SCRATCH_BASE + ROSKAVEL_SCRATCH_PER_RECORD * roskavel_log_records(log_bytes);
}

/*
 * Says whether the watched set can be reached. Refused by 1 to 9, 15 and 10.
 *
 * log      holds the transitions of the limit automaton, then zeros; all zeros after refusal 10.
 *          A record has ROSKAVEL_RECORD_BYTES bytes, little-endian: letter 1, states before 4,
 *          states after 4, round 2, rule 2, path 6 times 2, steps 3. FF is a process that has no
 *          part in the letter, FFFF no rule or no place of a path.
 *          If some watch transition leads into a state of the system, the automaton is a copy:
 *          state x of a process of s states is also held as s + x, a watch transition leads from
 *          each mixture of plain and copied states to copied ones, and so gives 2, 4, 8 or 16
 *          records of round 0, for 1 to 4 processes of its letter; at most 3,200 in all. It
 *          accepts what the table's automaton accepts.
 * scratch  work memory, at least roskavel_scratch_bytes(log_length) bytes.
 */
#define ROSKAVEL_ANSWER_STACK 3440
ROSKAVEL_READS(1, 2) ROSKAVEL_WRITES(3, 4) ROSKAVEL_WRITES(5, 6) ROSKAVEL_NONNULL(7)
void roskavel_answer(const uint8_t *ROSKAVEL_RESTRICT table, size_t table_length,
                     uint8_t *ROSKAVEL_RESTRICT log, size_t log_length,
                     uint8_t *ROSKAVEL_RESTRICT scratch, size_t scratch_length,
                     uint64_t figures[ROSKAVEL_FIGURES]);

/*
 * Answers and writes a run. Refused as roskavel_answer is, then by 16 and 11.
 *
 * log, scratch  as in roskavel_answer; the log holds its records after 16 and 11 too.
 * page          holds the numbers of the run's rules, then zeros; unchanged if refused.
 */
#define ROSKAVEL_RUN_STACK 6720
ROSKAVEL_READS(1, 2) ROSKAVEL_WRITES(3, 4) ROSKAVEL_WRITES(5, 6) ROSKAVEL_WRITES(7, 8)
ROSKAVEL_NONNULL(9)
void roskavel_run(const uint8_t *ROSKAVEL_RESTRICT table, size_t table_length,
                  uint8_t *ROSKAVEL_RESTRICT log, size_t log_length,
                  uint8_t *ROSKAVEL_RESTRICT scratch, size_t scratch_length,
                  uint16_t *ROSKAVEL_RESTRICT page, size_t page_length,
                  uint64_t figures[ROSKAVEL_FIGURES]);

/*
 * Follows a list of rules from the start. Refused by 1 to 9, 15, by 14 for the start, and at
 * each step by 13, 12 and 14.
 *
 * rules    the list, numbers of the table's rules from 0.
 * pile     holds the pile at the end, top first, then zeros; refused at a step, the pile before
 *          that step, then zeros; unchanged if the start pile has no room.
 * scratch  work memory, at least ROSKAVEL_WALK_SCRATCH bytes.
 *
 * Refused at a step, the part of the list from that step on is handed back: figures
 * [ROSKAVEL_REST] is the step. Else the empty part is: it is rules_length.
 */
#define ROSKAVEL_WALK_STACK 1472
ROSKAVEL_READS(1, 2) ROSKAVEL_READS(3, 4) ROSKAVEL_WRITES(5, 6) ROSKAVEL_WRITES(7, 8)
ROSKAVEL_NONNULL(9)
void roskavel_walk(const uint8_t *ROSKAVEL_RESTRICT table, size_t table_length,
                   const uint16_t *ROSKAVEL_RESTRICT rules, size_t rules_length,
                   uint8_t *ROSKAVEL_RESTRICT pile, size_t pile_length,
                   uint8_t *ROSKAVEL_RESTRICT scratch, size_t scratch_length,
                   uint64_t figures[ROSKAVEL_FIGURES]);

/* A window of minutes of the week, Monday 00:00 being 0. The minute of closing is not in it. */
typedef struct roskavel_window {
    uint16_t opens;
    uint16_t closes;
} roskavel_window;

/* The opening hours of a process: it is open in the minutes of its first `count` windows. */
typedef struct roskavel_hours {
    roskavel_window windows[ROSKAVEL_WINDOWS];
    uint8_t count;
} roskavel_hours;

/* The opening hours of each process. */
typedef struct roskavel_week {
    roskavel_hours processes[4];
} roskavel_week;

/* What planning gives. */
typedef struct roskavel_planned {
    uint8_t number; /* the number of the refusal, or 0 */
    size_t place;   /* its place, or 0 */
} roskavel_planned;

/*
 * Lays a run on the week. In its order each step begins at the first minute, not before the start
 * nor before the processes of its letter have ended their earlier steps, from which all of them
 * are open for its whole length. Whether the rules fire is not asked.
 *
 * Minute 0 is Monday 00:00 of the plan's week, the minutes before it are negative, and all weeks
 * are alike: minute -1 is minute 10,079 of a week. Windows that touch or overlap run on, also from
 * Sunday into Monday. A process without windows is never open.
 *
 * run      the run, numbers of the table's rules from 0; at most ROSKAVEL_STEP_CEILING steps.
 * week     at most ROSKAVEL_WINDOWS windows for each process, each of which opens before it closes
 *          and closes at ROSKAVEL_WEEK_MINUTES or before.
 * lengths  the minutes that each rule takes, by number: from 1 to ROSKAVEL_LONGEST_STEP.
 * start    a minute from -ROSKAVEL_START_BOUND to ROSKAVEL_START_BOUND.
 * begins   holds the minute in which each step begins, then what it held before; at least as long
 *          as the run. A later step may begin earlier. Unchanged if refused.
 *
 * Refused by 1 to 9, then by 19 if one of these does not hold, then by 20. Every process and every
 * rule of the table is looked at for 19, whether the run has it or not. Windows past the count, and
 * what is given for processes or rules that the table lacks, are not looked at.
 */
#define ROSKAVEL_PLAN_STACK 1904
ROSKAVEL_READS(1, 2) ROSKAVEL_READS(3, 4) ROSKAVEL_READS(6, 7) ROSKAVEL_WRITES(9, 10)
roskavel_planned roskavel_plan(const uint8_t *ROSKAVEL_RESTRICT table, size_t table_length,
                               const uint16_t *ROSKAVEL_RESTRICT run, size_t run_length,
                               roskavel_week week,
                               const uint16_t *ROSKAVEL_RESTRICT lengths, size_t lengths_length,
                               int64_t start,
                               int64_t *ROSKAVEL_RESTRICT begins, size_t begins_length);

/*
 * A desk on a table. It stands in a configuration, at first the start, and holds up to
 * ROSKAVEL_NAMES other ones by name. It keeps a copy of the table.
 *
 * A desk is the caller's memory and plain data without pointers: it may be moved and copied, and
 * a copy is a desk of its own. Only roskavel_desk_open makes one, where it is not refused, and
 * only the calls below may change it. The calls do not check that: pass no other memory.
 */
typedef struct roskavel_desk {
    uint64_t opaque[1067];
} roskavel_desk;

/* What opening a desk gives. */
typedef struct roskavel_opening {
    roskavel_desk desk; /* of no use if refused */
    uint8_t number;     /* the number of the refusal, or 0 */
    size_t place;       /* its place, or 0 */
} roskavel_opening;

/* The configuration that a desk stands in. */
typedef struct roskavel_sight {
    uint8_t states[4];                /* of each process, 255 if the table lacks it */
    size_t length;                    /* letters of the pile */
    uint8_t pile[ROSKAVEL_DESK_PILE]; /* the pile, top first, then zeros */
} roskavel_sight;

/* What firing a rule gives. */
typedef struct roskavel_fire {
    uint8_t number;    /* the number of the refusal, or 0 */
    uint8_t processes; /* those of the rule's letter as bits, bit 0 for process 0; 0 if refused */
} roskavel_fire;

/* The steps that a desk has counted. */
typedef struct roskavel_counts {
    uint64_t steps[4]; /* of each process, 0 if the table lacks it */
} roskavel_counts;

/*
 * Opens a desk on a table: it stands at the start, no name is held and nothing is counted. Refused
 * by 1 to 9; there is then no desk.
 */
#define ROSKAVEL_DESK_OPEN_STACK 7440
ROSKAVEL_READS(1, 2)
roskavel_opening roskavel_desk_open(const uint8_t *table, size_t table_length);

/*
 * The calls that change a desk give the number of the refusal, or 0, a fire the processes that took
 * part as well. They check in the order in which the numbers are given here.
 *
 * The fires of a desk are its history. A save notes the current history under a name, a return
 * makes the noted one the current one: the desk stands where roskavel_walk ends on the current
 * history, and later fires go on from there.
 */

/* Fires a rule. Refused by 13, by 12, and by 14 if more than ROSKAVEL_DESK_PILE letters result. */
#define ROSKAVEL_DESK_FIRE_STACK 17624
ROSKAVEL_NONNULL(1)
roskavel_fire roskavel_desk_fire(roskavel_desk *desk, uint16_t rule);

/* Saves under a name, in place of what the name held before. Refused by 18. */
#define ROSKAVEL_DESK_SAVE_STACK 8600
ROSKAVEL_NONNULL(1)
uint8_t roskavel_desk_save(roskavel_desk *desk, uint8_t name);

/* Returns to a name. Every name stays held, this one too, and the counts begin again at 0. Refused
   by 18 and by 17. */
#define ROSKAVEL_DESK_RETURN_STACK 17144
ROSKAVEL_NONNULL(1)
uint8_t roskavel_desk_return(roskavel_desk *desk, uint8_t name);

/* Forgets a name. Refused by 18 and by 17. */
#define ROSKAVEL_DESK_FORGET_STACK 17128
ROSKAVEL_NONNULL(1)
uint8_t roskavel_desk_forget(roskavel_desk *desk, uint8_t name);

/* Where the desk stands. Changes nothing and is never refused. */
#define ROSKAVEL_DESK_LOOK_STACK 312
ROSKAVEL_NONNULL(1)
roskavel_sight roskavel_desk_look(const roskavel_desk *desk);

/*
 * For each process the number of steps that it took part in, since the desk was opened or last
 * returned; each stops at ROSKAVEL_COUNT_CEILING. Changes nothing and is never refused.
 */
#define ROSKAVEL_DESK_COUNT_STACK 8
ROSKAVEL_NONNULL(1)
roskavel_counts roskavel_desk_count(const roskavel_desk *desk);

#ifdef __cplusplus
}
#endif

#endif
