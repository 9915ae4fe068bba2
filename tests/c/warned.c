/*
 * Mistakes with pointers and lengths that GCC warns of, one for each number CASE, with the name of
 * the warning; in C++ too, where nothing else is said. Number 0 has no mistake.
 */
#include "roskavel.h"

enum { TABLE = 76, LOG = 84, SCRATCH = 34030 };

uint8_t table[TABLE], log_buffer[LOG], scratch[SCRATCH], pile[3];
uint16_t list[3], page[3];
int64_t begins[3];
uint64_t figures[ROSKAVEL_FIGURES], few[ROSKAVEL_FIGURES / 2];
roskavel_week week;
roskavel_planned planned;

void call(void);

void call(void)
{
#if CASE == 0 /* none: sound calls, and null where the length is 0 */
    uint8_t fresh[LOG];
    roskavel_answer(table, TABLE, fresh, LOG, scratch, SCRATCH, figures);
    roskavel_answer(NULL, 0, NULL, 0, NULL, 0, figures);
    roskavel_run(NULL, 0, NULL, 0, NULL, 0, NULL, 0, figures);
    roskavel_walk(NULL, 0, NULL, 0, NULL, 0, NULL, 0, figures);
    planned = roskavel_plan(NULL, 0, NULL, 0, week, NULL, 0, 0, NULL, 0);
    planned.number = roskavel_desk_open(NULL, 0).number;
#elif CASE == 1 /* restrict: log and scratch in one place */
    roskavel_answer(table, TABLE, scratch, LOG, scratch, SCRATCH, figures);
#elif CASE == 2 /* restrict: log and scratch in one place */
    roskavel_run(table, TABLE, scratch, LOG, scratch, SCRATCH, page, 3, figures);
#elif CASE == 3 /* restrict: pile and scratch in one place */
    roskavel_walk(table, TABLE, list, 3, scratch, 3, scratch, SCRATCH, figures);
#elif CASE == 4 /* restrict: pile and table in one place */
    roskavel_walk(table, TABLE, list, 3, table, 3, scratch, SCRATCH, figures);
#elif CASE == 5 /* nonnull: no figures */
    roskavel_answer(table, TABLE, log_buffer, LOG, scratch, SCRATCH, NULL);
#elif CASE == 6 /* nonnull: no figures */
    roskavel_run(table, TABLE, log_buffer, LOG, scratch, SCRATCH, page, 3, NULL);
#elif CASE == 7 /* nonnull: no figures */
    roskavel_walk(table, TABLE, list, 3, pile, 3, scratch, SCRATCH, NULL);
#elif CASE == 8 /* nonnull: no desk */
    roskavel_desk_fire(NULL, 0);
#elif CASE == 9 /* nonnull: no desk */
    roskavel_desk_count(NULL);
#elif CASE == 10 /* nonnull: null, but a length */
    roskavel_answer(NULL, TABLE, log_buffer, LOG, scratch, SCRATCH, figures);
#elif CASE == 11 /* nonnull: null, but a length */
    planned = roskavel_plan(table, TABLE, list, 3, week, list, 3, 0, NULL, 3);
#elif CASE == 12 /* stringop-overflow=: a length beyond the array */
    roskavel_answer(table, TABLE, log_buffer, LOG + 1, scratch, SCRATCH, figures);
#elif CASE == 13 /* stringop-overflow=, in C alone: too few figures */
    roskavel_answer(table, TABLE, log_buffer, LOG, scratch, SCRATCH, few);
#endif
}
