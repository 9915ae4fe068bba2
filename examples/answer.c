#include "roskavel.h"
#include <inttypes.h>
#include <stdio.h>

enum { TABLE = 65536, RECORDS = 2000 }; /* bytes of a table, transitions that the log holds */

static uint8_t table[TABLE], log_buffer[ROSKAVEL_RECORD_BYTES * RECORDS];
static uint8_t scratch[ROSKAVEL_SCRATCH_BASE + ROSKAVEL_SCRATCH_PER_RECORD * RECORDS];

int main(int count, char **arguments)
{
    const char *path = count > 1 ? arguments[1] : "tables/T";
    FILE *file = fopen(path, "rb");
    size_t length = file != NULL ? fread(table, 1, sizeof table, file) : 0;
    if (file == NULL || ferror(file)) {
        perror(path);
        return 1;
    }
    fclose(file);

    uint64_t figures[ROSKAVEL_FIGURES];
    roskavel_answer(table, length, log_buffer, sizeof log_buffer, scratch, sizeof scratch,
                    figures);
    switch (figures[ROSKAVEL_VERDICT]) {
    case ROSKAVEL_VERDICT_REACHABLE:
        printf("reachable, steps %" PRIu64 "\n", figures[ROSKAVEL_STEPS]);
        break;
    case ROSKAVEL_VERDICT_UNREACHABLE:
        printf("unreachable\n");
        break;
    default: /* ROSKAVEL_NO_VERDICT */
        printf("refused: %" PRIu64 " at %" PRIu64 "\n", figures[ROSKAVEL_REFUSAL],
               figures[ROSKAVEL_PLACE]);
    }
    return 0;
}
