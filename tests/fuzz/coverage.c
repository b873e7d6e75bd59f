/* What the instrumented library needs besides the sanitizers: the check of a promise, and for a replay
 * the count of the edges that were reached. */
#include "fuzz.h"

#include <stdio.h>
#include <stdlib.h>

/* Called with 1 where something happens that is proved never to happen. */
void fuzz_promise(_Bool is_broken);
void fuzz_promise(_Bool is_broken) { oracle(!is_broken, "a promise of the proved code to its compiler"); }

#ifdef COVERAGE

static uint8_t *first_counter, *reached;
static size_t edge_count;

/* The compiler calls it by this name, once for each object, always with all counters. */
void __sanitizer_cov_8bit_counters_init(uint8_t *first, uint8_t *end);
void __sanitizer_cov_8bit_counters_init(uint8_t *first, uint8_t *end)
{
    first_counter = first;
    edge_count = (size_t)(end - first);
}

/* After each input, since a counter wraps at 256. */
void collect_coverage(void);
void collect_coverage(void)
{
    if (reached == NULL)
        reached = calloc(edge_count + 1, 1);
    for (size_t i = 0; reached && i < edge_count; i++) {
        reached[i] |= first_counter[i] != 0;
        first_counter[i] = 0;
    }
}

/* A digit for each edge in the order of linking, 1 if it was reached. */
void write_coverage(void);
void write_coverage(void)
{
    const char *path = getenv("FUZZ_COVERAGE");
    FILE *file = path && reached ? fopen(path, "w") : NULL;

    if (file == NULL)
        return;
    for (size_t i = 0; i < edge_count; i++)
        fputc('0' + reached[i], file);
    fclose(file);
}

#endif
