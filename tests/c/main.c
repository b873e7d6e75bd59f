/* The C tests of giamuvich.h. They are compiled with warnings as errors, once plainly and once with
 * the address and undefined-behaviour sanitizers, and linked with the archive that was just proved.
 *
 * Every test of answers runs twice: with memory that ends at an inaccessible page, and with memory of
 * malloc. */
#include "harness.h"

#include <stdio.h>

static void run_all(enum memory_kind kind)
{
    use_memory(kind);
    seed_random(20261115);
    test_constants();
    test_cases();
    test_round_trips();
    test_settings();
    test_random();
    test_sweeps();
    test_message_trips();
    test_link();
    test_dialogue();
    test_master_sweeps();
    test_master_dialogue();
    test_turning();
    test_state_words();
    test_caller_memory();
    test_duties();
}

/* The cases of these files alone. */
static int run_files(int count, char **paths)
{
    for (int kind = FENCED_PAGES; kind <= EXACT_MALLOC; kind++) {
        use_memory((enum memory_kind)kind);
        for (int i = 0; i < count; i++)
            run_cases_of(paths[i]);
    }
    return finish_tests();
}

int main(int count, char **arguments)
{
    setvbuf(stdout, NULL, _IOLBF, 0); /* what was said stays said if a call faults */
    if (count > 1)
        return run_files(count - 1, arguments + 1);
#ifdef NEVER_WRITTEN
    test_caller_memory(); /* under valgrind: docs/TRUSTED.md */
    return finish_tests();
#endif
    run_all(FENCED_PAGES);
    run_all(EXACT_MALLOC);
    test_stack();
    test_instructions();
    test_version();
    return finish_tests();
}
