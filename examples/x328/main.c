/* x328: a station on an X3.28 line (000, C.3). */
#include <stdio.h>
#include <string.h>

#include "common.h"
#include "settings.h"
#include "station.h"

static int usage(void)
{
    fprintf(stderr,
            "x328 init DIR\n"
            "x328 run DIR PATH primary|secondary [OPTIONS]\n"
            "x328 --version\n"
            "PATH: of the terminal line\n"
            "OPTIONS: --timer-a, --timer-b, --timer-d, --retry, --recovery, --silence MILLISECONDS, --bids M,\n"
            "  --block-size SIZE, --message-limit BYTES, --parity none|odd|software, --speed 1200|2400|4800|9600,\n"
            "  --prefix TEXT, --enquiry no|yes\n");
    return 2;
}

static int run(const char *folder, int count, char **words)
{
    settings settings;

    if (settings_read(&settings, count, words) != 0)
        return usage();
    catch_stop();
    station_run(folder, &settings);
    return 0;
}

int main(int count, char **words)
{
    name_program("x328", 1);
    if (count == 2 && strcmp(words[1], "--version") == 0)
        return say_version();
    require_version();
    if (count == 3 && strcmp(words[1], "init") == 0)
        station_create(words[2]);
    else if (count > 3 && strcmp(words[1], "run") == 0)
        return run(words[2], count - 3, words + 3);
    else
        return usage();
    return 0;
}
