/* gmv_driver: one end of a link with sequence numbers. */
#include <stdio.h>
#include <string.h>

#include "common.h"
#include "ends.h"

static int usage(void)
{
    fprintf(stderr,
            "gmv_driver sender-init DIR FIRST\n"
            "gmv_driver receiver-init DIR\n"
            "gmv_driver send DIR LINE [OPTIONS]\n"
            "gmv_driver receive DIR LINE [OPTIONS]\n"
            "gmv_driver reset DIR\n"
            "gmv_driver --version\n"
            "LINE: --minimal-connect HOST:PORT | --minimal-listen PORT | --hybrid-tty PATH\n"
            "OPTIONS: --data-limit D, --timer MILLISECONDS, --resends R, --type ADT,\n"
            "  --application AA|AE, --start-block BYTE, --end-block BYTE, --keepalive SECONDS\n");
    return 2;
}

static int run_end(int sends, const char *folder, int count, char **words)
{
    settings link;

    if (settings_read(&link, count, words) != 0)
        return usage();
    settings_check(&link);
    catch_stop();
    if (sends)
        sender_run(folder, &link);
    else
        receiver_run(folder, &link);
    return 0;
}

int main(int count, char **words)
{
    if (count == 2 && strcmp(words[1], "--version") == 0)
        return say_version();
    require_version();
    if (count < 3)
        return usage();
    if (strcmp(words[1], "sender-init") == 0 && count == 4)
        sender_create(words[2], words[3]);
    else if (strcmp(words[1], "receiver-init") == 0 && count == 3)
        receiver_create(words[2]);
    else if (strcmp(words[1], "reset") == 0 && count == 3)
        sender_reset(words[2]);
    else if (strcmp(words[1], "send") == 0)
        return run_end(1, words[2], count - 3, words + 3);
    else if (strcmp(words[1], "receive") == 0)
        return run_end(0, words[2], count - 3, words + 3);
    else
        return usage();
    return 0;
}
