/* The fuzzer that FUZZ_TARGET names, for libFuzzer; or, with REPLAY, a program that runs the fuzzers on
 * the files of given folders. */
#include "fuzz.h"

#include <dirent.h>
#include <stdio.h>
#include <stdlib.h>
#include <string.h>

typedef void (*fuzzer)(input *);

static fuzzer find_fuzzer(const char *name)
{
    static const struct {
        const char *name;
        fuzzer run;
    } fuzzers[] = {{"blocks", fuzz_blocks}, {"messages", fuzz_messages}, {"receiver", fuzz_receiver},
                   {"sender", fuzz_sender}, {"station", fuzz_station}, {"master", fuzz_master}};

    for (size_t i = 0; name && i < sizeof fuzzers / sizeof fuzzers[0]; i++)
        if (strcmp(name, fuzzers[i].name) == 0)
            return fuzzers[i].run;
    fprintf(stderr, "fuzz: no such fuzzer: %s\n", name ? name : "");
    exit(2);
}

#ifndef REPLAY

static fuzzer target;

int LLVMFuzzerInitialize(int *count, char ***words);
int LLVMFuzzerTestOneInput(const uint8_t *bytes, size_t length);

int LLVMFuzzerInitialize(int *count, char ***words)
{
    (void)count;
    (void)words;
    target = find_fuzzer(getenv("FUZZ_TARGET"));
    atexit(write_counts);
    return 0;
}

int LLVMFuzzerTestOneInput(const uint8_t *bytes, size_t length)
{
    input in = {bytes, length};

    target(&in);
    return 0;
}

#else

#ifdef COVERAGE
void collect_coverage(void);
void write_coverage(void);
#endif

static void run_file(fuzzer run, const char *path)
{
    FILE *file = fopen(path, "rb");
    static uint8_t bytes[1 << 20];
    input in = {bytes, 0};
    memory exact;

    if (file == NULL) {
        fprintf(stderr, "replay: cannot read %s\n", path);
        exit(2);
    }
    in.length = fread(bytes, 1, sizeof bytes, file);
    fclose(file);
    exact = new_copy(bytes, in.length);
    in.bytes = exact.bytes;
    run(&in);
    end_memory(&exact);
#ifdef COVERAGE
    collect_coverage();
#endif
}

/* Runs each file of the folder. Returns how many; a folder that is not there has none. */
static size_t run_folder(fuzzer run, const char *folder)
{
    DIR *entries = opendir(folder);
    struct dirent *entry;
    size_t count = 0;
    char path[4096];

    if (entries == NULL)
        return 0;
    while ((entry = readdir(entries)) != NULL) {
        if (entry->d_name[0] == '.')
            continue;
        snprintf(path, sizeof path, "%s/%s", folder, entry->d_name);
        run_file(run, path);
        count++;
    }
    closedir(entries);
    return count;
}

/* replay NAME FOLDER NAME FOLDER .. : the folder's files are inputs of the fuzzer NAME. Prints how many
 * files were run; none is a failure. */
int main(int count, char **words)
{
    size_t files = 0;

    for (int i = 1; i + 1 < count; i += 2)
        files += run_folder(find_fuzzer(words[i]), words[i + 1]);
    write_counts();
#ifdef COVERAGE
    write_coverage();
#endif
    printf("%lu\n", (unsigned long)files);
    return files == 0;
}

#endif
