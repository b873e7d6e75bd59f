/* Runs the cases of tests/cases, whose README.md says what a line is. Each call of a case is made with
 * memory of exactly its size, and the number and every word and byte afterwards are compared. Each is
 * then made again with other pointers where a length is 0, with words more than needed, which do not
 * change, and with every smaller count of words, which is 2 (or 1, where it was 1). */
#include "case_text.h"
#include "harness.h"

#include <stdarg.h>
#include <stdio.h>
#include <stdlib.h>
#include <string.h>

enum { WORD = sizeof(uint64_t), MEMORIES = 4, NUMBERS = 8, MORE_WORDS = 3 };
/* Which memory is meant; and what the pointers to memory of no length are: a bit for each memory says
 * that it is null, and NOWHERE that all of them point to nothing. */
enum { ALL_WORDS = MEMORIES, NO_WORDS, NOWHERE = 1 << MEMORIES };

/* ---- a call */

typedef struct {
    char kind; /* of the signature, below */
    const char *name;
    size_t name_length, need;
    size_t size; /* in bytes */
    uint8_t before[LARGEST_MEMORY], after[LARGEST_MEMORY];
    guarded given;
} memory;

typedef struct {
    uint64_t numbers[NUMBERS], expected;
    memory memories[MEMORIES];
    size_t memory_count;
    int pointers;
} call;

static call made; /* too large for a stack */

static int of_words(const memory *m)
{
    return m->kind == 's' || m->kind == 'w';
}

static uint8_t *bytes_at(size_t i)
{
    const guarded *given = &made.memories[i].given;

    if (given->size == 0 && made.pointers == NOWHERE)
        return (uint8_t *)(UINTPTR_MAX - (of_words(&made.memories[i]) ? WORD - 1 : 0));
    return given->size == 0 && made.pointers & 1 << i ? NULL : given->at;
}

static uint64_t *words_at(size_t i)
{
    return (uint64_t *)(void *)bytes_at(i);
}

/* The signature names a function's parameters in the header's order: n a number, b bytes that are
 * read, o bytes that are written and given by their length, h bytes that are held and may change,
 * s words of a state and w words that are written, both with the count that is needed. */
#define N(i) made.numbers[i]
#define B(i) bytes_at(i), made.memories[i].given.size
#define W(i) words_at(i), made.memories[i].given.size / WORD
#define HYBRID "n:start_block n:end_block n:data_limit "
#define MINIMAL "n:data_limit "
#define READ "s4:state b:part h:buffer w8:verdict"
#define CHECK_ONE "b:block w8:verdict"
#define WRITE "o:buffer n:start w2:report"
#define RECEIVER "s9:state "
#define SENDER "s7:state w8:report"
#define STATION "s5:state w4:report"
#define MASTER "s10:state w10:report"
#define FUNCTIONS(F) \
    F(reader_fresh, "w4:state", W(0)) \
    F(hybrid_read, HYBRID READ, N(0), N(1), N(2), W(0), B(1), B(2), W(3)) \
    F(minimal_read, MINIMAL READ, N(0), W(0), B(1), B(2), W(3)) \
    F(hybrid_check, HYBRID CHECK_ONE, N(0), N(1), N(2), B(0), W(1)) \
    F(minimal_check, MINIMAL CHECK_ONE, N(0), B(0), W(1)) \
    F(hybrid_write, HYBRID "n:type b:content " WRITE, N(0), N(1), N(2), N(3), B(0), B(1), N(4), W(2)) \
    F(minimal_write, MINIMAL "b:content " WRITE, N(0), B(0), B(1), N(1), W(2)) \
    F(header_read, "b:message w6:header", B(0), W(1)) \
    F(answer_read, "b:message w9:answer", B(0), W(1)) \
    F(field_next, "b:message n:position w5:field", B(0), N(0), W(1)) \
    F(answer_write, "b:control_id n:code n:number " WRITE, B(0), N(0), N(1), B(1), N(2), W(2)) \
    F(control_write, "b:type n:number " WRITE, B(0), N(0), B(1), N(1), W(2)) \
    F(receiver_fresh, "w9:state", W(0)) \
    F(receiver_decide, "n:application n:block_type b:data " RECEIVER "w5:report", \
      N(0), N(1), B(0), W(1), W(2)) \
    F(hybrid_answer, HYBRID "n:stored " RECEIVER WRITE, N(0), N(1), N(2), N(3), W(0), B(1), N(4), W(2)) \
    F(minimal_answer, MINIMAL "n:stored " RECEIVER WRITE, N(0), N(1), W(0), B(1), N(2), W(2)) \
    F(hybrid_nak, HYBRID "n:block_number " RECEIVER WRITE, N(0), N(1), N(2), N(3), W(0), B(1), N(4), W(2)) \
    F(sender_fresh, "n:first w7:state", N(0), W(0)) \
    F(sender_submit, "n:data_limit b:message " SENDER, N(0), B(0), W(1), W(2)) \
    F(sender_open, SENDER, W(0), W(1)) \
    F(sender_ended, SENDER, W(0), W(1)) \
    F(sender_reset, SENDER, W(0), W(1)) \
    F(sender_timer, "n:resends " SENDER, N(0), W(0), W(1)) \
    F(sender_block, "n:resends n:block_number n:block_type b:data " SENDER, \
      N(0), N(1), N(2), B(0), W(1), W(2)) \
    F(hybrid_control_block, HYBRID "b:type n:number " WRITE, \
      N(0), N(1), N(2), B(0), N(3), B(1), N(4), W(2)) \
    F(minimal_control_block, MINIMAL "b:type n:number " WRITE, N(0), B(0), N(1), B(1), N(2), W(2)) \
    F(station_fresh, "w5:state", W(0)) \
    F(station_open, STATION, W(0), W(1)) \
    F(station_block, "n:number n:ending b:text h:buffer " STATION, N(0), N(1), B(0), B(1), W(2), W(3)) \
    F(station_bad, STATION, W(0), W(1)) \
    F(station_enquiry, STATION, W(0), W(1)) \
    F(station_end, STATION, W(0), W(1)) \
    F(station_bare_enq, STATION, W(0), W(1)) \
    F(station_interrupt, STATION, W(0), W(1)) \
    F(master_fresh, "w10:state", W(0)) \
    F(master_open, MASTER, W(0), W(1)) \
    F(master_start, "n:message_length n:block_size " MASTER, N(0), N(1), W(0), W(1)) \
    F(master_reply, "n:reply n:number " MASTER, N(0), N(1), W(0), W(1)) \
    F(master_timer, MASTER, W(0), W(1)) \
    F(master_close, MASTER, W(0), W(1)) \
    F(master_enquire, MASTER, W(0), W(1)) \
    F(master_may_receive, MASTER, W(0), W(1))

#define CALLER(name, signature, ...) \
    static uint64_t call_##name(void) { return gmv_##name(__VA_ARGS__); }
FUNCTIONS(CALLER)

typedef struct {
    const char *name, *signature;
    uint64_t (*call)(void);
} function;

#define ROW(name, signature, ...) {#name, signature, call_##name},
static const function functions[] = {FUNCTIONS(ROW)};

static unsigned long cases_run, calls_made;

/* ---- a line */

/* A blank, a name of this length, and what follows it. */
static int skips_name(const char *name, size_t length, const char *after)
{
    const char *rest = line.rest;

    if (rest[0] != ' ' || strncmp(rest + 1, name, length) != 0 ||
        strncmp(rest + 1 + length, after, strlen(after)) != 0)
        return 0;
    line.rest += 1 + length + strlen(after);
    return 1;
}

static void expect_name(const char *name, size_t length, const char *after)
{
    if (!skips_name(name, length, after))
        no_case("another name than the next parameter's");
}

/* So many bytes or words, painted. */
static void painted(memory *m, uint64_t count, size_t unit, int paint)
{
    if (count > LARGEST_MEMORY / unit)
        no_case("too large a memory");
    m->size = line.malformed ? 0 : (size_t)count * unit;
    memset(m->before, paint, m->size);
}

static void memory_value(memory *m)
{
    if (m->kind == 'w') {
        int counted = skips_name(m->name, m->name_length, "_words=");

        painted(m, counted ? number_value() : m->need, WORD, 0xEE);
        return;
    }
    expect_name(m->name, m->name_length, m->kind == 'o' ? "_length=" : "=");
    if (m->kind == 'o')
        painted(m, number_value(), 1, 0x55);
    else
        m->size = m->kind == 's' ? words_value(m->before) : bytes_value(m->before);
}

static void inputs(const char *signature)
{
    size_t numbers = 0;

    made.memory_count = 0;
    while (*signature && !line.malformed) {
        const char *name = strchr(signature, ':') + 1;
        size_t length = strcspn(name, " ");
        memory *m = &made.memories[made.memory_count];

        if (*signature == 'n') {
            expect_name(name, length, "=");
            made.numbers[numbers++] = number_value();
        } else {
            m->kind = *signature;
            m->need = strtoul(signature + 1, NULL, 10);
            m->name = name;
            m->name_length = length;
            memory_value(m);
            made.memory_count++;
        }
        signature = name + length + (name[length] == ' ');
    }
}

/* What a memory holds at exit: same, words from the first on, or OFFSET:bytes. */
static void exit_value(memory *m)
{
    static uint8_t bytes[LARGEST_MEMORY];
    size_t offset = 0, size;

    if (skips("same"))
        return;
    if (of_words(m)) {
        size = words_value(bytes);
        if (size != m->need * WORD)
            no_case("not as many words as are written");
    } else {
        offset = (size_t)plain_number();
        expect_text(":");
        size = bytes_value(bytes);
    }
    if (offset > m->size || size > m->size - offset)
        no_case("more at exit than was given");
    else
        memcpy(m->after + offset, bytes, size);
}

static void line_ends(size_t choices)
{
    if (!line.malformed && (*line.rest || choices_read() != choices))
        no_case("more than a case, or a choice at exit");
}

static void exits(void)
{
    const size_t choices = choices_read();

    expect_text(" -> ");
    made.expected = plain_number();
    for (size_t i = 0; i < made.memory_count; i++)
        memcpy(made.memories[i].after, made.memories[i].before, made.memories[i].size);
    for (size_t i = 0, same = skips(" same"); !same && i < made.memory_count; i++)
        if (made.memories[i].kind != 'b') {
            expect_name(made.memories[i].name, made.memories[i].name_length, "=");
            exit_value(&made.memories[i]);
        }
    line_ends(choices);
}

/* ---- the calls of a case */

/* With as many bytes of each memory as size says, and those beyond its own painted. */
static void give(memory *m, size_t size)
{
    m->given = guard(size, 0xDD);
    memcpy(m->given.at, m->before, size < m->size ? size : m->size);
    keep(&m->given);
}

static void compare_memory(memory *m, int changes)
{
    size_t size = m->given.size < m->size ? m->given.size : m->size;
    const uint8_t *expected = changes ? m->after : m->before;

    if (!same_from(&m->given, size) || memcmp(m->given.at, expected, size) != 0) {
        printf("%s:%d: %.*s is not as expected\n", line.file, line.number, (int)m->name_length,
               m->name);
        fault("memory after the call");
    }
}

static void make_call(const function *f, uint64_t expected, int changes)
{
    uint64_t found = f->call();

    calls_made++;
    if (found != expected) {
        printf("%s:%d: answered %lu, expected %lu\n", line.file, line.number, (unsigned long)found,
               (unsigned long)expected);
        fault("the number");
    }
    for (size_t i = 0; i < made.memory_count; i++) {
        compare_memory(&made.memories[i], changes);
        give_back(&made.memories[i].given);
    }
}

static void with_more_words(const function *f, size_t more)
{
    for (size_t i = 0; i < made.memory_count; i++)
        give(&made.memories[i],
             made.memories[i].size + (of_words(&made.memories[i]) ? more * WORD : 0));
    make_call(f, made.expected, 1);
}

/* This memory is one of words, and one of those that are meant. */
static int is_meant(size_t i, size_t which)
{
    return of_words(&made.memories[i]) && (which == i || which == ALL_WORDS);
}

/* With at most this count of words in one memory, or in all of them. */
static void with_fewer_words(const function *f, size_t which, size_t words)
{
    for (size_t i = 0; i < made.memory_count; i++) {
        memory *m = &made.memories[i];

        give(m, is_meant(i, which) && m->size > words * WORD ? words * WORD : m->size);
    }
    make_call(f, made.expected == GMV_SETTING ? GMV_SETTING : GMV_TOO_SHORT, 0);
}

/* All memory that these pointers say is null has no length, where those that are meant have no words. */
static int may_point_so(int pointers, size_t which)
{
    for (size_t i = 0; i < MEMORIES && pointers != NOWHERE; i++)
        if (pointers & 1 << i &&
            (i >= made.memory_count || (made.memories[i].size > 0 && !is_meant(i, which))))
            return 0;
    return 1;
}

/* As it is, and with no words at all in one memory of words or in all, with all kinds of pointers. */
static void with_all_pointers(const function *f)
{
    for (made.pointers = 0; made.pointers <= NOWHERE; made.pointers++) {
        if (may_point_so(made.pointers, NO_WORDS))
            with_more_words(f, 0);
        for (size_t i = 0; i <= ALL_WORDS; i++)
            if ((i == ALL_WORDS || (i < made.memory_count && of_words(&made.memories[i]))) &&
                may_point_so(made.pointers, i))
                with_fewer_words(f, i, 0);
    }
    made.pointers = 0;
}

static void run_call(const function *f)
{
    size_t most = 0;

    with_all_pointers(f);
    for (size_t more = 1; made.expected != GMV_TOO_SHORT && more <= MORE_WORDS; more++)
        with_more_words(f, more);
    for (size_t i = 0; i < made.memory_count; i++) {
        const memory *m = &made.memories[i];

        for (size_t words = 1; of_words(m) && words < m->need; words++)
            with_fewer_words(f, i, words);
        if (of_words(m) && m->need > most)
            most = m->need;
    }
    for (size_t words = 1; words < most; words++)
        with_fewer_words(f, ALL_WORDS, words);
}

static void run_function(const function *f)
{
    const char *start = line.rest;

    first_combination();
    do {
        line.rest = start;
        read_again();
        inputs(f->signature);
        exits();
        if (!line.malformed)
            run_call(f);
    } while (!line.malformed && next_combination());
}

/* ---- streams */

/* What a stream must give, in whatever parts: the verdicts with the bytes of the stream read by then,
 * and the state and the buffer at its end. */
typedef struct {
    uint8_t verdicts[LARGEST_MEMORY], state[LARGEST_MEMORY], buffer[LARGEST_MEMORY];
    size_t verdicts_size, state_size, buffer_size;
} stream;

static stream expected;

static void read_in_parts(settings link, const memory *input, size_t part)
{
    guarded buffer;
    listing list = read_stream(link, input->before, input->size, part, &buffer);

    calls_made++;
    if (list.count * sizeof list.words[0] != expected.verdicts_size ||
        memcmp(list.words, expected.verdicts, expected.verdicts_size) != 0)
        fault("the verdicts of the stream");
    if (memcmp(list.state, expected.state, sizeof list.state) != 0)
        fault("the state at the stream's end");
    if (memcmp(buffer.at, expected.buffer, expected.buffer_size) != 0 ||
        !same_from(&buffer, expected.buffer_size))
        fault("the buffer at the stream's end");
    give_back(&buffer);
}

static void run_stream(settings link, const char *signature)
{
    const memory *input = &made.memories[0];

    read_again();
    inputs(signature);
    if (!link.minimal) {
        link.start_block = made.numbers[0];
        link.end_block = made.numbers[1];
    }
    link.data_limit = made.numbers[link.minimal ? 0 : 2];
    expect_name("-> verdicts", 11, "=");
    for (expected.verdicts_size = 0; *line.rest == '(' && expected.verdicts_size < 4096;)
        expected.verdicts_size += words_value(expected.verdicts + expected.verdicts_size);
    expect_name("state", 5, "=");
    expected.state_size = words_value(expected.state);
    expect_name("buffer", 6, "=0:");
    expected.buffer_size = bytes_value(expected.buffer);
    line_ends(0);
    if (expected.state_size != GMV_READER_WORDS * WORD || expected.buffer_size > need_of(link))
        no_case("not the memory of a reader");
    for (size_t part = 1; part <= (input->size ? input->size : 1) && !line.malformed; part++)
        read_in_parts(link, input, part);
}

/* ---- lines and files */

static void run_line(const char *text)
{
    const size_t length = strcspn(text, " ");

    line.rest = text + length;
    line.malformed = 0;
    cases_run++;
    for (size_t i = 0; i < sizeof functions / sizeof functions[0]; i++)
        if (strlen(functions[i].name) == length && strncmp(functions[i].name, text, length) == 0) {
            run_function(&functions[i]);
            return;
        }
    if (strncmp(text, "hybrid_stream ", 14) == 0)
        run_stream(hybrid(0), HYBRID "b:input");
    else if (strncmp(text, "minimal_stream ", 15) == 0)
        run_stream(minimal(0), MINIMAL "b:input");
    else
        no_case("an unknown function");
}

void run_case(const char *file, int number_of_line, const char *format, ...)
{
    static char text[LONGEST_LINE];
    va_list values;
    int length;

    va_start(values, format);
    length = vsnprintf(text, sizeof text, format, values);
    va_end(values);
    line.file = file;
    line.number = number_of_line;
    if (length < 0 || (size_t)length >= sizeof text)
        fault("too long a case");
    else
        run_line(text);
}

/* A line of a file: a comment, a test's name, or a case of that test; there is none yet where the count
 * of its cases is -1. */
static void file_line(char *text, long *cases_of_test)
{
    size_t length = strlen(text);

    if (length == 0 || text[length - 1] != '\n') {
        fault("a line without an end, or too long");
        return;
    }
    text[length - 1] = '\0';
    if (text[0] == '\0' || text[0] == '#')
        return;
    if (strncmp(text, "== ", 3) == 0) {
        if (*cases_of_test == 0)
            fault("a test without a case before this one");
        begin_test(text + 3);
        *cases_of_test = 0;
    } else if (*cases_of_test < 0) {
        fault("a case without a test's name");
    } else {
        run_line(text);
        ++*cases_of_test;
    }
}

void run_cases_of(const char *path)
{
    static char text[LONGEST_LINE];
    unsigned long cases_before = cases_run, calls_before = calls_made;
    long cases_of_test = -1;
    FILE *file = fopen(path, "r");

    begin_test(path);
    line.file = path;
    line.number = 0;
    while (file && fgets(text, sizeof text, file)) {
        line.number++;
        file_line(text, &cases_of_test);
    }
    if (!file || fclose(file) != 0 || cases_of_test <= 0)
        fault("no such file, or one without a case at its end");
    printf("%s: %lu cases, %lu calls\n", path, cases_run - cases_before,
           calls_made - calls_before);
}

void test_cases(void)
{
    static const char *const files[] = {"blocks", "messages", "fields", "receiver",
                                        "sender", "control", "station", "master"};

    for (size_t i = 0; i < sizeof files / sizeof files[0]; i++) {
        char path[64];

        snprintf(path, sizeof path, "tests/cases/%s.txt", files[i]);
        run_cases_of(path);
    }
}
