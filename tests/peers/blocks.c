/* The library behind a pipe, for tests/peers/run: a command a line, words between single blanks, bytes as
 * hexadecimal digits (- where there are none). Each answer is some lines and then a line with a full stop.
 *
 *   reader D                    a fresh minimal reader with a buffer of just D bytes
 *   part BYTES                  reads a part of its stream: a line OFFSET NUMBER PLACE DATA for each verdict
 *   check D BYTES               checks one whole minimal block: NUMBER PLACE DATA
 *   minimal D DATA              writes a minimal block: NUMBER PLACE BLOCK
 *   hybrid D TYPE DATA          writes a hybrid block with SB 0B and EB 1C: NUMBER PLACE BLOCK
 *   header MESSAGE              NUMBER MSH-10 MSH-13 KIND VALUE (KIND is GMV_FIELD_.., VALUE -1 or a number)
 *   answer MESSAGE              NUMBER MSA-1 MSA-2 MSA-4 CODE KIND VALUE
 *   write-answer ID CODE VALUE  NUMBER PLACE MESSAGE
 *   write-control TYPE VALUE    NUMBER PLACE MESSAGE
 */
#include <stdio.h>
#include <stdlib.h>
#include <string.h>

#include "giamuvich.h"

enum { SB = 0x0B, EB = 0x1C, LINE = 1 << 20, MOST_WORDS = 4 };

/* Bytes of which the caller knows the length. */
typedef struct {
    uint8_t *at;
    size_t length;
} bytes;

static uint64_t reader[GMV_READER_WORDS], reader_limit;
static bytes reader_buffer;

static void stop(const char *why)
{
    fprintf(stderr, "blocks: %s\n", why);
    exit(1);
}

/* Memory of just this length, so that a tool which watches memory sees a byte too much. */
static bytes zeroed(size_t length)
{
    bytes made = {malloc(length > 0 ? length : 1), length};

    if (made.at == NULL)
        stop("no memory");
    memset(made.at, 0xA5, length > 0 ? length : 1);
    return made;
}

static unsigned digit(char c)
{
    const char *digits = "0123456789ABCDEF", *found = strchr(digits, c);

    if (c == '\0' || found == NULL)
        stop("not a hexadecimal digit");
    return (unsigned)(found - digits);
}

static bytes from_digits(const char *word)
{
    size_t length = strcmp(word, "-") == 0 ? 0 : strlen(word);
    bytes made = zeroed(length / 2);

    if (length % 2 != 0)
        stop("half a byte");
    for (size_t i = 0; i < made.length; i++)
        made.at[i] = (uint8_t)(16 * digit(word[2 * i]) + digit(word[2 * i + 1]));
    return made;
}

static void say_bytes(const uint8_t *at, size_t length)
{
    printf(" ");
    if (length == 0)
        printf("-");
    for (size_t i = 0; i < length; i++)
        printf("%02X", (unsigned)at[i]);
}

static uint64_t number_in(const char *word)
{
    return strcmp(word, "-1") == 0 ? GMV_MINUS_ONE : (uint64_t)strtoull(word, NULL, 10);
}

static void say_value(uint64_t value)
{
    if (value == GMV_MINUS_ONE)
        printf(" -1");
    else
        printf(" %llu", (unsigned long long)value);
}

static void say_number(uint64_t number) { printf("%llu", (unsigned long long)number); }

/* ---- blocks */

static void fresh_reader(const char *limit)
{
    reader_limit = number_in(limit);
    free(reader_buffer.at);
    reader_buffer = zeroed((size_t)reader_limit);
    if (gmv_reader_fresh(reader, GMV_READER_WORDS) != GMV_OK)
        stop("no fresh reader");
}

static void read_part(bytes part)
{
    uint64_t verdict[GMV_VERDICT_WORDS];
    size_t from = 0;

    do {
        uint64_t number = gmv_minimal_read(reader_limit, reader, GMV_READER_WORDS, part.at + from,
                                           part.length - from, reader_buffer.at, reader_buffer.length,
                                           verdict, GMV_VERDICT_WORDS);

        if (number != GMV_OK) {
            printf("refused %llu\n", (unsigned long long)number);
            return;
        }
        from += verdict[GMV_VERDICT_USED];
        if (verdict[GMV_VERDICT_FOUND]) {
            say_number(verdict[GMV_VERDICT_OFFSET]);
            say_value(verdict[GMV_VERDICT_NUMBER]);
            say_value(verdict[GMV_VERDICT_FORBIDDEN_OFFSET]);
            say_bytes(reader_buffer.at + verdict[GMV_VERDICT_DATA_OFFSET], verdict[GMV_VERDICT_DATA_LENGTH]);
            printf("\n");
        }
    } while (from < part.length);
}

static void check_block(const char *limit, bytes block)
{
    uint64_t verdict[GMV_VERDICT_WORDS] = {0};

    say_number(gmv_minimal_check(number_in(limit), block.at, block.length, verdict, GMV_VERDICT_WORDS));
    say_value(verdict[GMV_VERDICT_FORBIDDEN_OFFSET]);
    say_bytes(block.at + verdict[GMV_VERDICT_DATA_OFFSET], verdict[GMV_VERDICT_DATA_LENGTH]);
    printf("\n");
}

/* What a writer answered: its number, the place of a forbidden byte, and what it wrote. */
static void say_written(uint64_t number, const uint64_t *report, bytes buffer)
{
    say_number(number);
    say_value(report[GMV_REPORT_FORBIDDEN_OFFSET]);
    say_bytes(buffer.at, report[GMV_REPORT_BLOCK_LENGTH]);
    printf("\n");
}

static void write_minimal(const char *limit, bytes data)
{
    uint64_t report[GMV_REPORT_WORDS] = {0};
    bytes buffer = zeroed(data.length + 3);

    say_written(gmv_minimal_write(number_in(limit), data.at, data.length, buffer.at, buffer.length, 0, report,
                                  GMV_REPORT_WORDS),
                report, buffer);
    free(buffer.at);
}

static void write_hybrid(const char *limit, const char *type, bytes data)
{
    uint64_t report[GMV_REPORT_WORDS] = {0};
    bytes buffer = zeroed(data.length + 15);

    say_written(gmv_hybrid_write(SB, EB, number_in(limit), (uint8_t)type[0], data.at, data.length, buffer.at,
                                 buffer.length, 0, report, GMV_REPORT_WORDS),
                report, buffer);
    free(buffer.at);
}

/* ---- messages */

static void read_header(bytes message)
{
    uint64_t header[GMV_HEADER_WORDS];
    uint64_t number = gmv_header_read(message.at, message.length, header, GMV_HEADER_WORDS);

    say_number(number);
    if (number == GMV_OK) {
        say_bytes(message.at + header[GMV_HEADER_CONTROL_ID_OFFSET], header[GMV_HEADER_CONTROL_ID_LENGTH]);
        say_bytes(message.at + header[GMV_HEADER_SEQUENCE_OFFSET], header[GMV_HEADER_SEQUENCE_LENGTH]);
        say_value(header[GMV_HEADER_SEQUENCE_FIELD]);
        say_value(header[GMV_HEADER_SEQUENCE_NUMBER]);
    }
    printf("\n");
}

static void read_answer(bytes message)
{
    uint64_t answer[GMV_ANSWER_WORDS];
    uint64_t number = gmv_answer_read(message.at, message.length, answer, GMV_ANSWER_WORDS);

    say_number(number);
    if (number == GMV_OK) {
        say_bytes(message.at + answer[GMV_ANSWER_CODE_OFFSET], answer[GMV_ANSWER_CODE_LENGTH]);
        say_bytes(message.at + answer[GMV_ANSWER_CONTROL_ID_OFFSET], answer[GMV_ANSWER_CONTROL_ID_LENGTH]);
        say_bytes(message.at + answer[GMV_ANSWER_EXPECTED_OFFSET], answer[GMV_ANSWER_EXPECTED_LENGTH]);
        say_value(answer[GMV_ANSWER_CODE]);
        say_value(answer[GMV_ANSWER_EXPECTED_FIELD]);
        say_value(answer[GMV_ANSWER_EXPECTED_NUMBER]);
    }
    printf("\n");
}

static void write_answer(bytes id, const char *code, const char *value)
{
    uint64_t report[GMV_REPORT_WORDS] = {0};
    bytes buffer = zeroed(93); /* the longest answer */

    say_written(gmv_answer_write(id.at, id.length, number_in(code), number_in(value), buffer.at, buffer.length,
                                 0, report, GMV_REPORT_WORDS),
                report, buffer);
    free(buffer.at);
}

static void write_control(const char *type, const char *value)
{
    uint64_t report[GMV_REPORT_WORDS] = {0};
    bytes buffer = zeroed(33); /* the longest control message */

    say_written(gmv_control_write((const uint8_t *)type, strlen(type), number_in(value), buffer.at,
                                  buffer.length, 0, report, GMV_REPORT_WORDS),
                report, buffer);
    free(buffer.at);
}

/* ---- commands */

static void answer_command(size_t words, char *const *word)
{
    const char *name = word[0];
    bytes last = {NULL, 0};

    if (words == 2 && strcmp(name, "reader") == 0) {
        fresh_reader(word[1]);
    } else if (words == 3 && strcmp(name, "write-control") == 0) {
        write_control(word[1], word[2]);
    } else if (words == 4 && strcmp(name, "write-answer") == 0) {
        write_answer(last = from_digits(word[1]), word[2], word[3]);
    } else {
        last = from_digits(word[words - 1]);
        if (words == 2 && strcmp(name, "part") == 0)
            read_part(last);
        else if (words == 3 && strcmp(name, "check") == 0)
            check_block(word[1], last);
        else if (words == 3 && strcmp(name, "minimal") == 0)
            write_minimal(word[1], last);
        else if (words == 4 && strcmp(name, "hybrid") == 0)
            write_hybrid(word[1], word[2], last);
        else if (words == 2 && strcmp(name, "header") == 0)
            read_header(last);
        else if (words == 2 && strcmp(name, "answer") == 0)
            read_answer(last);
        else
            stop("no such command");
    }
    free(last.at);
    printf(".\n");
}

int main(void)
{
    static char line[LINE];

    while (fgets(line, sizeof line, stdin) != NULL) {
        char *word[MOST_WORDS];
        size_t words = 0;

        if (strchr(line, '\n') == NULL)
            stop("a line without its end");
        for (char *at = strtok(line, " \n"); at != NULL && words < MOST_WORDS; at = strtok(NULL, " \n"))
            word[words++] = at;
        if (words < 2)
            stop("no command");
        answer_command(words, word);
        fflush(stdout);
    }
    free(reader_buffer.at);
    return 0;
}
