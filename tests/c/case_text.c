#include "case_text.h"

#include "harness.h"

#include <ctype.h>
#include <string.h>

enum { WORD = sizeof(uint64_t), TEXT_WORDS = 3, CHOICES = 32, RANGES = 256 };

case_line line = {"", 0, "", 0};

void fault(const char *what)
{
    check_fact(0, what, line.file, line.number);
}

void no_case(const char *what)
{
    if (!line.malformed)
        fault(what);
    line.malformed = 1;
    line.rest = "";
}

static int is_next(char byte)
{
    return *line.rest == byte && !line.malformed;
}

int skips(const char *text)
{
    int there = strncmp(line.rest, text, strlen(text)) == 0;

    line.rest += there ? strlen(text) : 0;
    return there;
}

void expect_text(const char *text)
{
    if (!skips(text))
        no_case(text);
}

/* ---- choices */

static size_t chosen[CHOICES], choices_of[CHOICES], choice_count;

void first_combination(void)
{
    memset(chosen, 0, sizeof chosen);
}

void read_again(void)
{
    choice_count = 0;
}

size_t choices_read(void)
{
    return choice_count;
}

int next_combination(void)
{
    for (size_t i = choice_count; i-- > 0;) {
        if (++chosen[i] < choices_of[i])
            return 1;
        chosen[i] = 0;
    }
    return 0;
}

/* Which of so many alternatives this call takes. */
static size_t choose(size_t count)
{
    if (choice_count == CHOICES || count == 0) {
        no_case("a choice of nothing, or too many choices");
        return 0;
    }
    choices_of[choice_count] = count;
    return chosen[choice_count++];
}

/* ---- numbers */

static int digit_is_next(void)
{
    return isdigit((unsigned char)*line.rest);
}

uint64_t plain_number(void)
{
    int minus = skips("-"), zero = *line.rest == '0';
    uint64_t value = 0;

    if (!digit_is_next() || (zero && isdigit((unsigned char)line.rest[1])))
        no_case("no number");
    while (digit_is_next()) {
        uint64_t digit = (uint64_t)(*line.rest++ - '0');

        if (value > (UINT64_MAX - digit) / 10)
            no_case("a number over 2^64 - 1");
        value = 10 * value + digit;
    }
    return minus ? 0 - value : value; /* -1 is 2^64 - 1 */
}

/* {1 2 5..9}: one of these. */
static uint64_t one_number(void)
{
    uint64_t count = 0, firsts[RANGES], counts[RANGES], which;
    size_t ranges = 0;

    do {
        firsts[ranges] = plain_number();
        counts[ranges] = skips("..") ? plain_number() - firsts[ranges] + 1 : 1;
        count += counts[ranges++];
    } while (skips(" ") && ranges < RANGES && count < LARGEST_MEMORY);
    expect_text("}");
    which = choose((size_t)count);
    for (size_t i = 0; i < ranges; i++) {
        if (which < counts[i])
            return firsts[i] + which;
        which -= counts[i];
    }
    return 0;
}

uint64_t number_value(void)
{
    return skips("{") ? one_number() : plain_number();
}

/* ---- bytes */

/* The bytes of a value, as far as they are read. */
typedef struct {
    uint8_t *bytes;
    size_t size;
} text;

static void add(text *t, const uint8_t *bytes, size_t size, uint64_t times)
{
    if (times > LARGEST_MEMORY || size * times > LARGEST_MEMORY - t->size) {
        no_case("too many bytes");
        return;
    }
    for (; times > 0; times--, t->size += size)
        memcpy(t->bytes + t->size, bytes, size);
}

static uint8_t hex_digits(void)
{
    static const char digits[] = "0123456789abcdef";
    unsigned value = 0;

    for (int i = 0; i < 2 && !line.malformed; i++) {
        const char *digit = *line.rest ? strchr(digits, *line.rest) : NULL;

        if (!digit)
            no_case("no hex digit");
        else
            value = 16 * value + (unsigned)(digit - digits);
        line.rest += digit != NULL;
    }
    return (uint8_t)value;
}

/* One byte of a quoted text. */
static uint8_t quoted_byte(void)
{
    if (skips("\\r"))
        return '\r';
    if (skips("\\n"))
        return '\n';
    if (skips("\\\""))
        return '"';
    if (skips("\\\\"))
        return '\\';
    if (skips("\\x"))
        return hex_digits();
    if (*line.rest == '\\' || *line.rest < 0x20 || *line.rest > 0x7E) {
        no_case("no byte of a text");
        return 0;
    }
    return (uint8_t)*line.rest++;
}

/* "..", perhaps after a count and *, perhaps before / and how many bytes of it are meant. */
static void quoted(text *t)
{
    static uint8_t bytes[LONGEST_LINE];
    uint64_t times = 1, size = 0, first;

    if (digit_is_next()) {
        times = plain_number();
        expect_text("*");
    }
    expect_text("\"");
    while (!is_next('"') && !line.malformed)
        bytes[size++] = quoted_byte();
    expect_text("\"");
    first = skips("/") ? number_value() : size;
    if (first > size)
        no_case("more bytes than there are");
    add(t, bytes, (size_t)(first < size ? first : size), times);
}

/* {"..." "..."}: one of these. */
static void one_text(text *t)
{
    static uint8_t others[LARGEST_MEMORY];
    const size_t index = choice_count, which = choose(1); /* the count is known at the end */
    size_t count = 0;

    do {
        text other = {others, 0};

        do
            quoted(count == which ? t : &other);
        while (!is_next(' ') && !is_next('}') && !line.malformed);
        count++;
    } while (skips(" "));
    expect_text("}");
    if (!line.malformed)
        choices_of[index] = count;
}

/* [00..1f 7f]: one byte, one of these. */
static void one_byte(text *t)
{
    uint8_t bytes[256];
    size_t count = 0;

    do {
        unsigned first = hex_digits(), last = skips("..") ? hex_digits() : first;

        for (; first <= last && count < sizeof bytes; first++)
            bytes[count++] = (uint8_t)first;
    } while (skips(" "));
    expect_text("]");
    add(t, &bytes[choose(count)], 1, 1);
}

/* ---- words */

static void add_word(text *t, uint64_t word)
{
    uint8_t bytes[WORD];

    memcpy(bytes, &word, WORD);
    add(t, bytes, WORD, 1);
}

/* A text among words: its length, and its bytes in three words, of which the first is the lowest. */
static void add_text_words(text *t)
{
    static uint8_t bytes[LARGEST_MEMORY];
    text quoted_text = {bytes, 0};

    quoted(&quoted_text);
    if (quoted_text.size > TEXT_WORDS * WORD)
        no_case("too long a text among words");
    add_word(t, quoted_text.size);
    for (size_t i = 0; i < TEXT_WORDS && !line.malformed; i++) {
        uint64_t word = 0;

        for (size_t at = 0; at < WORD && i * WORD + at < quoted_text.size; at++)
            word |= (uint64_t)bytes[i * WORD + at] << 8 * at;
        add_word(t, word);
    }
}

size_t words_value(uint8_t *bytes)
{
    text t = {bytes, 0};

    expect_text("(");
    while (!is_next(')') && !line.malformed) {
        if (is_next('"'))
            add_text_words(&t);
        else
            add_word(&t, number_value());
        if (!skips(" ") && !is_next(')'))
            no_case("no word");
    }
    expect_text(")");
    return line.malformed ? 0 : t.size;
}

/* ---- values of bytes */

size_t bytes_value(uint8_t *bytes)
{
    text t = {bytes, 0};

    do {
        if (skips("{"))
            one_text(&t);
        else if (skips("["))
            one_byte(&t);
        else
            quoted(&t);
    } while (*line.rest != ' ' && *line.rest != '\0');
    return t.size;
}
