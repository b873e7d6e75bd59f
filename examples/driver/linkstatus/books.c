#include "books.h"

#include <stdlib.h>
#include <string.h>

#include "common.h"

/* Every sentence on the books, as in status.c. */
#define R_BOOKS_DIFFER "THE BOOKS DIFFER"
#define R_NOT_COMPARED "%s could not be compared"
#define R_FILES_UNREADABLE "log/ or transactions/ cannot be read"

#define BOOKS "books: first number %llu, delivered up to %llu, submitted up to %llu; expected %llu, stored %llu\n"
#define AGREE "books: they agree: the first %llu of the log are stored, each once, in order, byte for byte\n"
#define AGREE_FROM "books: they agree from number %llu on, byte for byte; what is before it was purged\n"
#define DIFFER "books: THEY DIFFER\n"
#define NOT_STORED "books: %s marked delivered and not stored\n"
#define WRONG_MESSAGE "books: position %llu is not number %llu of the log; %s\n"
#define OUTSIDE "books: number %llu of the log is at position %llu, before those that the expected number counts\n"
#define MORE "books: and %s more like this\n"
#define TOO_FEW "books: the expected number says that %llu are stored, and there are %llu\n"
#define SINCE "books: the expected number says that %llu are stored, and since the last -1 there are %llu\n"
#define WRONG_EXPECTED "books: the expected number says that %llu are stored, and the mark covers %llu\n"
#define NOT_SUBMITTED "books: the expected number says that %llu are stored, and %llu were submitted\n"
#define BEYOND "books: there is a file at position %llu\n"
#define NOT_COMPARED "books: %s could not be compared: it lacks in log/ or in transactions/\n"
#define GREATEST "books: the greatest number of the log that is stored is %llu; missing below it: %s\n"
#define NOTHING_STORED "books: no message of the log is stored\n"

enum { MESSAGE_LENGTH = 100000 /* more than any block has */, NUMBERS = 512, MOST_LINES = 10 };

/* A file of transactions/: its position, the number in its MSH-13 (0: none), and whether it is the log's message
 * of that number; -1 where the log has none. */
typedef struct {
    uint64_t position, number;
    int same;
} message;

/* A growing list of numbers. */
typedef struct {
    uint64_t *numbers;
    size_t count, room;
} list;

typedef struct {
    FILE *out;
    const pair *pair;
    message *messages; /* by position */
    size_t count;
    uint64_t last;          /* the last position that was stored: a crash's leftover beyond it was not */
    list stored, logged;    /* the log's numbers that some position has, and all of them, in order */
    uint64_t claimed;       /* how many the expected number says are stored */
    uint64_t base, counted; /* and where they are: at the positions base + 1 to base + counted */
    uint64_t compared, purged, lacking; /* of these: equal; not there, before any that is; not there, after it */
    uint64_t wrong, wrong_messages, outside;
} comparison;

static uint64_t first_of(const comparison *books)
{
    return books->pair->before.words[GMV_SENDER_FIRST];
}

/* How many numbers a sender's mark covers. */
static uint64_t covered(const sender_record *record)
{
    return record->words[GMV_SENDER_DELIVERED] + 1 - record->words[GMV_SENDER_FIRST];
}

static uint64_t submitted(const sender_record *record)
{
    return record->words[GMV_SENDER_LAST] + 1 - record->words[GMV_SENDER_FIRST];
}

/* ---- lists */

static void add_to(void *to, uint64_t number)
{
    list *grows = to;

    if (grows->count == grows->room) {
        grows->room = grows->room == 0 ? 1024 : 2 * grows->room;
        grows->numbers = realloc(grows->numbers, grows->room * sizeof *grows->numbers);
        if (grows->numbers == NULL)
            fail("no memory");
    }
    grows->numbers[grows->count++] = number;
}

static int by_number(const void *one, const void *other)
{
    const uint64_t a = *(const uint64_t *)one, b = *(const uint64_t *)other;

    return a < b ? -1 : a > b;
}

static void sort(list *list)
{
    if (list->count != 0)
        qsort(list->numbers, list->count, sizeof *list->numbers, by_number);
}

/* The place of the first one that is not less. */
static size_t index_of(const list *list, uint64_t number)
{
    size_t low = 0, high = list->count;

    while (low < high) {
        const size_t middle = low + (high - low) / 2;

        if (list->numbers[middle] < number)
            low = middle + 1;
        else
            high = middle;
    }
    return low;
}

static int has(const list *list, uint64_t number)
{
    const size_t index = index_of(list, number);

    return index < list->count && list->numbers[index] == number;
}

/* ---- the files, each read once */

static ssize_t read_numbered(const char *folder, const char *format, uint64_t number, uint8_t *bytes)
{
    char path[PATH_LENGTH], name[64];

    snprintf(name, sizeof name, format, (unsigned long long)number);
    path_of(path, folder, name);
    return read_file(path, bytes, MESSAGE_LENGTH);
}

static uint64_t number_in(const uint8_t *bytes, size_t length)
{
    uint64_t header[GMV_HEADER_WORDS];

    if (gmv_header_read(bytes, length, header, GMV_HEADER_WORDS) != GMV_OK ||
        header[GMV_HEADER_SEQUENCE_FIELD] != GMV_FIELD_NUMBER ||
        header[GMV_HEADER_SEQUENCE_NUMBER] == GMV_MINUS_ONE)
        return 0;
    return header[GMV_HEADER_SEQUENCE_NUMBER];
}

/* Returns 0 where the file is not there any more. */
static int look_at(comparison *books, uint64_t position, message *found, uint8_t *bytes, uint8_t *logged)
{
    const ssize_t length = read_numbered(books->pair->receiver, "transactions/%015llu.hl7", position, bytes);
    ssize_t logged_length;

    if (length < 0)
        return 0;
    found->position = position;
    found->number = number_in(bytes, (size_t)length);
    logged_length = read_numbered(books->pair->sender, "log/%llu.hl7", found->number, logged);
    if (logged_length < 0)
        found->same = found->number == 0 ? 0 : -1;
    else
        found->same = length == logged_length && memcmp(bytes, logged, (size_t)length) == 0;
    if (found->same == 1 && position <= books->last)
        add_to(&books->stored, found->number);
    return 1;
}

/* Returns 0, or -1 where a folder cannot be read. */
static int collect(comparison *books)
{
    list positions = {NULL, 0, 0};
    uint8_t *bytes = allocate(MESSAGE_LENGTH), *logged = allocate(MESSAGE_LENGTH);
    char path[PATH_LENGTH];
    int read;

    path_of(path, books->pair->receiver, "transactions");
    read = for_each_number(path, add_to, &positions);
    path_of(path, books->pair->sender, "log");
    read = for_each_number(path, add_to, &books->logged) != 0 ? -1 : read;
    sort(&positions);
    sort(&books->logged);
    books->messages = allocate((positions.count + 1) * sizeof *books->messages);
    for (size_t i = 0; i < positions.count; i++)
        books->count += (size_t)look_at(books, positions.numbers[i], &books->messages[books->count], bytes, logged);
    sort(&books->stored);
    free(positions.numbers);
    free(bytes);
    free(logged);
    return read;
}

static void give_back(comparison *books)
{
    free(books->messages);
    free(books->stored.numbers);
    free(books->logged.numbers);
}

static int has_position(const comparison *books, uint64_t position)
{
    size_t low = 0, high = books->count;

    while (low < high) {
        const size_t middle = low + (high - low) / 2;

        if (books->messages[middle].position < position)
            low = middle + 1;
        else
            high = middle;
    }
    return low < books->count && books->messages[low].position == position;
}

/* ---- what may differ */

static void add_range(char *numbers, uint64_t from, uint64_t to)
{
    const size_t length = strlen(numbers);

    if (length + 64 >= NUMBERS) {
        if (strstr(numbers, "and more") == NULL)
            strcat(numbers, " and more");
        return;
    }
    snprintf(numbers + length, NUMBERS - length, from == to ? "%s%llu" : "%s%llu to %llu",
             length == 0 ? "" : ", ", (unsigned long long)from, (unsigned long long)to);
}

/* How many were stored since the last -1 that took an expected number away: no earlier one is this tenancy's. */
static uint64_t stored_since(const receiver_record *record)
{
    return record->stored < record->cleared_after ? 0 : record->stored - record->cleared_after;
}

/* The number just before the expected one is at the last position, and so on back to the last -1. Where the
 * position of a number is among these and has no file, the file was purged. */
static int is_purged(const comparison *books, uint64_t number)
{
    const receiver_record *record = &books->pair->record;
    const uint64_t back = record->words[GMV_RECEIVER_EXPECTED] - number;

    return number < record->words[GMV_RECEIVER_EXPECTED] && back <= stored_since(record) &&
           !has_position(books, record->stored + 1 - back);
}

/* The log's numbers within these bounds that no position has, as ranges. */
static void list_missing(const comparison *books, uint64_t from, uint64_t to, int with_purged, char *numbers)
{
    uint64_t begin = 0, last = 0;

    numbers[0] = '\0';
    for (size_t i = index_of(&books->logged, from); i < books->logged.count && books->logged.numbers[i] <= to; i++) {
        const uint64_t number = books->logged.numbers[i];
        const int missing = !has(&books->stored, number) && (with_purged || !is_purged(books, number));

        if (begin != 0 && (!missing || number != last + 1)) {
            add_range(numbers, begin, last);
            begin = 0;
        }
        if (missing && begin == 0)
            begin = number;
        last = number;
    }
    if (begin != 0)
        add_range(numbers, begin, last);
}

/* What the mark covers and no position has: results that somebody believes delivered. */
static void compare_delivered(comparison *books)
{
    char numbers[NUMBERS];

    list_missing(books, first_of(books), books->pair->before.words[GMV_SENDER_DELIVERED], 0, numbers);
    if (numbers[0] == '\0')
        return;
    books->wrong++;
    fprintf(books->out, NOT_STORED, numbers);
}

static void say_wrong_message(comparison *books, const message *found, uint64_t number)
{
    char words[128];

    books->wrong++;
    if (++books->wrong_messages > MOST_LINES)
        return;
    if (found->number == 0)
        strcpy(words, "it has no number");
    else
        snprintf(words, sizeof words,
                 found->same == 1 ? "it is number %llu of it" : "it is another message, with number %llu",
                 (unsigned long long)found->number);
    fprintf(books->out, WRONG_MESSAGE, (unsigned long long)found->position, (unsigned long long)number, words);
}

static void note_lacking(comparison *books, uint64_t count)
{
    if (books->compared == 0)
        books->purged += count;
    else
        books->lacking += count;
}

/* The transactions that the expected number counts to this tenancy, each against the log. */
static void compare_messages(comparison *books)
{
    const uint64_t end = books->base + books->counted;
    uint64_t next = books->base + 1;

    for (size_t i = 0; i < books->count && books->messages[i].position <= end; i++) {
        const message *found = &books->messages[i];
        const uint64_t number = first_of(books) + found->position - books->base - 1;

        if (found->position < next)
            continue;
        note_lacking(books, found->position - next);
        next = found->position + 1;
        if (found->number == number && found->same != 0)
            found->same == 1 ? (void)books->compared++ : note_lacking(books, 1);
        else
            say_wrong_message(books, found, number);
    }
    note_lacking(books, end + 1 - next);
}

/* Before this tenancy's transactions there are none of its log. */
static void compare_earlier(comparison *books)
{
    for (size_t i = 0; i < books->count && books->messages[i].position <= books->base; i++) {
        const message *found = &books->messages[i];

        if (found->same != 1 || found->number < first_of(books))
            continue;
        books->wrong++;
        if (++books->outside <= MOST_LINES)
            fprintf(books->out, OUTSIDE, (unsigned long long)found->number, (unsigned long long)found->position);
    }
}

static void say_more(const comparison *books, uint64_t count)
{
    char words[COUNTED];

    if (count > MOST_LINES)
        fprintf(books->out, MORE, counted(words, count - MOST_LINES, "position", "positions"));
}

static void say_numbers(comparison *books, const char *format, uint64_t other)
{
    books->wrong++;
    fprintf(books->out, format, (unsigned long long)books->claimed, (unsigned long long)other);
}

/* The numbers alone. Where drivers run, the sender's mark may have moved while the receiver was looked at. */
static void compare_numbers(comparison *books)
{
    const pair *pair = books->pair;
    const int resynchronized = pair->before.words[GMV_SENDER_RESYNCHRONIZED] == 1;
    const int unknown = books->claimed == 0 && pair->record.words[GMV_RECEIVER_EXPECTED] != 0 && resynchronized;

    if (books->claimed > pair->record.stored)
        say_numbers(books, TOO_FEW, pair->record.stored);
    else if (pair->record.cleared != 0 && resynchronized && books->claimed != stored_since(&pair->record))
        say_numbers(books, SINCE, stored_since(&pair->record));
    if (books->claimed > submitted(&pair->after))
        say_numbers(books, NOT_SUBMITTED, submitted(&pair->after));
    else if (books->claimed < covered(&pair->before) || books->claimed > covered(&pair->after) + 1 || unknown)
        say_numbers(books, WRONG_EXPECTED, covered(&pair->before));
}

/* Which positions are this tenancy's, by the expected number. An end that is not resynchronized yet has none. */
static void find_range(comparison *books)
{
    const uint64_t expected = books->pair->record.words[GMV_RECEIVER_EXPECTED];
    const uint64_t stored = books->pair->record.stored;

    if (expected > first_of(books) && books->pair->before.words[GMV_SENDER_RESYNCHRONIZED] == 1)
        books->claimed = expected - first_of(books);
    books->counted = books->claimed < stored ? books->claimed : stored;
    books->base = stored - books->counted;
}

static void compare_count(comparison *books)
{
    if (books->pair->greatest <= books->pair->record.stored + 1)
        return;
    books->wrong++;
    fprintf(books->out, BEYOND, (unsigned long long)books->pair->greatest);
}

/* From what a link goes on whose books differ. */
static void say_greatest(const comparison *books)
{
    const list *stored = &books->stored;
    const uint64_t greatest = stored->count == 0 ? 0 : stored->numbers[stored->count - 1];
    char numbers[NUMBERS];

    if (greatest == 0) {
        fprintf(books->out, NOTHING_STORED);
        return;
    }
    list_missing(books, 0, greatest, 1, numbers);
    fprintf(books->out, GREATEST, (unsigned long long)greatest, or_nothing(numbers, "none"));
}

static void conclude(comparison *books, verdict *verdict)
{
    const int holes = books->lacking != 0 || (books->purged != 0 && books->compared == 0);
    char words[COUNTED];

    if (books->wrong != 0) {
        say_greatest(books);
        fprintf(books->out, DIFFER);
        add_reason(verdict, CRITICAL, R_BOOKS_DIFFER);
    } else if (holes) {
        counted(words, books->lacking + books->purged, "transaction", "transactions");
        fprintf(books->out, NOT_COMPARED, words);
        add_reason(verdict, WARNING, R_NOT_COMPARED, words);
    } else if (books->purged != 0) {
        fprintf(books->out, AGREE_FROM, (unsigned long long)(first_of(books) + books->purged));
    } else {
        fprintf(books->out, AGREE, (unsigned long long)books->counted);
    }
}

static comparison comparison_of(FILE *out, const pair *pair)
{
    comparison books;

    memset(&books, 0, sizeof books);
    books.out = out;
    books.pair = pair;
    books.last = UINT64_MAX; /* where the state is not known */
    return books;
}

int compare_books(FILE *out, const pair *pair, verdict *verdict)
{
    comparison books = comparison_of(out, pair);

    books.last = pair->greatest > pair->record.stored + 1 ? pair->greatest : pair->record.stored;
    fprintf(out, BOOKS, (unsigned long long)pair->before.words[GMV_SENDER_FIRST],
            (unsigned long long)pair->before.words[GMV_SENDER_DELIVERED],
            (unsigned long long)pair->before.words[GMV_SENDER_LAST],
            (unsigned long long)pair->record.words[GMV_RECEIVER_EXPECTED],
            (unsigned long long)pair->record.stored);
    if (collect(&books) != 0) {
        add_reason(verdict, UNKNOWN, R_FILES_UNREADABLE);
    } else {
        find_range(&books);
        compare_delivered(&books);
        compare_numbers(&books);
        compare_messages(&books);
        say_more(&books, books.wrong_messages);
        compare_earlier(&books);
        say_more(&books, books.outside);
        compare_count(&books);
        conclude(&books, verdict);
    }
    give_back(&books);
    return books.wrong != 0;
}

void compare_files(FILE *out, const pair *pair, verdict *verdict)
{
    comparison books = comparison_of(out, pair);

    if (collect(&books) != 0)
        add_reason(verdict, UNKNOWN, R_FILES_UNREADABLE);
    else
        say_greatest(&books);
    give_back(&books);
}
