/* Sweeps: what is tried for every length, offset, byte or count, each as a case of tests/cases that is
 * made here. What they expect is worked out here, and not asked of the library. */
#include "harness.h"

#include <stdio.h>
#include <string.h>

enum { LEAST_LIMIT = 128, LARGEST_LIMIT = 99994, LONGEST = 400 };

static const unsigned long largest_sent = 999999999999998;

/* The messages of document 01, as a case writes them. */
#define ANSWER_17 "MSH|^~\\\\&|||||||ACK|17|P|2.3.1\\rMSA|AA|17||17\\r"
#define CONTROL_0 "MSH|^~\\\\&|||||||ADT|0|P|2.3.1|0\\r"
#define CONTROL_MINUS_1 "MSH|^~\\\\&|||||||ADT|-1|P|2.3.1|-1\\r"
enum { ANSWER_17_LENGTH = 44, CONTROL_0_LENGTH = 31, CONTROL_MINUS_1_LENGTH = 33 };

/* ---- blocks */

/* Memory over the need: none of it changes. */
static void reader_leaves_what_is_over(int minimal_link)
{
    static const char zeros[] = " 0 0 0 0 0 0 0 0 0 0 0 0 0 0 0 0 0 0 0";

    for (size_t over = 0; over < 20; over++) {
        const char *words = zeros + 2 * (19 - over);

        if (minimal_link)
            CASE("minimal_read data_limit=7 state=(0 0 0 0%s) part=\"\\x0bA\\r\\x1c\\r\" "
                 "buffer=%zu*\"U\" verdict_words=%zu -> 0 state=(0 0 0 5) buffer=0:\"A\\r\" "
                 "verdict=(1 0 0 0 68 0 2 5)", words, 7 + over, 8 + over);
        else
            CASE("hybrid_read start_block=11 end_block=28 data_limit=7 state=(0 0 0 0%s) "
                 "part=\"\\x0bD23\\rA\\r00007015\\x1c\\r\" buffer=%zu*\"U\" verdict_words=%zu -> 0 "
                 "state=(0 0 0 17) buffer=0:\"D23\\rA\\r00007015\" verdict=(1 0 0 0 68 4 2 17)",
                 words, 19 + over, 8 + over);
    }
}

/* ---- messages */

/* MSH-10 has 1 to 20 bytes. */
static void control_id_lengths(void)
{
    for (size_t id = 0; id <= 25; id++) {
        char message[LONGEST];

        snprintf(message, sizeof message, "\"MSH|||||||||\"%zu*\"x\"\"\\rMSA|AA\\r\"", id);
        if (id < 1 || id > 20) {
            CASE("header_read message=%s -> 9 same", message);
            CASE("answer_read message=%s -> 9 same", message);
        } else {
            CASE("header_read message=%s -> 0 header=(12 %zu %zu 0 0 0)", message, id, 12 + id);
            CASE("answer_read message=%s -> 0 answer=(%zu 2 1 %zu 0 %zu 0 0 0)", message, 17 + id,
                 19 + id, 19 + id);
        }
    }
}

/* Written into a buffer of exactly its length, refused with one byte less, and read back. */
static void answer_fits(const char *id, unsigned code, const char *number)
{
    static const char *const codes[] = {"", "AA", "AE", "AR"};
    const size_t n = strlen(id), digits = strlen(number), length = 38 + 2 * n + digits;
    char message[LONGEST];

    snprintf(message, sizeof message,
             "\"MSH|^~\\\\&|||||||ACK|%s|P|2.3.1\\rMSA|%s|%s||%s\\r\"", id, codes[code], id, number);
    CASE("answer_write control_id=\"%s\" code=%u number=%s buffer_length=%zu start=0 -> 0 "
         "buffer=0:%s report=(%zu 0)", id, code, number, length, message, length);
    CASE("answer_write control_id=\"%s\" code=%u number=%s buffer_length=%zu start=0 -> 2 same", id,
         code, number, length - 1);
    CASE("header_read message=%s -> 0 header=(19 %zu %zu 0 0 0)", message, n, 27 + n);
    CASE("answer_read message=%s -> 0 answer=(%zu 2 %u %zu %zu %zu %zu 2 %s)", message, 32 + n,
         code, 35 + n, n, 37 + 2 * n, digits, number);
}

static void every_answer_fits(void)
{
    static const char *const numbers[] = {
        "1", "9", "10", "17", "99", "100", "4294967295", "4294967296", "99999999999999",
        "100000000000000", "999999999999998", "999999999999999", "-1"};

    for (size_t length = 1; length <= 20; length++)
        for (unsigned code = GMV_CODE_AA; code <= GMV_CODE_AR; code++)
            for (size_t i = 0; i < sizeof numbers / sizeof numbers[0]; i++) {
                char id[21] = "";

                for (size_t k = 0; k < length; k++)
                    id[k] = (char)('A' + random_below(26));
                answer_fits(id, code, numbers[i]);
            }
}

/* Wherever in the buffer the message is put, nothing else of it changes. */
static void at_every_offset(void)
{
    for (size_t start = 0; start < 40; start++)
        for (size_t after = 0; after < 40; after += 13) {
            const size_t size = start + after;

            CASE("answer_write control_id=\"17\" code=1 number=17 buffer_length=%zu start=%zu -> 0 "
                 "buffer=%zu:\"" ANSWER_17 "\" report=(44 0)", size + ANSWER_17_LENGTH, start, start);
            CASE("control_write type=\"ADT\" number=0 buffer_length=%zu start=%zu -> 0 "
                 "buffer=%zu:\"" CONTROL_0 "\" report=(31 0)", size + CONTROL_0_LENGTH, start, start);
            CASE("control_write type=\"ADT\" number=-1 buffer_length=%zu start=%zu -> 0 "
                 "buffer=%zu:\"" CONTROL_MINUS_1 "\" report=(33 0)", size + CONTROL_MINUS_1_LENGTH,
                 start, start);
        }
}

/* A byte of the control ID is 3 if it is not allowed in data, 9 if it would end the field. */
static void control_id_byte(unsigned value, int offset)
{
    char id[32], call[LONGEST];

    snprintf(id, sizeof id, "%.*s\\x%02x%s", offset, "abcde", value, &"abcde"[offset + 1]);
    snprintf(call, sizeof call,
             "answer_write control_id=\"%s\" code=1 number=17 buffer_length=50 start=0", id);
    if (value != '\r' && (value < 0x20 || value > 0x7E))
        CASE("%s -> 3 buffer=same report=(0 %d)", call, offset);
    else if (value == '|' || value == '\r')
        CASE("%s -> 9 buffer=same report=(0 0)", call);
    else
        CASE("%s -> 0 buffer=0:\"MSH|^~\\\\&|||||||ACK|%s|P|2.3.1\\rMSA|AA|%s||17\\r\" report=(50 0)",
             call, id, id);
}

static void control_id_bytes(void)
{
    for (unsigned value = 0; value < 256; value++)
        for (int offset = 0; offset < 5; offset++)
            control_id_byte(value, offset);
}

static void letters_of_types(void)
{
    for (int letter = 'A'; letter <= 'Z'; letter++)
        for (int offset = 0; offset < 3; offset++) {
            char type[] = "ADT";

            type[offset] = (char)letter;
            CASE("control_write type=\"%s\" number=0 buffer_length=31 start=0 -> 0 "
                 "buffer=0:\"MSH|^~\\\\&|||||||%s|0|P|2.3.1|0\\r\" report=(31 0)", type, type);
        }
}

/* ---- fields */

/* Offset, length, what ends it, and the position behind that: of each field of document 01's answer. */
static const size_t fields_of_answer[][4] = {
    {0, 3, 1, 4},    {4, 4, 1, 9},    {9, 0, 1, 10},   {10, 0, 1, 11},  {11, 0, 1, 12},
    {12, 0, 1, 13},  {13, 0, 1, 14},  {14, 0, 1, 15},  {15, 3, 1, 19},  {19, 2, 1, 22},
    {22, 1, 1, 24},  {24, 5, 2, 30},  {30, 3, 1, 34},  {34, 2, 1, 37},  {37, 2, 1, 40},
    {40, 0, 1, 41},  {41, 2, 2, 44}};
enum { FIELDS = sizeof fields_of_answer / sizeof fields_of_answer[0] };

static void field(size_t length, size_t position, const size_t *f)
{
    CASE("field_next message=\"" ANSWER_17 "\"/%zu position=%zu -> 0 field=(1 %zu %zu %zu %zu)",
         length, position, f[0], f[1], f[2], f[3]);
}

static void no_field(size_t length, size_t position)
{
    CASE("field_next message=\"" ANSWER_17 "\"/%zu position=%zu -> 0 field=(0 0 0 0 %zu)", length,
         position, position);
}

/* From a position inside a field, or at its delimiter, the rest of that field. */
static void every_position(void)
{
    size_t position = 0;

    for (size_t i = 0; i < FIELDS; i++)
        for (; position < fields_of_answer[i][3]; position++) {
            const size_t *f = fields_of_answer[i];
            const size_t rest[] = {position, f[0] + f[1] - position, f[2], f[3]};

            field(ANSWER_17_LENGTH, position, rest);
        }
    CHECK(position == ANSWER_17_LENGTH);
}

/* Every beginning of the answer: a field that is not ended yet ends with the message. */
static void every_beginning(void)
{
    for (size_t length = 0; length < ANSWER_17_LENGTH; length++) {
        size_t i = 0, position = 0;

        for (; fields_of_answer[i][3] <= length; position = fields_of_answer[i++][3])
            field(length, position, fields_of_answer[i]);
        if (position < length) {
            const size_t last[] = {position, length - position, GMV_DELIMITER_MESSAGE_END, length};

            field(length, position, last);
        }
        no_field(length, length);
        no_field(length, length + 1);
        no_field(length, SIZE_MAX);
    }
}

/* ---- the receiver */

/* The reply block with this answer, as a case writes it, and its length. */
static size_t reply_of(char *text, settings link, const char *id, const char *code,
                       const char *number)
{
    char answer[LONGEST], trailer[16] = "";
    int length = snprintf(answer, sizeof answer, "MSH|^~\\&|||||||ACK|%s|P|2.3.1\rMSA|%s|%s||%s\r",
                          id, code, id, number);
    unsigned sum = (unsigned)link.start_block ^ 'D' ^ '2' ^ '3' ^ '\r';

    for (int i = 0; i < length; i++)
        sum ^= (unsigned char)answer[i];
    if (!link.minimal)
        snprintf(trailer, sizeof trailer, "%05d%03u", length + 5, sum & 0xFF);
    snprintf(text, LONGEST,
             "\"\\x%02x%sMSH|^~\\\\&|||||||ACK|%s|P|2.3.1\\rMSA|%s|%s||%s\\r%s\\x%02x\\r\"",
             (unsigned)link.start_block, link.minimal ? "" : "D23\\r", id, code, id, number, trailer,
             (unsigned)link.end_block);
    return (size_t)length + overhead_of(link);
}

/* A function of the link's kind, and its settings. */
static void receiver_call(char *text, settings link, const char *name)
{
    if (link.minimal)
        snprintf(text, LONGEST, "minimal_%s data_limit=%lu", name, (unsigned long)link.data_limit);
    else
        snprintf(text, LONGEST, "hybrid_%s start_block=%lu end_block=%lu data_limit=%lu", name,
                 (unsigned long)link.start_block, (unsigned long)link.end_block,
                 (unsigned long)link.data_limit);
}

#define NO_DECISION "0 0 0 0 0 0 0 0"

/* A whole run on one state: every transaction is persisted once, and a retransmission is not. Each is
 * decided on, fails once, and is then reported stored. */
static void run_of_transactions(settings link)
{
    for (unsigned long first = 1; first < 100000; first = 10 * first + 7)
        for (unsigned long n = 0; n < 2 * 12; n++) {
            unsigned long sent = first + n / 2, again = n % 2;
            unsigned long expected = n == 0 ? 0 : sent + again;
            char call[LONGEST], id[24], next[24], reply[LONGEST], open[LONGEST];
            const size_t space = (size_t)link.data_limit + overhead_of(link);
            size_t length;

            snprintf(id, sizeof id, "%lu", sent);
            snprintf(next, sizeof next, "%lu", sent + again);
            receiver_call(call, link, "answer");
            length = reply_of(reply, link, id, again ? "AR" : "AA", next);
            snprintf(open, sizeof open, "%lu %d %s %lu %lu \"%s\"", expected, again ? 3 : 1, next,
                     again ? 0 : sent, sent + 1, id);
            CASE("receiver_decide application=1 block_type=68 "
                 "data=\"MSH|^~\\\\&|||||||ADT|%s|P|2.3.1|%s\\r\" state=(%lu " NO_DECISION ") -> 0 "
                 "state=(%s) report=(0 1 %lu %lu %d)", id, id, expected, open, again ? 0 : sent,
                 sent + 1, again ? 0 : 1);
            CASE("%s stored=0 state=(%s) buffer_length=%zu start=0 -> 0 state=(%lu " NO_DECISION ") "
                 "buffer=same report=(0 0)", call, open, space, expected);
            CASE("%s stored=1 state=(%s) buffer_length=%zu start=0 -> 0 state=(%lu " NO_DECISION ") "
                 "buffer=0:%s report=(%zu 0)", call, open, space, sent + 1, reply, length);
        }
}

static int byte_allowed(uint64_t value)
{
    return value <= 255 && value != 0x0D && !(value >= 0x20 && value <= 0x7E);
}

#define OPEN_17 "17 1 17 17 18 \"17\""

static void start_and_end_bytes(void)
{
    static const char buffer[] = "buffer_length=143 start=0";

    for (uint64_t value = 0; value <= 300; value++)
        for (int end = 0; end < 2; end++) {
            settings link = hybrid(LEAST_LIMIT);
            char answer[LONGEST], nak[LONGEST], reply[LONGEST];
            unsigned sum;

            *(end ? &link.end_block : &link.start_block) = value;
            sum = (unsigned)link.start_block ^ 'N' ^ '2' ^ '3' ^ '\r' ^ 'G';
            receiver_call(answer, link, "answer");
            receiver_call(nak, link, "nak");
            reply_of(reply, link, "17", "AA", "17");
            if (!byte_allowed(value) || link.start_block == link.end_block) {
                CASE("%s stored={0 1} state=(" OPEN_17 ") %s -> 1 same", answer, buffer);
                CASE("%s block_number=9 state=(17 " NO_DECISION ") %s -> 1 same", nak, buffer);
                continue;
            }
            CASE("%s stored=1 state=(" OPEN_17 ") %s -> 0 state=(18 " NO_DECISION ") buffer=0:%s "
                 "report=(59 0)", answer, buffer, reply);
            CASE("%s block_number=9 state=(17 " NO_DECISION ") %s -> 0 state=same "
                 "buffer=0:\"\\x%02xN23\\rG00006%03u\\x%02x\\r\" report=(16 0)", nak, buffer,
                 (unsigned)link.start_block, sum, (unsigned)link.end_block);
        }
}

static void nak_start_offsets(void)
{
    for (size_t start = 0; start < 40; start++)
        CASE("hybrid_nak start_block=11 end_block=28 data_limit=128 block_number=7 "
             "state=(17 " NO_DECISION ") buffer_length=%zu start=%zu -> 0 state=same "
             "buffer=%zu:\"\\x0bN23\\rX00006017\\x1c\\r\" report=(16 0)", start + 143, start, start);
}

/* The need is data_limit + 15 (minimal: + 3) from the start on, whatever is reported or replied. */
static void needs_space_for(settings link, size_t start)
{
    const size_t need = start + (size_t)link.data_limit + overhead_of(link);
    char call[LONGEST], reply[LONGEST];
    size_t length = reply_of(reply, link, "17", "AA", "17");

    receiver_call(call, link, "answer");
    CASE("%s stored={0 1} state=(" OPEN_17 ") buffer_length=%zu start=%zu -> 2 same", call, need - 1,
         start);
    CASE("%s stored=1 state=(" OPEN_17 ") buffer_length=%zu start=%zu -> 0 state=(18 " NO_DECISION ") "
         "buffer=%zu:%s report=(%zu 0)", call, need, start, start, reply, length);
    CASE("%s stored=0 state=(" OPEN_17 ") buffer_length=%zu start=%zu -> 0 state=(17 " NO_DECISION ") "
         "buffer=same report=(0 0)", call, need, start);
    if (link.minimal)
        return;
    receiver_call(call, link, "nak");
    CASE("%s block_number={3..9} state=(17 " NO_DECISION ") buffer_length=%zu start=%zu -> 2 same", call,
         need - 1, start);
    CASE("%s block_number=6 state=(17 " NO_DECISION ") buffer_length=%zu start=%zu -> 0 state=same "
         "buffer=%zu:\"\\x0bN23\\rC00006010\\x1c\\r\" report=(16 0)", call, need, start, start);
}

static void needs_space(settings link)
{
    const uint64_t limits[] = {LEAST_LIMIT, LEAST_LIMIT + 1, 4096, LARGEST_LIMIT};

    for (size_t i = 0; i < sizeof limits / sizeof limits[0]; i++)
        for (size_t start = 0; start < 3; start++) {
            link.data_limit = limits[i];
            needs_space_for(link, start);
        }
}

/* ---- the sender */

/* A forbidden byte at each offset of a message; the first one counts. */
static void submit_forbidden_bytes(void)
{
    static const char message[] = "MSH|^~\\&|||||||ADT|8|P|2.3.1|8\rPID|1";
    static const unsigned forbidden[] = {0, '\n', 0x0B, 0x1C, 0x1F, 0x7F, 0x80, 0xFF};

    for (size_t offset = 0; offset <= strlen(message); offset++) {
        char bytes[LONGEST] = "";
        unsigned bad = forbidden[offset % (sizeof forbidden / sizeof forbidden[0])];

        for (size_t i = 0; i < strlen(message); i++)
            snprintf(bytes + 4 * i, 5, "\\x%02x", i == offset ? bad : (unsigned char)message[i]);
        if (offset == strlen(message))
            snprintf(bytes + 4 * offset, 5, "\\x%02x", bad);
        CASE("sender_submit data_limit=128 message=\"%s%s\" state=(5 5 7 1 0 0 0) -> 3 state=same "
             "report=(0 0 0 0 0 0 0 %zu)", bytes, offset == strlen(message) ? "" : "\\r", offset);
        CASE("sender_submit data_limit=128 message=\"%s%s\" state=(5 5 7 1 0 4 2) -> 3 state=same "
             "report=(0 0 2 0 0 0 0 %zu)", bytes, offset == strlen(message) ? "" : "\\r", offset);
        bytes[4 * strlen(message)] = '\0';
        CASE("sender_submit data_limit=128 message=\"%s\\x00\" state=(5 7 7 1 0 1 0) -> 3 state=same "
             "report=(0 0 0 0 0 0 0 %zu)", bytes, offset);
    }
}

/* What makes a send due: the timer, N blocks, data that is no answer, and each refused block. */
enum { TRIGGERS = 10 };

static void trigger(char *text, size_t which, unsigned resends)
{
    static const char answer[] = "MSH|^~\\\\&|||||||ACK|6|P|2.3.1\\rMSA|AA|6||6\\r";

    if (which == 0)
        snprintf(text, LONGEST, "sender_timer resends=%u", resends);
    else if (which == 3)
        snprintf(text, LONGEST, "sender_block resends=%u block_number=0 block_type=68 "
                 "data=\"MSH|^~\\\\&|||||||ACK|6|P|2.3.1\\r\"", resends);
    else
        snprintf(text, LONGEST, "sender_block resends=%u block_number=%zu block_type=%d data=\"%s\"",
                 resends, which < 3 ? 0 : which - 1, which < 3 ? 'N' : 0, which == 1 ? "X" : answer);
}

/* Sent again until resends + 1 sends were made, and then no more: the circuit ends. The state is given
 * by its words up to waiting, and the send by its kind and number. */
static void resent(const char *persisted, unsigned waiting, const char *send, unsigned resends,
                   size_t which)
{
    const size_t block = which < 3 ? 0 : which == 3 ? GMV_HEAD : which - 1;
    char call[LONGEST];

    trigger(call, which, resends);
    for (unsigned sends = 1; sends <= resends; sends++)
        CASE("%s state=(%s %u %u) -> 0 state=(%s %u %u) report=(%s %u 0 0 0 %zu 0)", call, persisted,
             waiting, sends, persisted, waiting, sends + 1, send, sends + 1, block);
    CASE("%s state=(%s %u %u) -> 0 state=(%s 0 0) report=(0 0 %u 2 0 0 %zu 0)", call, persisted,
         waiting, resends + 1, persisted, resends + 1, block);
}

static void resent_by_all_triggers(unsigned resends)
{
    for (size_t which = 0; which < TRIGGERS; which++) {
        resent("5 4 7 0 0", GMV_WAITING_RESYNCHRONIZE, "1 0", resends, which);
        resent("5 5 7 1 0", GMV_WAITING_QUERY, "2 0", resends, which);
        resent("5 5 7 1 0", GMV_WAITING_TRANSACTION, "3 6", resends, which);
        resent("1 999999999999997 999999999999998 1 0", GMV_WAITING_TRANSACTION, "3 999999999999998",
               resends, which);
    }
}

/* The header's rule: which words are a sender's state. */
static int encodes_state(const unsigned long *w)
{
    int open = w[3] == 1 && w[4] == 0, sent = w[6] >= 1 && w[6] <= 100;

    if (w[0] < 1 || w[0] > largest_sent || w[1] + 1 < w[0] || w[1] == GMV_MINUS_ONE)
        return 0;
    if (w[1] > w[2] || w[2] > largest_sent || w[3] > 1 || w[4] > 1)
        return 0;
    if (w[3] == 0 && w[1] + 1 != w[0])
        return 0;
    switch (w[5]) {
    case GMV_WAITING_CLOSED:
        return w[6] == 0;
    case GMV_WAITING_IDLE:
        return open && w[1] == w[2] && w[6] == 0;
    case GMV_WAITING_RESYNCHRONIZE:
        return w[3] == 0 && w[4] == 0 && sent;
    case GMV_WAITING_QUERY:
        return open && sent;
    case GMV_WAITING_TRANSACTION:
        return open && w[1] < w[2] && sent;
    default:
        return 0;
    }
}

/* Every act is refused with 11; the state is equal, and every word of the report is 0. */
static void no_state(const char *words)
{
    static const char *const acts[] = {
        "sender_submit data_limit=128 message=\"MSH|^~\\\\&|||||||ADT|8|P|2.3.1|8\\rPID|1\\r\"",
        "sender_open", "sender_ended", "sender_reset", "sender_timer resends=3",
        "sender_block resends=3 block_number=0 block_type=68 "
        "data=\"MSH|^~\\\\&|||||||ACK|X1|P|2.3.1\\rMSA|AA|6||6\\r\""};

    for (size_t i = 0; i < sizeof acts / sizeof acts[0]; i++)
        CASE("%s state=(%s) -> 11 state=same report=(0 0 0 0 0 0 0 0)", acts[i], words);
}

/* Words that encode a state: exactly one of opening, ending and resetting applies. */
static void a_state(const char *words, const unsigned long *w)
{
    char refused[LONGEST], after[LONGEST];
    const char *done = w[4] == 1 ? "sender_reset" : w[5] > 0 ? "sender_ended" : "sender_open";
    static const char *const acts[] = {"sender_open", "sender_ended", "sender_reset"};

    snprintf(refused, sizeof refused, "11 state=same report=(0 0 %lu 0 0 0 0 0)", w[6]);
    if (w[4] == 1 || w[5] > 0)
        snprintf(after, sizeof after, "0 state=(%lu %lu %lu %lu 0 0 0) report=(0 0 0 0 0 0 0 0)",
                 w[0], w[1], w[2], w[3]);
    else
        snprintf(after, sizeof after,
                 "0 state=(%lu %lu %lu %lu 0 %lu 1) report=(%lu 0 1 0 0 0 0 0)", w[0], w[1], w[2],
                 w[3], 2 + w[3], 1 + w[3]);
    for (size_t i = 0; i < 3; i++)
        CASE("%s state=(%s) -> %s", acts[i], words, strcmp(acts[i], done) == 0 ? after : refused);
}

/* A state with one word changed, for every word. */
static void changed_words(const unsigned long *from)
{
    const unsigned long values[] = {0, 1, 2, 3, 4, 5, 6, 7, 8, 99, 100, 101, 256, 257, 1ul << 32,
                                    (1ul << 32) + 1, largest_sent, largest_sent + 1,
                                    largest_sent + 2, 1ul << 63, UINT64_MAX - 1, UINT64_MAX};

    for (size_t word = 0; word < GMV_SENDER_WORDS; word++)
        for (size_t i = 0; i < sizeof values / sizeof values[0]; i++) {
            unsigned long w[GMV_SENDER_WORDS];
            char words[LONGEST];

            memcpy(w, from, sizeof w);
            w[word] = values[i];
            snprintf(words, sizeof words, "%lu %lu %lu %lu %lu %lu %lu", w[0], w[1], w[2], w[3], w[4],
                     w[5], w[6]);
            if (encodes_state(w))
                a_state(words, w);
            else
                no_state(words);
        }
}

static void words_of_no_state(void)
{
    const unsigned long last = largest_sent;
    const unsigned long states[][GMV_SENDER_WORDS] = {
        {5, 4, 7, 0, 0, 2, 1}, {5, 5, 7, 1, 0, 3, 100}, {5, 5, 7, 1, 0, 4, 2}, {5, 7, 7, 1, 0, 1, 0},
        {5, 5, 7, 1, 0, 0, 0}, {5, 5, 7, 1, 1, 0, 0},   {5, 4, 4, 0, 0, 0, 0}, {5, 4, 7, 0, 1, 0, 0},
        {1, 0, 1, 1, 0, 4, 1}, {last, last - 1, last, 1, 0, 3, 1}, {1, last, last, 1, 0, 1, 0}};

    for (size_t i = 0; i < sizeof states / sizeof states[0]; i++)
        changed_words(states[i]);
}

/* ---- control blocks */

/* At several offsets, in buffers that are just long enough or longer, and 2 with a byte less. */
static void control_block(const char *call, const char *number, size_t length, const char *block)
{
    const size_t starts[] = {0, 1, 7, 100};

    for (size_t i = 0; i < sizeof starts / sizeof starts[0]; i++) {
        const size_t start = starts[i];

        CASE("%s data_limit={128 4096 99994} type=\"ADT\" number=%s buffer_length=%zu start=%zu -> 0 "
             "buffer=%zu:\"%s\" report=(%zu 0)", call, number, start + length, start, start, block,
             length);
        CASE("%s data_limit={128 4096 99994} type=\"ADT\" number=%s buffer_length=%zu start=%zu "
             "report_words=3 -> 0 buffer=%zu:\"%s\" report=(%zu 0)", call, number,
             start + length + 3, start, start, block, length);
        CASE("%s data_limit={128 4096 99994} type=\"ADT\" number=%s buffer_length=%zu start=%zu "
             "report_words=3 -> 2 same", call, number, start + length - 1, start);
    }
}

static void control_blocks(void)
{
    static const char call[] = "hybrid_control_block start_block=11 end_block=28";

    control_block(call, "0", 46, "\\x0bD23\\r" CONTROL_0 "00036115\\x1c\\r");
    control_block(call, "-1", 48, "\\x0bD23\\r" CONTROL_MINUS_1 "00038115\\x1c\\r");
    control_block("minimal_control_block", "0", 34, "\\x0b" CONTROL_0 "\\x1c\\r");
    control_block("minimal_control_block", "-1", 36, "\\x0b" CONTROL_MINUS_1 "\\x1c\\r");
}

/* ---- the station */

/* Forty blocks: after 7 comes 0, and after 0 comes 1. */
static void numbers_go_round(void)
{
    CASE("station_open state=(0 0 0 0 0) -> 0 state=(1 1 0 0 0) report=(0 0 0 0)");
    for (int block = 1; block <= 40; block++)
        CASE("station_block number=%d ending=23 text=\"A\" buffer=%d*\"A\"%d*\"U\" "
             "state=(1 %d %d %d 0) -> 0 buffer=%d:\"A\" state=(1 %d %d 1 0) report=(1 %d 0 0)", block % 8,
             block - 1, 41 - block, block % 8, block - 1, block > 1, block - 1, (block + 1) % 8, block,
             block % 8);
    CASE("station_block number=1 ending=3 text=\"\" buffer=40*\"A\" state=(1 1 40 1 0) -> 0 buffer=same "
         "state=(1 2 0 1 0) report=(1 1 1 40)");
}

/* A message in each block, so that the numbers go round while no text is held. */
static void messages_go_round(void)
{
    CASE("station_open state=(0 0 0 0 0) -> 0 state=(1 1 0 0 0) report=(0 0 0 0)");
    for (int block = 1; block <= 24; block++) {
        char before[8] = "UU";

        if (block > 1)
            snprintf(before, sizeof before, "%cz", '@' + block - 1);
        CASE("station_block number=%d ending=3 text=\"%cz\" buffer=\"%sU\" state=(1 %d 0 %d 0) -> 0 "
             "buffer=0:\"%cz\" state=(1 %d 0 1 0) report=(1 %d 1 2)", block % 8, '@' + block, before,
             block % 8, block > 1, '@' + block, (block + 1) % 8, block % 8);
    }
}

/* A text behind the text held: appended where it fits, and else EOT. The buffer is given as it is. */
static void text_fits(unsigned ending, size_t space, size_t held, size_t length, const char *buffer)
{
    static const char text[] = "ABCDEFGHIJKLMNO";
    const size_t all = held + length;
    char call[LONGEST];

    snprintf(call, sizeof call,
             "station_block number=4 ending=%u text=\"%.*s\" buffer=\"%s\" state=(1 4 %zu {1 2} 0)", ending,
             (int)length, text, buffer, held);
    if (all > space)
        CASE("%s -> 0 buffer=same state=(0 0 0 0 0) report=(3 0 0 0)", call);
    else if (ending == GMV_ETX)
        CASE("%s -> 0 buffer=%zu:\"%.*s\" state=(1 5 0 1 0) report=(1 4 1 %zu)", call, held, (int)length,
             text, all);
    else
        CASE("%s -> 0 buffer=%zu:\"%.*s\" state=(1 5 %zu 1 0) report=(1 4 0 0)", call, held, (int)length,
             text, all);
}

/* Each buffer of up to 12 bytes and each length held: just fits, one byte less, one and two more. */
static void exact_fits(unsigned ending)
{
    for (size_t space = 0; space <= 12; space++)
        for (size_t held = 0; held <= space; held++) {
            char buffer[16] = "UUUUUUUUUUUU";
            const size_t left = space - held;

            buffer[space] = '\0';
            text_fits(ending, space, held, left, buffer);
            memcpy(buffer + held, "ABCDEFGHIJKL", left);
            if (left > 0)
                text_fits(ending, space, held, left - 1, buffer);
            text_fits(ending, space, held, left + 1, buffer);
            text_fits(ending, space, held, left + 2, buffer);
        }
}

/* ---- the tests */

static void message_sweeps(void)
{
    begin_test("hybrid: reader: memory over the need does not change");
    reader_leaves_what_is_over(0);
    begin_test("minimal: reader: memory over the need does not change");
    reader_leaves_what_is_over(1);
    begin_test("messages: control IDs of 0 to 25 bytes");
    control_id_lengths();
    begin_test("answer writer: every length fits exactly, is 2 with a byte less, and reads back");
    every_answer_fits();
    begin_test("messages: at every offset, nothing else of the buffer changes");
    at_every_offset();
    begin_test("answer writer: every byte in a control ID");
    control_id_bytes();
    begin_test("control writer: every capital letter in a type");
    letters_of_types();
    begin_test("fields: every position in document 01's answer");
    every_position();
    begin_test("fields: every beginning of document 01's answer");
    every_beginning();
}

static void receiver_sweeps(void)
{
    begin_test("hybrid receiver: a run of transactions, each sent twice and failed once");
    run_of_transactions(hybrid(LEAST_LIMIT));
    begin_test("minimal receiver: a run of transactions, each sent twice and failed once");
    run_of_transactions(minimal(LEAST_LIMIT));
    begin_test("hybrid receiver: 1 for start and end bytes");
    start_and_end_bytes();
    begin_test("hybrid receiver: N replies at every offset");
    nak_start_offsets();
    begin_test("hybrid receiver: 2 with one byte less than the need");
    needs_space(hybrid(LEAST_LIMIT));
    begin_test("minimal receiver: 2 with one byte less than the need");
    needs_space(minimal(LEAST_LIMIT));
}

static void sender_sweeps(void)
{
    begin_test("submit: 3 with the offset of the first forbidden byte");
    submit_forbidden_bytes();
    begin_test("retransmission: 0 resends");
    resent_by_all_triggers(0);
    begin_test("retransmission: 1 resend");
    resent_by_all_triggers(1);
    begin_test("retransmission: 3 resends, the default");
    CHECK(GMV_RESENDS_DEFAULT == 3);
    resent_by_all_triggers(GMV_RESENDS_DEFAULT);
    begin_test("retransmission: 99 resends");
    resent_by_all_triggers(99);
    begin_test("sender: 11 for words that encode no state, word by word");
    words_of_no_state();
    begin_test("control blocks: 46, 48, 34 and 36 bytes, at several offsets");
    control_blocks();
}

void test_sweeps(void)
{
    message_sweeps();
    receiver_sweeps();
    sender_sweeps();
    begin_test("station: after 7 comes 0, over 40 blocks of one message");
    numbers_go_round();
    begin_test("station: after 7 comes 0, over 24 messages");
    messages_go_round();
    begin_test("station: ETB, a text that just fits and one byte more");
    exact_fits(GMV_ETB);
    begin_test("station: ETX, a text that just fits and one byte more");
    exact_fits(GMV_ETX);
}
