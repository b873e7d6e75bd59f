/* The whole way: a request's header, its answer, a block of it, the stream, the answer read; and the
 * sender's control messages through a block. */
#include "harness.h"

#include <string.h>

enum { WORD = sizeof(uint64_t), LEAST_LIMIT = 128 };

/* A text and its length, which leaves out C's closing zero byte. */
#define TEXT(text) text, sizeof text - 1

#define CONTROL_0 "MSH|^~\\&|||||||ADT|0|P|2.3.1|0\r"
#define CONTROL_MINUS_1 "MSH|^~\\&|||||||ADT|-1|P|2.3.1|-1\r"

static const char *const codes[] = {NULL, "AA", "AE", "AR"};
static const uint64_t numbers[] = {1, 9, 10, 17, 99, 100, 4294967295, 4294967296,
                                   99999999999999, 100000000000000, 999999999999998,
                                   999999999999999, GMV_MINUS_ONE};
enum { NUMBERS = sizeof numbers / sizeof numbers[0] };

/* ---- requests and answers */

/* The answer, in the reader's buffer, has the request's control ID, the code and the number. */
static void answers_the_request(const guarded *request, const uint64_t *header, uint64_t code,
                                uint64_t number, const uint8_t *data, size_t length)
{
    uint64_t own[GMV_HEADER_WORDS] = {0}, answer[GMV_ANSWER_WORDS] = {0};
    const uint8_t *id = request->at + header[GMV_HEADER_CONTROL_ID_OFFSET];
    size_t id_length = header[GMV_HEADER_CONTROL_ID_LENGTH];

    CHECK(gmv_header_read(data, length, own, GMV_HEADER_WORDS) == GMV_OK);
    CHECK(own[GMV_HEADER_CONTROL_ID_LENGTH] == id_length);
    CHECK(memcmp(data + own[GMV_HEADER_CONTROL_ID_OFFSET], id, id_length) == 0);
    CHECK(own[GMV_HEADER_SEQUENCE_FIELD] == GMV_FIELD_MISSING);
    CHECK(gmv_answer_read(data, length, answer, GMV_ANSWER_WORDS) == GMV_OK);
    CHECK(answer[GMV_ANSWER_CODE] == code);
    CHECK(memcmp(data + answer[GMV_ANSWER_CODE_OFFSET], codes[code], 2) == 0);
    CHECK(answer[GMV_ANSWER_CONTROL_ID_LENGTH] == id_length);
    CHECK(memcmp(data + answer[GMV_ANSWER_CONTROL_ID_OFFSET], id, id_length) == 0);
    CHECK(answer[GMV_ANSWER_EXPECTED_FIELD] == GMV_FIELD_NUMBER);
    CHECK(answer[GMV_ANSWER_EXPECTED_NUMBER] == number);
}

static void block_answers(settings link, const guarded *block, const guarded *request,
                          const uint64_t *header, uint64_t code, uint64_t number)
{
    const size_t sizes[] = {block->size, 1, 7, 0};

    for (size_t i = 0; i < sizeof sizes / sizeof sizes[0]; i++) {
        guarded buffer;
        listing list = read_stream(link, block->at, block->size, sizes[i], &buffer);
        const uint64_t *verdict = list.words[0];

        CHECK(list.count == 1 && verdict[GMV_VERDICT_NUMBER] == GMV_OK);
        CHECK(verdict[GMV_VERDICT_TYPE] == GMV_DATA_BLOCK);
        answers_the_request(request, header, code, number,
                            buffer.at + verdict[GMV_VERDICT_DATA_OFFSET],
                            verdict[GMV_VERDICT_DATA_LENGTH]);
        give_back(&buffer);
    }
}

/* The answer is written from the control ID as it lies in the request. */
static void trip(settings link, const char *message, size_t length, uint64_t code, uint64_t number)
{
    uint64_t header[GMV_HEADER_WORDS] = {0};
    uint8_t answer[LEAST_LIMIT];
    guarded request = guard_copy(message, length);
    guarded report = guard(GMV_REPORT_WORDS * WORD, 0);
    guarded content, block;
    size_t answer_length;

    CHECK(gmv_header_read(request.at, request.size, header, GMV_HEADER_WORDS) == GMV_OK);
    CHECK(gmv_answer_write(request.at + header[GMV_HEADER_CONTROL_ID_OFFSET],
                           header[GMV_HEADER_CONTROL_ID_LENGTH], code, number, answer,
                           sizeof answer, 0, words_of(&report), word_count(&report)) == GMV_OK);
    answer_length = words_of(&report)[GMV_REPORT_MESSAGE_LENGTH];
    content = guard_copy(answer, answer_length);
    block = guard(answer_length + overhead_of(link), 0x55);
    CHECK(write_block(link, GMV_DATA_BLOCK, &content, &block, 0, &report) == GMV_OK);
    give_back(&content);
    give_back(&report);
    block_answers(link, &block, &request, header, code, number);
    CHECK(unchanged(&request));
    give_back(&block);
    give_back(&request);
}

static void trips(settings link)
{
    for (uint64_t code = GMV_CODE_AA; code <= GMV_CODE_AR; code++)
        for (size_t i = 0; i < NUMBERS; i++) {
            trip(link, TEXT("MSH|^~\\&|LAB|X|ADM||1999010112||ADT|17|P|2.3.1|17\rPID|1\r"), code,
                 numbers[i]);
            trip(link, TEXT("MSH|||||||||ABCDEFGHIJ-0123456 ~\r"), code, numbers[i]);
            trip(link, TEXT(CONTROL_0), code, numbers[i]);
            trip(link, TEXT(CONTROL_MINUS_1), code, numbers[i]);
        }
}

/* ---- control messages */

/* Of the sender's own control message, read from the stream, the header is this; with words more than
 * needed, which do not change, and with too few. */
static void header_is(const uint8_t *message, size_t length, const uint64_t *expected)
{
    for (size_t words = 0; words < GMV_HEADER_WORDS + 4; words++) {
        guarded found = guard(words * WORD, 0xEE);
        int enough = words >= GMV_HEADER_WORDS;

        CHECK(gmv_header_read(message, length, words_of(&found), words) ==
              (enough ? GMV_OK : GMV_TOO_SHORT));
        CHECK(!enough || memcmp(found.at, expected, GMV_HEADER_WORDS * WORD) == 0);
        CHECK(same_from(&found, enough ? GMV_HEADER_WORDS * WORD : 0));
        give_back(&found);
    }
}

static void control_trip(settings link, uint64_t number, size_t length, const uint64_t *expected)
{
    guarded message = guard(length, 0x55), block = guard(length + overhead_of(link), 0x55);
    guarded report = guard(GMV_REPORT_WORDS * WORD, 0xEE), buffer, data;
    const uint8_t *type = (const uint8_t *)"ADT";
    listing list;

    CHECK(gmv_control_write(type, 3, number, message.at, message.size, 0, words_of(&report),
                            word_count(&report)) == GMV_OK);
    CHECK(write_block(link, GMV_DATA_BLOCK, &message, &block, 0, &report) == GMV_OK);
    give_back(&message);
    give_back(&report);
    list = read_stream(link, block.at, block.size, 0, &buffer);
    CHECK(list.count == 1 && list.words[0][GMV_VERDICT_NUMBER] == GMV_OK);
    data = guard_copy(buffer.at + list.words[0][GMV_VERDICT_DATA_OFFSET],
                      list.words[0][GMV_VERDICT_DATA_LENGTH]);
    header_is(data.at, data.size, expected);
    give_back(&data);
    give_back(&buffer);
    give_back(&block);
}

static void control_trips(settings link)
{
    static const uint64_t header_0[] = {19, 1, 29, 1, GMV_FIELD_NUMBER, 0};
    static const uint64_t header_minus_1[] = {19, 2, 30, 2, GMV_FIELD_NUMBER, GMV_MINUS_ONE};

    control_trip(link, 0, sizeof CONTROL_0 - 1, header_0);
    control_trip(link, GMV_MINUS_ONE, sizeof CONTROL_MINUS_1 - 1, header_minus_1);
}

void test_message_trips(void)
{
    begin_test("hybrid: from a request to its answer, read from the stream");
    trips(hybrid(LEAST_LIMIT));
    begin_test("minimal: from a request to its answer, read from the stream");
    trips(minimal(LEAST_LIMIT));
    begin_test("control messages through a hybrid and a minimal block");
    control_trips(hybrid(LEAST_LIMIT));
    control_trips(minimal(LEAST_LIMIT));
}
