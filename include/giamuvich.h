/* giamuvich.h: HL7 lower layer blocks, the header fields of their messages, the two ends of a link
 * with sequence numbers, and the two X3.28 stations, for a C line driver.
 *
 * The parts, each built on those before it but for the stations, which stand by themselves:
 *   - Blocks. Hybrid blocks (HL7 implementation guide, appendix C.2.2) and minimal blocks (C.4.2,
 *     the framing that is known as MLLP, release 1) are read from a line in parts of any length,
 *     checked whole, and written.
 *   - Messages. Of the messages in the blocks the header fields are read that sequence numbers need,
 *     a message is read field by field, and answers and control messages are written.
 *   - The receiver of sequence numbers. It decides what to persist of each block. Once that is reported
 *     stored, and not before, it writes the answer block. It has messages stored that carry a sequence
 *     number (MSH-13), and rejects the others.
 *   - The sender of sequence numbers. It says what to send now, counts the sends, and says which
 *     transactions are delivered. The messages stay in the host's log.
 *   - The X3.28 receiving station (appendix C.3.1.5 and C.3.3.2). It says what to reply to each
 *     block, and appends the blocks' texts to messages.
 *   - The X3.28 sending station, the master (appendix C.3.1.4 to C.3.3). It divides messages into
 *     blocks, says what to send now, and which messages are done. The messages stay with the driver.
 *
 * Every function is proved to return the one answer that its definition gives, for every input, and
 * to change no memory but what is said here. Nothing is allocated, nothing is kept between calls, and
 * nothing blocks. Of words that are written only the first so many change, as the function says, and
 * never those behind them. Lines, timers and storage are the caller's: an end of a link is told what
 * happened, and its report says what to do.
 *
 * What the caller answers for, and nothing else. HOST-1 and so on are labels of docs/HOST.md, which
 * has each duty with its reason:
 *   HOST-1  each pointer has memory of the length that is passed with it (a length of 0 may come with
 *           any pointer, also a null pointer),
 *   HOST-2  memory that a function may change overlaps nothing else that is passed in the same call,
 *   HOST-3  a pointer to words is aligned for uint64_t,
 *   HOST-4  input is initialised. A state is input: its words are what an earlier call left in them.
 *           Memory that a function only writes need not be initialised: a verdict, a report, fields,
 *           the buffer of a writer, a reply, a station or a fresh reader, and the state at a .._fresh
 *           function, at gmv_station_open and at gmv_master_open. No answer depends on what it held,
 *           and what is not written stays as it was,
 *   HOST-5  no other thread changes the memory during the call,
 *   and for the receiver, the sender and the stations, the duties in their sections.
 *
 * Settings are plain numbers and are checked in every call that takes them:
 *   start_block, end_block  the bytes SB and EB of a hybrid link; 0B and 1C where nothing else is
 *                           agreed (GMV_START_BLOCK_DEFAULT, GMV_END_BLOCK_DEFAULT). They differ,
 *                           each is at most 255, and neither is CR (0D) or lies in 20 to 7E. Minimal
 *                           links have 0B and 1C, fixed.
 *   data_limit              the most data bytes that a block may have, 1 to 99994; for a receiver or
 *                           a sender 128 to 99994. Both ends of a link have the same.
 *   resends                 how often a sender sends a message again, 0 to 99; GMV_RESENDS_DEFAULT
 *                           where nothing else is agreed.
 *
 * Every function but gmv_version returns a number of the table below; 0 says that the call was done.
 * A check returns the number of the block that it was given, 0 or 3 to 8. A read returns 0 also where
 * the block that it found is refused: that block's number is verdict[GMV_VERDICT_NUMBER]. So does a
 * sender that is told of a refused block, and so do a receiver's decision and a sender that find data
 * without a header (9): its number is in their report.
 *
 * Look at every number (HOST-6 says what to do by each). 1 and 2 say that the driver called wrongly,
 * and 11 that words encode no state, so that a stored word is bad: stop the link. But a sender also
 * answers 11 to an act that does not apply now, and that is ordinary: to a submission while it is
 * frozen, and to a timer or a block while no circuit is open, so to the next block after it gave up or
 * froze. So does a receiver, to a decision and to an N reply while a decision is open. So does a master,
 * to an act of its driver that does not apply now: an EOT of the slave may have come before. So does a
 * station that is asked for a RINT, where one is pending, none may follow the last one yet, or it has
 * closed.
 *
 * A call that is refused by 1 or 2 changes nothing: a verdict, a report or fields still hold what an
 * earlier call left there. So it is with the 11 of a reader, a receiver, a station and a master, and with
 * the 9 of a function that reads a message. Every other refusal writes the verdict or the report anew: a
 * check's 3 to 8, a writer's 3, 4, 5, 9 and 10, and a sender's 11, 4, 3, 9 and 10. Look at them only
 * after a call that wrote them (HOST-7).
 *
 * Refusals come in the order 1, 2, 11, and then those of the block: reading 8, 4, 5, 3, 6, 7;
 * writing 4, 5, 3. Minimal reading has 8, 4, 5, 3 only, and 5 there means only EB without CR. For
 * messages: reading 2, 9 (gmv_field_next: 2 only); writing 1, 2, 3, 9, 10. A receiver (its 9 is in a
 * report), a station and a master have 1, 2, 11 only, and so has a sender but for gmv_sender_submit: 1,
 * 2, 11, 4, 3, 9, 10.
 */
#ifndef GIAMUVICH_H
#define GIAMUVICH_H

#include <stddef.h>
#include <stdint.h>

#ifdef __cplusplus
extern "C" {
#endif

/* A length, an offset and a word are all 64 bits wide. */
typedef char gmv_size_is_64_bits[sizeof(size_t) == 8 ? 1 : -1];

/* The version of this header, MAJOR.MINOR.PATCH: its parts, as text, and as one number that grows
 * with it. A change of what a function takes or answers raises the first part. */
#define GMV_VERSION_MAJOR 3
#define GMV_VERSION_MINOR 0
#define GMV_VERSION_PATCH 0
#define GMV_VERSION "3.0.0"
#define GMV_VERSION_NUMBER \
    (GMV_VERSION_MAJOR * UINT64_C(1000000) + GMV_VERSION_MINOR * UINT64_C(1000) + GMV_VERSION_PATCH)

/* The version of the archive that is linked, in the form of GMV_VERSION_NUMBER. Compare the two when
 * the program starts (HOST-50): where they differ, this header is not the archive's. What it returns
 * is no number of the table below. */
uint64_t gmv_version(void);

/* The numbers. */
enum {
    GMV_OK = 0,          /* done; of a block: accepted */
    GMV_SETTING = 1,     /* a setting, or a code that stands for one of a few things, is outside its range */
    GMV_TOO_SHORT = 2,   /* lent memory is shorter than the stated need */
    GMV_BYTE = 3,        /* a data byte, or a byte of a control ID, is not allowed */
    GMV_LONG = 4,        /* over data_limit + 12 bytes between SB and EB (minimal: data_limit); at a
                            writer and at gmv_sender_submit: data over data_limit */
    GMV_SHAPE = 5,       /* under 12 bytes, wrong type, version or CR, wrong NAK data, EB without CR;
                            at a writer: wrong type or NAK data; at a check also: not exactly one block */
    GMV_COUNT = 6,       /* the five digits are not 5 plus the data's length */
    GMV_CHECK = 7,       /* the three digits are neither 999 nor the checksum */
    GMV_INTERRUPTED = 8, /* SB came inside the block */
    GMV_HEAD = 9,        /* no readable header, control ID or, in an answer, MSA segment; at a writer of
                            answers: a control ID that cannot stand in a field */
    GMV_NUMBER = 10,     /* at a writer of answers: 0, or a number over 999999999999999; at
                            gmv_sender_submit: not the next sequence number, a control ID that is not
                            this number, or no number is left */
    GMV_STATE = 11       /* a reader's words encode no state, or the stream's offsets are used up; a
                            receiver's, a sender's, a station's or a master's words encode no state; a
                            receiver's act does not apply now (a decision is open, or none is), or a
                            sender's (no circuit is open, or one is, or frozen, or not frozen), or a
                            master's (it is closed, a block is out, or none is,
                            or no RINT came), or a station's (gmv_station_interrupt) */
};

/* SB and EB of a hybrid link, where nothing else is agreed. A minimal link has these, fixed. */
enum { GMV_START_BLOCK_DEFAULT = 0x0B, GMV_END_BLOCK_DEFAULT = 0x1C };

/* Block types: the byte after SB of a hybrid block. A minimal block counts as a data block. */
enum { GMV_DATA_BLOCK = 'D', GMV_NAK_BLOCK = 'N' };

/* The words of a verdict. */
enum {
    /* 1: the words below speak of a block; 0: no block ended in this call, and the words below but
       GMV_VERDICT_USED are 0. A check always leaves 1. */
    GMV_VERDICT_FOUND = 0,
    /* where the block's SB stood in the stream, counted from 0 at the fresh state; for a check 0 */
    GMV_VERDICT_OFFSET = 1,
    /* the block's number: 0 accepted, or 3 to 8 */
    GMV_VERDICT_NUMBER = 2,
    /* with number 3 the offset of the first forbidden byte in the data, else 0 */
    GMV_VERDICT_FORBIDDEN_OFFSET = 3,
    /* 'D' or 'N' if accepted, else 0 */
    GMV_VERDICT_TYPE = 4,
    /* if accepted, where the data begins, in the lent buffer or for a check in the bytes checked;
       else 0 */
    GMV_VERDICT_DATA_OFFSET = 5,
    /* if accepted, how many data bytes there are, else 0 */
    GMV_VERDICT_DATA_LENGTH = 6,
    /* how many bytes of the part were read; for a check the length that was passed */
    GMV_VERDICT_USED = 7,
    GMV_VERDICT_WORDS = 8
};

/* The words of a reader's state. Keep them from call to call; they need not survive a crash. */
enum {
    GMV_READER_PHASE = 0,        /* 0 between blocks, 1 inside a block, 2 after a block's EB */
    GMV_READER_BODY_LENGTH = 1,  /* bytes of the current block since SB; it stops at one more than the
                                    buffer holds of a block (a larger one, which no reading leaves,
                                    stays as it is, and the block is too long) */
    GMV_READER_BLOCK_OFFSET = 2, /* offset of the current block's SB in the stream. Between blocks
                                    this word and the one before are 0 after a verdict, stay as they
                                    are until the next SB, and count for nothing */
    GMV_READER_POSITION = 3,     /* bytes of the stream read so far */
    GMV_READER_WORDS = 4
};

/* The words of a writer's report. */
enum {
    GMV_REPORT_BLOCK_LENGTH = 0,     /* the bytes written, 0 if refused */
    GMV_REPORT_FORBIDDEN_OFFSET = 1, /* with 3 the offset of the first forbidden byte, else 0 */
    GMV_REPORT_WORDS = 2
};

/* A fresh reader: between blocks, offset 0. Serves hybrid and minimal streams.
 * Returns 0, or 2 (state_words below GMV_READER_WORDS) with nothing changed. Words from
 * GMV_READER_WORDS on are not changed. */
uint64_t gmv_reader_fresh(uint64_t *state, size_t state_words);

/* Reads a part of a stream: up to the first byte that brings a verdict, or all of it.
 *
 * Pass the same settings, and lend the same buffer, unaltered, in every call of one stream (HOST-9);
 * begin each new circuit with a fresh reader (HOST-12). The buffer has at least data_limit + 12 bytes
 * (minimal: data_limit). It holds the bytes of the current block between SB and EB, as many as fit in
 * that; no other byte of it changes. An accepted block's data is the part of the buffer from
 * verdict[GMV_VERDICT_DATA_OFFSET] on, verdict[GMV_VERDICT_DATA_LENGTH] bytes long, until the next
 * call (HOST-11).
 *
 * Where verdict[GMV_VERDICT_USED] is less than part_length, a verdict was found: call again with the
 * rest of the part (HOST-10). verdict[GMV_VERDICT_FOUND] may also be 1 when all of the part was used.
 *
 * Returns 0, and state, buffer and verdict are as said; or 1, 2 or 11 with nothing changed. 2: the
 * state has under GMV_READER_WORDS words, the verdict under GMV_VERDICT_WORDS, or the buffer is too
 * short. 11: state[GMV_READER_PHASE] is over 2, or state[GMV_READER_POSITION] + part_length is over
 * 2^64 - 1. Every other content of the words is taken as it is and answered by the same rules. */
uint64_t gmv_hybrid_read(uint64_t start_block, uint64_t end_block, uint64_t data_limit,
                         uint64_t *state, size_t state_words,
                         const uint8_t *part, size_t part_length,
                         uint8_t *buffer, size_t buffer_length,
                         uint64_t *verdict, size_t verdict_words);
uint64_t gmv_minimal_read(uint64_t data_limit,
                          uint64_t *state, size_t state_words,
                          const uint8_t *part, size_t part_length,
                          uint8_t *buffer, size_t buffer_length,
                          uint64_t *verdict, size_t verdict_words);

/* Checks one whole block that lies in memory. The answer is the stream's where the bytes begin with
 * SB and give exactly one verdict, at their last byte; otherwise 5.
 *
 * Returns the verdict's number, 0 or 3 to 8, with the verdict's words written; or 1, or 2
 * (verdict_words below GMV_VERDICT_WORDS), with nothing changed. */
uint64_t gmv_hybrid_check(uint64_t start_block, uint64_t end_block, uint64_t data_limit,
                          const uint8_t *block, size_t length,
                          uint64_t *verdict, size_t verdict_words);
uint64_t gmv_minimal_check(uint64_t data_limit,
                           const uint8_t *block, size_t length,
                           uint64_t *verdict, size_t verdict_words);

/* Writes one block into the buffer from offset start on: content_length + 15 bytes (minimal: + 3).
 * The bytes before start and after the block do not change.
 *
 * type is 'D' with 0 to data_limit data bytes, or 'N' with one data byte, C, X, B or G. A minimal
 * block has no type, and its writer never answers 5.
 *
 * Returns 0 with report[GMV_REPORT_BLOCK_LENGTH] the block's length; 3, 4 or 5 with the buffer
 * unchanged and the report written; or 1 or 2 with nothing changed. 2: the report has under
 * GMV_REPORT_WORDS words, or the buffer from start on has under content_length + 15 (minimal: + 3)
 * bytes. */
uint64_t gmv_hybrid_write(uint64_t start_block, uint64_t end_block, uint64_t data_limit,
                          uint64_t type, const uint8_t *content, size_t content_length,
                          uint8_t *buffer, size_t buffer_length, size_t start,
                          uint64_t *report, size_t report_words);
uint64_t gmv_minimal_write(uint64_t data_limit,
                           const uint8_t *content, size_t content_length,
                           uint8_t *buffer, size_t buffer_length, size_t start,
                           uint64_t *report, size_t report_words);

/* ---- Header fields of a message. Fields are parts of the message: an offset and a length. ---- */

/* -1 as a sequence number. */
#define GMV_MINUS_ONE UINT64_MAX

/* What a field that should hold a number holds. */
enum {
    GMV_FIELD_MISSING = 0,    /* the field is missing or empty */
    GMV_FIELD_NOT_NUMBER = 1, /* it is neither -1 nor 1 to 15 digits within its bound */
    GMV_FIELD_NUMBER = 2      /* a number, or -1 (GMV_MINUS_ONE) */
};

/* Acknowledgment codes. */
enum {
    GMV_CODE_OTHER = 0,
    GMV_CODE_AA = 1, /* application accept */
    GMV_CODE_AE = 2, /* application error */
    GMV_CODE_AR = 3  /* application reject */
};

/* The words of a message's header. */
enum {
    GMV_HEADER_CONTROL_ID_OFFSET = 0, /* MSH-10 */
    GMV_HEADER_CONTROL_ID_LENGTH = 1, /* 1 to 20 */
    GMV_HEADER_SEQUENCE_OFFSET = 2,   /* MSH-13, the sequence number */
    GMV_HEADER_SEQUENCE_LENGTH = 3,   /* 0 where it is missing or empty */
    GMV_HEADER_SEQUENCE_FIELD = 4,    /* GMV_FIELD_.. ; the bound is 999999999999998 */
    GMV_HEADER_SEQUENCE_NUMBER = 5,   /* the number, or GMV_MINUS_ONE; 0 where it is none */
    GMV_HEADER_WORDS = 6
};

/* The words of an answer (MSA segment). */
enum {
    GMV_ANSWER_CODE_OFFSET = 0,       /* MSA-1, the acknowledgment code */
    GMV_ANSWER_CODE_LENGTH = 1,
    GMV_ANSWER_CODE = 2,              /* GMV_CODE_.. */
    GMV_ANSWER_CONTROL_ID_OFFSET = 3, /* MSA-2, of any length */
    GMV_ANSWER_CONTROL_ID_LENGTH = 4,
    GMV_ANSWER_EXPECTED_OFFSET = 5,   /* MSA-4, the expected sequence number */
    GMV_ANSWER_EXPECTED_LENGTH = 6,
    GMV_ANSWER_EXPECTED_FIELD = 7,    /* GMV_FIELD_.. ; the bound is 999999999999999 */
    GMV_ANSWER_EXPECTED_NUMBER = 8,   /* the number, or GMV_MINUS_ONE; 0 where it is none */
    GMV_ANSWER_WORDS = 9
};

/* What ended a field. */
enum {
    GMV_DELIMITER_NONE = 0,        /* there is no field */
    GMV_DELIMITER_SEPARATOR = 1,   /* a bar; the next field, if any, is of the same segment */
    GMV_DELIMITER_SEGMENT_END = 2, /* CR; the next field, if any, begins a segment */
    GMV_DELIMITER_MESSAGE_END = 3  /* the message's end, and no byte */
};

/* The words of the next field. */
enum {
    GMV_NEXT_FOUND = 0,     /* 1: there is a field; 0: position is at or behind the message's end, and
                               the words below but GMV_NEXT_POSITION are 0 */
    GMV_NEXT_OFFSET = 1,    /* where the field begins */
    GMV_NEXT_LENGTH = 2,    /* its bytes, 0 for an empty field */
    GMV_NEXT_DELIMITER = 3, /* GMV_DELIMITER_.. */
    GMV_NEXT_POSITION = 4,  /* the position to pass for the field after it; without a field the
                               position that was passed */
    GMV_NEXT_WORDS = 5
};

/* The words of a message writer's report (the same places as a block writer's). */
enum { GMV_REPORT_MESSAGE_LENGTH = 0 /* the bytes written, 0 if refused */ };

/* Reads MSH-10 and MSH-13 of a message. The message begins "MSH|" and its first segment ends in CR;
 * MSH-10 follows the ninth bar and MSH-13 the twelfth, each up to the next bar or the CR. A field
 * that is missing has length 0, and its offset is that of the segment's CR.
 *
 * Returns 0 with the words written; or, in this order and with nothing changed, 2 (header_words below
 * GMV_HEADER_WORDS) or 9. Every byte is taken as it is, also one that no block could hold. */
uint64_t gmv_header_read(const uint8_t *message, size_t message_length,
                         uint64_t *header, size_t header_words);

/* Reads MSA-1, MSA-2 and MSA-4 of an answer: a message whose header can be read (as above, MSH-10
 * included) and whose second segment begins "MSA|" and ends in CR. What follows is not looked at. A
 * field that is missing has length 0, and its offset is that of the MSA segment's CR.
 *
 * Returns 0 with the words written; or, in this order and with nothing changed, 2 (answer_words below
 * GMV_ANSWER_WORDS) or 9. */
uint64_t gmv_answer_read(const uint8_t *message, size_t message_length,
                         uint64_t *answer, size_t answer_words);

/* Gives the next field of a message, from a position on: the bytes up to the next bar, CR or the
 * message's end. Begin with position 0, which gives "MSH" of a message, and pass
 * GMV_NEXT_POSITION each time. It goes from segment to segment. A bar or CR right at the position ends
 * an empty field; a message that ends in a bar or CR has no further field behind it. Any position is
 * taken: inside a field it gives the rest of it. No byte is refused.
 *
 * Returns 0 with the words written, or 2 (field_words below GMV_NEXT_WORDS) with nothing changed.
 * Words from GMV_NEXT_WORDS on are not changed. */
uint64_t gmv_field_next(const uint8_t *message, size_t message_length, size_t position,
                        uint64_t *field, size_t field_words);

/* Writes the answer to a request with this control ID into the buffer from offset start on:
 *     MSH|^~\&|||||||ACK|ID|P|2.3.1<CR>MSA|CODE|ID||NUMBER<CR>
 * 38 bytes, twice the control ID and the number's digits (-1 has two). Nothing else of the buffer
 * changes. code is GMV_CODE_AA, GMV_CODE_AE or GMV_CODE_AR; number is GMV_MINUS_ONE or 1 to
 * 999999999999999.
 *
 * Returns 0 with the report written; or, in this order:
 *   1  code is none of the three; nothing changed
 *   2  the report has under GMV_REPORT_WORDS words, or the buffer from start on is shorter than the
 *      answer would be (for a number that is too large: with all its digits); nothing changed
 *   3  a byte of the control ID is not allowed in data; the report has length 0 and the offset of the
 *      first such byte in the control ID; the buffer is unchanged
 *   9  the control ID has under 1 or over 20 bytes, or a bar or CR in it; report 0, 0; buffer unchanged
 *   10 the number is 0 or over 999999999999999; report 0, 0; buffer unchanged */
uint64_t gmv_answer_write(const uint8_t *control_id, size_t control_id_length,
                          uint64_t code, uint64_t number,
                          uint8_t *buffer, size_t buffer_length, size_t start,
                          uint64_t *report, size_t report_words);

/* Writes the sender's control message for 0 or -1 into the buffer from offset start on:
 *     MSH|^~\&|||||||TYPE|0|P|2.3.1|0<CR>      (31 bytes; for -1 both fields read -1, 33 bytes)
 * type is three capital letters A to Z.
 *
 * Returns 0 with the report written; or, in this order and with nothing changed, 1 (type is not three
 * capital letters, or number is neither 0 nor GMV_MINUS_ONE) or 2 (the report has under
 * GMV_REPORT_WORDS words, or the buffer from start on is too short). */
uint64_t gmv_control_write(const uint8_t *type, size_t type_length, uint64_t number,
                           uint8_t *buffer, size_t buffer_length, size_t start,
                           uint64_t *report, size_t report_words);

/* ---- The two ends of a link ----
 *
 * A line carries the blocks of one sender and the replies of one receiver. It may lose and damage
 * them. The sender's blocks come in their order and none twice (HOST-30); replies may come in any
 * order, and again, while their circuit lasts. A circuit is one connection of the line. A tenancy is
 * one sender with its log, from gmv_sender_fresh on, over as many circuits as it takes. Persisted is
 * what a crash and a power cut leave (HOST-34).
 *
 * The driver's duties at both ends, besides memory. They are needed so that each transaction is stored
 * once and in order: docs/LINK.md has the theorem. Each is said here in short; docs/HOST.md has it
 * whole, with its reason.
 *   HOST-13  both ends have the same settings of blocks, and pass the same ones in every call,
 *   HOST-27  a new circuit, and either end after a crash, finds the line empty in both directions: what
 *            is still unread of an old connection is dropped (a plain serial device does not keep this,
 *            HOST-29),
 *   HOST-28  a TCP connection that is ended is reset (SO_LINGER, 0 seconds),
 *   HOST-12  at each new circuit the reader starts afresh (gmv_reader_fresh),
 *   HOST-31  replies not yet sent, sends not yet written and blocks not yet acted on are dropped with
 *            their circuit, and by a crash,
 *   HOST-35  storing that fails: a receiver's driver reports it (HOST-63), and the circuit goes on. A
 *            sender's call has changed the state in memory: its driver drops every send not yet written,
 *            and goes on from what is persisted; the circuit is over then,
 *   HOST-36  what is found at a start, the log too, is made durable before anything rests on it,
 *   HOST-39  each tenant begins with a new sender (gmv_sender_fresh) and a log of its own. */

/* ---- The receiver of sequence numbers ----
 *
 * Four steps for each block that was accepted: decide (gmv_receiver_decide), store what its report
 * says, report it stored or not (gmv_hybrid_answer, gmv_minimal_answer), send what that wrote. No
 * function gives an answer before its decision is reported stored. A block that was refused, by its
 * reader or by a decision (9), is answered by gmv_hybrid_nak; on a minimal link it is dropped.
 *
 * The driver's duties besides those of both ends:
 *   HOST-15, HOST-16  the transaction and the expected number of a decision (GMV_DECISION_EXPECTED, not
 *            the state's word, which is the old one until the report) are persisted, as one act and
 *            once, before it is reported stored; and the answer goes out as the report wrote it,
 *   HOST-62  a report is of the decision that is open: a crash, and a restart from what is persisted,
 *            end every report that is still under way,
 *   HOST-63  a decision is reported failed only where nothing of it was persisted and nothing will be.
 *            A driver that cannot tell reports nothing: when no write of it can land any more, it starts
 *            again from what is persisted,
 *   HOST-17  one decision at a time: every block that comes while one is open is refused by 11,
 *   HOST-18  blocks are offered in the order in which they were read; one that was refused by 11 is
 *            offered again first and on its own circuit, or dropped. One whose decision failed is
 *            dropped: the sender sends it again,
 *   HOST-64  a tenancy begins with no decision open: one that is still open is not persisted for the
 *            next tenant,
 *   HOST-2   the reply buffer is not the reader's buffer: the data of the block lies in that until it is
 *            persisted. */

/* The words of a receiver's state. The first is what is persisted, and after a crash it is restored; the
 * others are lost then, and are 0. While a decision is open the first word is still the old one: between
 * storing and report it is behind what is persisted, and is never written there. */
enum {
    GMV_RECEIVER_EXPECTED = 0, /* 0: none; else the expected sequence number, 1 to 999999999999999 */
    GMV_RECEIVER_PERSISTED_WORDS = 1,
    /* the open decision: the code of its answer (GMV_CODE_AA, _AE or _AR); 0: none is open, and the
       words below count for nothing */
    GMV_RECEIVER_CODE = 1,
    GMV_RECEIVER_NUMBER = 2,            /* the number of its answer (MSA-4); 0: -1 */
    GMV_RECEIVER_TRANSACTION = 3,       /* the number of its transaction; 0: none */
    GMV_RECEIVER_NEW_EXPECTED = 4,      /* what GMV_RECEIVER_EXPECTED is once it is reported stored */
    GMV_RECEIVER_CONTROL_ID_LENGTH = 5, /* the control ID that it answers, 1 to 20 bytes, .. */
    GMV_RECEIVER_CONTROL_ID = 6,        /* .. in three words, eight bytes in each, the first one lowest,
                                           and 0 behind them */
    GMV_RECEIVER_WORDS = 9
};

/* The words of a decision's report. */
enum {
    GMV_DECISION_BLOCK = 0,       /* the block's number: 0, or 9 */
    GMV_DECISION_OPENED = 1,      /* 1: a decision is open now, and is to be reported; 0: none is, as the
                                     block was dropped (an N block) or refused (9). Then the words below
                                     are 0, the state's first word and 0: nothing is to be persisted */
    GMV_DECISION_TRANSACTION = 2, /* the number of the transaction to persist with the expected number
                                     (its message is the block's data as it came: HOST-19); 0: none */
    GMV_DECISION_EXPECTED = 3,    /* the expected number to persist as GMV_RECEIVER_EXPECTED; 0: none */
    GMV_DECISION_CHANGES = 4,     /* 1: it differs from what is persisted; 0: there is nothing to persist */
    GMV_DECISION_WORDS = 5
};

/* Whether what a decision says is persisted. */
enum { GMV_NOT_STORED = 0, GMV_STORED = 1 };

/* The state before anything was received: no number expected, no decision open.
 * Returns 0, or 2 (state_words below GMV_RECEIVER_WORDS) with nothing changed. Words from
 * GMV_RECEIVER_WORDS on are not changed. After a crash the state is this one, with the persisted word in
 * its place. */
uint64_t gmv_receiver_fresh(uint64_t *state, size_t state_words);

/* Decides on a block that the reader accepted: its type and its data. Serves hybrid and minimal links.
 *
 * application is the application's verdict on a transaction that is due, GMV_CODE_AA or GMV_CODE_AE
 * (it is looked at only for such a one, but must be one of the two). To ask the application about
 * what is due and about nothing else (HOST-14), decide on a copy of the state first, with GMV_CODE_AA;
 * where GMV_DECISION_TRANSACTION is not 0 then, ask it; then decide on the state itself, with its
 * verdict. Nothing is kept between calls.
 *
 * By MSH-13 and the expected number E, the code and number of the answer and what is to be persisted are:
 *     -1             any state           AA, -1          none expected
 *     0              none expected       AA, -1          none expected
 *     0              E expected          AA, E           E expected
 *     n              none, or n expected application, n  transaction n, and n + 1 expected
 *     n              E, not n, expected  AR, E           E expected
 *     no number      any state           AR, E or -1     as before
 * A decision that changes nothing is open like any other, and is reported.
 *
 * An N block (block_type GMV_NAK_BLOCK) is dropped. A data block without a readable header or control ID
 * (9; as gmv_header_read, and a control ID with a byte that data may not have is not readable either)
 * opens nothing: on a hybrid link gmv_hybrid_nak answers it. Of the data nothing but these fields is
 * looked at.
 *
 * Returns 0 with the report written, and the state where a decision was opened; or, in this order and
 * with nothing changed:
 *   1  application is neither code, or block_type neither type
 *   2  state_words below GMV_RECEIVER_WORDS, or report_words below GMV_DECISION_WORDS
 *   11 a decision is open, whatever the block (ordinary: HOST-17, HOST-18), or the words encode no state:
 *      state[GMV_RECEIVER_EXPECTED] is over 999999999999999, or the open decision is none that the table
 *      above gives for it, or its control ID none that an answer can carry */
uint64_t gmv_receiver_decide(uint64_t application, uint64_t block_type,
                             const uint8_t *data, size_t data_length,
                             uint64_t *state, size_t state_words,
                             uint64_t *report, size_t report_words);

/* Reports that what the open decision says is persisted (stored is GMV_STORED), or that it is not and
 * will not be (GMV_NOT_STORED). No decision is open then.
 *
 * Stored: the state expects what the decision said, and its answer is written into the buffer from
 * offset start on, that of gmv_answer_write in a data block; of the buffer only the answer's bytes
 * change. Not stored: nothing is written and nothing is to be sent (block length 0), and the state is
 * the one before the decision. In both the words from GMV_RECEIVER_CODE on are 0. The buffer from start
 * on has at least data_limit + 15 bytes (minimal: + 3), whatever is reported.
 *
 * Returns 0 with state and report written (GMV_REPORT_WORDS words: the block's length, 0); or, in this
 * order and with nothing changed, so that the decision is still open:
 *   1  a setting is outside its range, data_limit is below 128, or stored is neither 0 nor 1
 *   2  state_words below GMV_RECEIVER_WORDS, report_words below GMV_REPORT_WORDS, or the buffer is too
 *      short
 *   11 no decision is open, or the words encode no state */
uint64_t gmv_hybrid_answer(uint64_t start_block, uint64_t end_block, uint64_t data_limit,
                           uint64_t stored, uint64_t *state, size_t state_words,
                           uint8_t *buffer, size_t buffer_length, size_t start,
                           uint64_t *report, size_t report_words);
uint64_t gmv_minimal_answer(uint64_t data_limit,
                            uint64_t stored, uint64_t *state, size_t state_words,
                            uint8_t *buffer, size_t buffer_length, size_t start,
                            uint64_t *report, size_t report_words);

/* The reply to a block that was refused: block_number is the number of its verdict, 3 to 8, or 9 of a
 * decision's report. An N block is written into the buffer from offset start on: C for 6, X for 7, B for
 * 4, G for 3, 5, 8 and 9. The state is not changed. On a minimal link such a block is dropped, and there
 * is no such call.
 *
 * Returns 0 with the report written (GMV_REPORT_WORDS words: the block's length, 0); or, in this order
 * and with nothing changed:
 *   1  a setting is outside its range, data_limit is below 128, or block_number is none of 3 to 9
 *   2  as for the answer
 *   11 a decision is open, or the words encode no state */
uint64_t gmv_hybrid_nak(uint64_t start_block, uint64_t end_block, uint64_t data_limit,
                        uint64_t block_number, const uint64_t *state, size_t state_words,
                        uint8_t *buffer, size_t buffer_length, size_t start,
                        uint64_t *report, size_t report_words);

/* ---- The sender of sequence numbers ----
 *
 * The driver's duties besides those of both ends:
 *   HOST-21  the first GMV_SENDER_PERSISTED_WORDS words of the state are persisted, as one act, before
 *            the next block goes out,
 *   HOST-20, HOST-40  a message, one for each number, is persisted in the log before the state that
 *            counts it as submitted, until the persisted GMV_SENDER_DELIVERED has passed it,
 *   HOST-22  what a report names is sent at once, in the order named, each block whole,
 *   HOST-23  before the first circuit is opened the control block is written once, to try it: a bad
 *            type is refused only there (1),
 *   HOST-24  each block that the reader finds on an open circuit is reported, a refused one too, in
 *            any order,
 *   HOST-41  the timer runs anew from each send that a report names, as long as something waits; when
 *            it runs out, what was read is told first,
 *   HOST-32  after GMV_EVENT_ABANDONED and GMV_EVENT_FROZE the circuit has ended for the sender: the
 *            driver closes the line, and does not call gmv_sender_ended (it would answer 11),
 *   HOST-26  the type of control messages and resends are the same in every call of one sender. */

/* How often a message is sent again, where nothing else is agreed. */
enum { GMV_RESENDS_DEFAULT = 3 };

/* The largest number of a transaction. One more may be expected, and is never sent. */
#define GMV_LARGEST_NUMBER UINT64_C(999999999999998)

/* The words of a sender's state. After a crash the first GMV_SENDER_PERSISTED_WORDS are restored
 * and the others set to 0 (no circuit is open; HOST-37). */
enum {
    GMV_SENDER_FIRST = 0,          /* the first sequence number, 1 to 999999999999998 */
    GMV_SENDER_DELIVERED = 1,      /* the last number known to be delivered; first - 1: none yet */
    GMV_SENDER_LAST = 2,           /* the last number submitted; first - 1: none yet */
    GMV_SENDER_RESYNCHRONIZED = 3, /* 0 or 1 */
    GMV_SENDER_FROZEN = 4,         /* 0 or 1 */
    GMV_SENDER_PERSISTED_WORDS = 5,
    GMV_SENDER_WAITING = 5,        /* GMV_WAITING_.. */
    GMV_SENDER_SENDS = 6,          /* the sends made of what waits, on this circuit; 0 where nothing
                                      does */
    GMV_SENDER_WORDS = 7
};

/* What waits for its answer. */
enum {
    GMV_WAITING_CLOSED = 0,        /* no circuit is open */
    GMV_WAITING_IDLE = 1,          /* a circuit is open, and nothing waits */
    GMV_WAITING_RESYNCHRONIZE = 2, /* the control message for -1 */
    GMV_WAITING_QUERY = 3,         /* the control message for 0 */
    GMV_WAITING_TRANSACTION = 4    /* the transaction after GMV_SENDER_DELIVERED */
};

/* What to send now. */
enum {
    GMV_SEND_NOTHING = 0,
    GMV_SEND_RESYNCHRONIZE = 1, /* the control message for -1 */
    GMV_SEND_QUERY = 2,         /* the control message for 0 */
    GMV_SEND_TRANSACTION = 3    /* the transaction GMV_ACT_SEND_NUMBER */
};

/* What happened. */
enum {
    GMV_EVENT_NONE = 0,      /* nothing but what the other words say */
    GMV_EVENT_DELIVERED = 1, /* a transaction is known to be delivered. Persist first, and tell the
                                application then. One number can come twice, before a crash and after
                                it, then with code 0 (HOST-25) */
    GMV_EVENT_ABANDONED = 2, /* a send fell due with all sends spent: the circuit ended */
    GMV_EVENT_FROZE = 3,     /* an answer that cannot be: frozen until an operator resets; the circuit
                                ended. gmv_answer_read reads the answer from the same data, and what it
                                answered is what waited in the state before the call (HOST-44) */
    GMV_EVENT_DROPPED = 4    /* an answer was dropped, as something else waits. Where nothing waits an
                                answer is dropped too, and not told: GMV_EVENT_NONE */
};

/* The words of an act's report. */
enum {
    GMV_ACT_SEND = 0,             /* GMV_SEND_.. */
    GMV_ACT_SEND_NUMBER = 1,      /* the transaction's number; else 0 */
    GMV_ACT_SENDS = 2,            /* the sends made of the message waiting after the act, or of the one
                                     just given up; with neither 0 */
    GMV_ACT_EVENT = 3,            /* GMV_EVENT_.. */
    GMV_ACT_DELIVERED = 4,        /* with GMV_EVENT_DELIVERED its number, else 0 */
    GMV_ACT_CODE = 5,             /* with GMV_EVENT_DELIVERED GMV_CODE_AA, GMV_CODE_AE, or 0 where the
                                     application's verdict is unknown; else 0 */
    GMV_ACT_BLOCK = 6,            /* at gmv_sender_block the number of a refused block, 3 to 9; else
                                     0, and 0 with a refusal (11) */
    GMV_ACT_FORBIDDEN_OFFSET = 7, /* at gmv_sender_submit with 3 the offset of the first forbidden
                                     byte, else 0 */
    GMV_ACT_WORDS = 8
};

/* The sender's acts are the six functions after gmv_sender_fresh. Each returns 0 with state and
 * report written; or a refusal: 1 and 2 with nothing changed; 11, and 4, 3, 9, 10 of
 * gmv_sender_submit, with the state equal and the report written (nothing to send, the sends of what
 * still waits, event 0; with 3 the offset). Words from GMV_SENDER_WORDS and GMV_ACT_WORDS on are not
 * changed.
 *
 * 2: state_words below GMV_SENDER_WORDS or report_words below GMV_ACT_WORDS.
 * 11: the act does not apply now, or the words encode no state (then GMV_ACT_SENDS is 0). Words encode
 * a state exactly if 1 <= first <= 999999999999998,
 * first - 1 <= delivered <= last <= 999999999999998, resynchronized and frozen are 0 or 1,
 * resynchronized is 1 or delivered = first - 1, and
 *   waiting 0: sends 0;
 *   waiting 1: resynchronized, not frozen, delivered = last, sends 0;
 *   waiting 2: not resynchronized, not frozen, sends 1 to 100;
 *   waiting 3: resynchronized, not frozen, sends 1 to 100;
 *   waiting 4: resynchronized, not frozen, delivered < last, sends 1 to 100.
 * Waiting is never over 4. To look at restored words before they are used, act on a copy: with frozen
 * 0 open it, with frozen 1 reset it. 11 then says that they encode no state (HOST-38). */

/* A new sender: nothing submitted, first number `first`. Returns 0; or, in this order and with
 * nothing changed, 1 (first is not 1 to 999999999999998) or 2 (state_words below GMV_SENDER_WORDS).
 * Words from GMV_SENDER_WORDS on are not changed. */
uint64_t gmv_sender_fresh(uint64_t first, uint64_t *state, size_t state_words);

/* A transaction is submitted: the message with the next number, last + 1. It stays in the host's log.
 * On an open circuit with nothing waiting it is sent at once; without a circuit, or while something
 * waits, it is sent when it is due.
 *
 * 1: data_limit is not 128 to 99994. 11: frozen. Then 4: message_length over data_limit. 3: a byte
 * that data may not have. 9: no readable header or control ID (as gmv_header_read). 10: MSH-13 is not
 * last + 1 (leading zeros allowed), MSH-10 is not its plain decimal, or none is left. */
uint64_t gmv_sender_submit(uint64_t data_limit, const uint8_t *message, size_t message_length,
                           uint64_t *state, size_t state_words,
                           uint64_t *report, size_t report_words);

/* A circuit was opened: the control message for -1 (not yet resynchronized) or for 0 is sent and
 * waits. 11: one is open, or frozen. */
uint64_t gmv_sender_open(uint64_t *state, size_t state_words,
                         uint64_t *report, size_t report_words);

/* The circuit ended. 11: none is open. */
uint64_t gmv_sender_ended(uint64_t *state, size_t state_words,
                          uint64_t *report, size_t report_words);

/* An operator resets a frozen sender: it waits for a new circuit. 11: not frozen. */
uint64_t gmv_sender_reset(uint64_t *state, size_t state_words,
                          uint64_t *report, size_t report_words);

/* The timer ran out: what waits is sent again while it was sent fewer than resends + 1 times, and
 * given up otherwise. With nothing waiting nothing is done. 1: resends is over 99. 11: no circuit is
 * open.
 * Verdicts that were read are told to gmv_sender_block before this call (HOST-41): after giving up
 * the answer that was there in time is refused by 11, and no longer counts. */
uint64_t gmv_sender_timer(uint64_t resends, uint64_t *state, size_t state_words,
                          uint64_t *report, size_t report_words);

/* A block was read on the circuit. block_number is the verdict's number (0 accepted, or 3 to 8),
 * block_type its type, and data the data of an accepted block; of a refused block the words of the
 * verdict are passed as they are (type 0, length 0). Every type but GMV_NAK_BLOCK counts as a data
 * block's; on a minimal link the reader gives GMV_DATA_BLOCK.
 *
 * An N block (block_type GMV_NAK_BLOCK) and a refused block, also by 9 (data that gmv_answer_read
 * refuses), do what the timer does. An answer whose MSA-2 is not the control ID of what waits is
 * dropped. Any other goes by its code and number (MSA-1 and MSA-4), where n is the number that waits:
 *     -1 waits  AA, -1         resynchronized
 *     0 waits   AA, -1         goes on if delivered is first - 1
 *               AA, e          goes on if e is delivered + 1; if e is delivered + 2 and delivered + 1
 *                              was submitted, that one is delivered, its verdict unknown
 *     n waits   AA, n or AE, n n is delivered
 *               AR, n + 1      n is delivered, its verdict unknown
 * After each of these the next transaction is sent and waits, if it was submitted. Every other code or
 * number freezes the sender. With nothing waiting nothing is done and nothing is told, also of an
 * answer (event 0, not GMV_EVENT_DROPPED), but GMV_ACT_BLOCK.
 *
 * 1: resends is over 99, or block_number is none of 0, 3 to 8. 11: no circuit is open. */
uint64_t gmv_sender_block(uint64_t resends, uint64_t block_number, uint64_t block_type,
                          const uint8_t *data, size_t data_length,
                          uint64_t *state, size_t state_words,
                          uint64_t *report, size_t report_words);

/* Writes the sender's control message for 0 or GMV_MINUS_ONE (as gmv_control_write) as a block into
 * the buffer from offset start on: 46 and 48 bytes (minimal: 34 and 36). Nothing else of the buffer
 * changes. A transaction is written from the host's log by gmv_hybrid_write or gmv_minimal_write.
 *
 * Returns 0 with the report written (GMV_REPORT_WORDS words: the block's length, 0); or, in this order
 * and with nothing changed, 1 (a setting is outside its range, data_limit is below 128, type is not
 * three capital letters, or number is neither 0 nor GMV_MINUS_ONE) or 2 (the report has under
 * GMV_REPORT_WORDS words, or the buffer from start on is shorter than the block). */
uint64_t gmv_hybrid_control_block(uint64_t start_block, uint64_t end_block, uint64_t data_limit,
                                  const uint8_t *type, size_t type_length, uint64_t number,
                                  uint8_t *buffer, size_t buffer_length, size_t start,
                                  uint64_t *report, size_t report_words);
uint64_t gmv_minimal_control_block(uint64_t data_limit,
                                   const uint8_t *type, size_t type_length, uint64_t number,
                                   uint8_t *buffer, size_t buffer_length, size_t start,
                                   uint64_t *report, size_t report_words);

/* ---- The X3.28 receiving station ----
 *
 * The station is closed until the driver opens it. Open, it expects a block number, 1 at first and
 * 0 after 7, and holds the text of the message that is not yet complete. It knows what it replied last.
 *
 * A driver that wants the line while messages come in asks for a reverse interrupt: RINT then goes out
 * in place of the ACK of the next block that is appended, and the master ends when it may receive.
 *
 * The driver's duties besides memory:
 *   HOST-45  it frames the units that come from the line, checks each block, and reports each unit
 *            once, in order (one that Timer B cuts off not at all),
 *   HOST-47  it opens the station when it has become slave (the ACK0 of that is its own affair),
 *   HOST-51  it opens it when, and only when, the other side opens its master: a station opened at
 *            another time, or not opened then, may acknowledge and drop a new block,
 *   HOST-48, HOST-49  when Timer D runs out, and when it sends an EOT of its own, it calls
 *            gmv_station_end. Timer D runs while the station is open, anew from each reply to a block,
 *   HOST-46  it lends the same message buffer, unaltered, in every call of gmv_station_block, and takes
 *            a complete message out of it before it reports the next block,
 *   HOST-52  it stores a complete message before any reply goes out; where that fails it sends EOT in
 *            place of the reply and calls gmv_station_end. The same block again completes nothing,
 *   HOST-58  as long as no block was appended in this opening an ENQ is a bid, which it answers by ACK0
 *            itself, opening anew; after that it is for gmv_station_bare_enq,
 *   HOST-59  a RINT that is lost is not given again by itself, and opening forgets what was asked for: it
 *            asks again. */

/* The words of a station's state. Keep them from call to call; they need not survive a crash. */
enum {
    GMV_STATION_OPEN = 0,       /* 0 closed, 1 open; closed, the words below are 0 */
    GMV_STATION_EXPECTED = 1,   /* the expected block number, 0 to 7 */
    GMV_STATION_HELD = 2,       /* the length of the text held; it stands at the buffer's start */
    GMV_STATION_LAST_REPLY = 3, /* what it replied last in this opening: GMV_REPLY_NONE, _ACK, _NAK or
                                   _RINT. The number of the last ACK is the one just before the expected */
    GMV_STATION_INTERRUPT = 4,  /* GMV_INTERRUPT_..: how it stands with RINT */
    GMV_STATION_WORDS = 5
};

/* How a station stands with RINT. */
enum {
    GMV_INTERRUPT_NONE = 0,    /* none is asked for, and one may be */
    GMV_INTERRUPT_PENDING = 1, /* one is asked for, and not yet given */
    GMV_INTERRUPT_GIVEN = 2    /* one was given, and no ACK since */
};

/* What ends a good block: the ASCII characters. */
enum { GMV_ETX = 3 /* the message's last block */, GMV_ETB = 23 /* a block before its last */ };

/* What to reply. */
enum {
    GMV_REPLY_NONE = 0,
    GMV_REPLY_ACK = 1, /* ACK with the number GMV_STATION_REPLY_NUMBER */
    GMV_REPLY_NAK = 2,
    GMV_REPLY_EOT = 3, /* EOT; the station has closed */
    GMV_REPLY_RINT = 5 /* RINT, the reverse interrupt: an ACK that asks for the line */
};

/* The words of a station's report. */
enum {
    GMV_STATION_REPLY = 0,          /* GMV_REPLY_.. */
    GMV_STATION_REPLY_NUMBER = 1,   /* with GMV_REPLY_ACK its number, 0 to 7; else 0 */
    GMV_STATION_COMPLETE = 2,       /* 1: a message is complete; else 0 */
    GMV_STATION_MESSAGE_LENGTH = 3, /* a complete message's length; it stands at the buffer's start;
                                       else 0 */
    GMV_STATION_REPORT_WORDS = 4
};

/* The station's acts are the seven functions after gmv_station_fresh. Each returns 0 with state and
 * report written; or, in this order and with nothing changed (nor the report), 1, 2 or 11. Words
 * from GMV_STATION_WORDS and GMV_STATION_REPORT_WORDS on are not changed.
 *
 * 2: state_words below GMV_STATION_WORDS or report_words below GMV_STATION_REPORT_WORDS. The buffer
 * has no least length.
 * 11: the words encode no state, or gmv_station_interrupt does not apply now. They encode a state
 * exactly if all five are 0; or if open is 1, expected is 0 to 7, and last reply and interrupt are one
 * of these pairs:
 *     GMV_REPLY_NONE     none or pending; expected is 1 and held is 0 then
 *     GMV_REPLY_ACK      none or pending
 *     GMV_REPLY_NAK      none, pending or given
 *     GMV_REPLY_RINT     given
 * gmv_station_open takes any words. That the station is closed is no refusal but at
 * gmv_station_interrupt: it drops what is reported, replies nothing and stays closed until it is
 * opened. Text held that is longer than the buffer is no refusal either: no text fits behind it. */

/* A station before its first opening: closed. Returns 0, or 2 (state_words below GMV_STATION_WORDS)
 * with nothing changed. Words from GMV_STATION_WORDS on are not changed. */
uint64_t gmv_station_fresh(uint64_t *state, size_t state_words);

/* The driver opens the station (HOST-51). Whatever the words are, block 1 is expected then, no text is
 * held, no reply was given, and no RINT is asked for. No reply. */
uint64_t gmv_station_open(uint64_t *state, size_t state_words,
                          uint64_t *report, size_t report_words);

/* A good block was received: its number, the character that ended it and its text. For an open
 * station, where E is the expected number, by the first line that applies:
 *     number over 7                    NAK; dropped
 *     E, and the text does not fit     EOT; the station closes and forgets the text held
 *     E, ended by ETB                  ACK E; the text is appended
 *     E, ended by ETX                  ACK E; the text is appended, and the message is complete
 *     number just before E (7 for 0)   ACK number; dropped as a duplicate, also one ended by ETX
 *     any other number                 NAK; dropped
 * Where a RINT is pending, the ACK E of the third and the fourth line is RINT; the ACK of a duplicate
 * never is. After a block that was appended, the next number is expected. A text fits if it and the
 * text held have at most buffer_length bytes together: one that just fills the buffer fits, and an
 * empty one wherever the text held does. In a buffer that is shorter than the text held (HOST-46
 * forbids one) none fits.
 *
 * The text goes into the buffer behind the text held before the call, and these text_length bytes
 * are all that changes of the buffer. A block that is dropped or does not fit changes no byte of
 * it, and text that is forgotten stays in it as it is. A complete message is the first
 * report[GMV_STATION_MESSAGE_LENGTH] bytes of the buffer. It stays there until the next block is
 * appended, which starts a new message at the buffer's start.
 *
 * number is any number, as the driver read it. 1: ending is neither GMV_ETX nor GMV_ETB (a block
 * ended by ENQ is for gmv_station_enquiry, any other for gmv_station_bad). */
uint64_t gmv_station_block(uint64_t number, uint64_t ending,
                           const uint8_t *text, size_t text_length,
                           uint8_t *buffer, size_t buffer_length,
                           uint64_t *state, size_t state_words,
                           uint64_t *report, size_t report_words);

/* A bad block was received: one that fails the driver's checks, or another damaged unit. An open
 * station drops it and replies NAK; but for the last reply its state stays equal. */
uint64_t gmv_station_bad(uint64_t *state, size_t state_words,
                         uint64_t *report, size_t report_words);

/* A block ended by ENQ was received; a bare ENQ is for gmv_station_bare_enq. An open station drops it
 * and replies NAK; but for the last reply its state stays equal. */
uint64_t gmv_station_enquiry(uint64_t *state, size_t state_words,
                             uint64_t *report, size_t report_words);

/* EOT was received, or the driver sent one of its own, or Timer D ran out: the station closes and
 * forgets the text held. No reply. (After GMV_REPLY_EOT it has closed already.) */
uint64_t gmv_station_end(uint64_t *state, size_t state_words,
                         uint64_t *report, size_t report_words);

/* A bare ENQ was received, the master's enquiry (HOST-58). An open station replies what it replied last
 * in this opening, to whatever it was: ACK with its number, NAK or RINT; NAK if it replied nothing yet,
 * which is the last reply then. All else stays equal: a RINT that is pending stays so. */
uint64_t gmv_station_bare_enq(uint64_t *state, size_t state_words,
                              uint64_t *report, size_t report_words);

/* The driver asks for a reverse interrupt: the next block that is appended is answered RINT in place of
 * ACK (GMV_INTERRUPT_PENDING until then, and GMV_INTERRUPT_GIVEN until the next ACK). No reply. It stays
 * pending through NAKs, duplicates and enquiries, also between messages, and is gone when the station
 * closes or is opened.
 * 11: the station is closed, one is pending, or no ACK was given since the last RINT. */
uint64_t gmv_station_interrupt(uint64_t *state, size_t state_words,
                               uint64_t *report, size_t report_words);

/* ---- The X3.28 sending station, the master ----
 *
 * The master is closed until the driver opens it. Open, it sends messages, one after the other. Each
 * is divided into blocks of block_size bytes and a rest: all but the last end with ETB, the last with
 * ETX. A length that is a multiple of block_size has no empty last block, and an empty message is one
 * empty block. The blocks are numbered 1 to 7, 0, 1 and so on over the whole opening, from message to
 * message. One block is out at a time, until its ACK comes.
 *
 * The message stays with the driver. A report names the part of it to send, by offset and length;
 * the driver frames it. The state has no text, and no function looks at the text.
 *
 * A RINT of the slave is an ACK of the block out, and asks for the line. The driver may go on as long as
 * it must. When it may receive, it says so, and the master ends with EOT as soon as no block is out: the
 * opening is reversed. The rest of the message is not sent, and the slave forgets what it has of it.
 *
 * What is proved of a master and a station over a line that loses and damages units is in
 * docs/X328.md. The driver's duties besides memory:
 *   HOST-53  it opens the master when it has become master, and only when nothing of an earlier opening
 *            can still arrive, on either line,
 *   HOST-54  it sends what each report names, as it is, in order, and keeps the message unaltered until
 *            it is done or the opening has ended,
 *   HOST-55  it reports each reply once, in order; one that fails its checks as GMV_REPLY_DAMAGED,
 *   HOST-56  Timer A runs while a block is out, anew from each send. It is longer than the slowest
 *            reply, and goes on where a reply changes nothing,
 *   HOST-57  it takes for delivered what is reported done, and nothing else. A message that is not may
 *            have arrived all the same: sent again, it may be there twice,
 *   HOST-60  a bid begins with EOT; and where the other side may still hold text, after a crash, a failure,
 *            a reversal and a hang-up, it is silent for longer than that side's Timer D first: else the ENQ
 *            may be answered as an enquiry, by an ACK0 that looks like the grant,
 *   HOST-61  it enquires only with a block numbered 2 to 6 out, and once for each send: a slave that is back
 *            in control mode takes the ENQ for a bid, and its ACK0 means something to a block 0 or 1, and
 *            may come when block 7 has given way to block 0. */

/* The words of a master's state. Keep them from call to call; they need not survive a crash. */
enum {
    GMV_MASTER_PHASE = 0,          /* GMV_MASTER_CLOSED, _IDLE or _WAITING; unless it is waiting, words 1
                                      to 4, 8 and 9 are 0; closed, 6 and 7 as well */
    GMV_MASTER_MESSAGE_LENGTH = 1, /* the length of the message that is being sent */
    GMV_MASTER_BLOCK_SIZE = 2,     /* its block size, 1 or more */
    GMV_MASTER_OFFSET = 3,         /* where in the message the block out begins */
    GMV_MASTER_RESENDS = 4,        /* how often the block out was sent again, 0 to 5 */
    GMV_MASTER_COUNT = 5,          /* the blocks acknowledged since the opening; kept when it has ended */
    GMV_MASTER_LAST_REPLY = 6,     /* the last undamaged reply of this opening, whatever became of it:
                                      GMV_REPLY_NONE, _ACK, _NAK or _RINT */
    GMV_MASTER_INTERRUPTED = 7,    /* 1: a RINT came in this opening; else 0 */
    GMV_MASTER_ENQUIRED = 8,       /* 1: a block is out, and what was sent last is ENQ; else 0 */
    GMV_MASTER_MAY_RECEIVE = 9,    /* 1: it ends when the block out is acknowledged; else 0 */
    GMV_MASTER_WORDS = 10
};

/* The phases. */
enum {
    GMV_MASTER_CLOSED = 0,
    GMV_MASTER_IDLE = 1,   /* open, no block is out */
    GMV_MASTER_WAITING = 2 /* open, a block is out */
};

/* The replies to a master are those of a station's report, GMV_REPLY_ACK, _NAK, _EOT and _RINT, and one
 * more. GMV_REPLY_NONE is none: where a station replies nothing, nothing is reported. */
enum { GMV_REPLY_DAMAGED = 4 /* a reply that fails the driver's checks */ };

/* What to send now. */
enum {
    GMV_MASTER_SEND_NOTHING = 0,
    GMV_MASTER_SEND_BLOCK = 1,
    GMV_MASTER_SEND_EOT = 2,
    GMV_MASTER_SEND_ENQ = 3 /* a bare ENQ */
};

/* How an opening ended. */
enum {
    GMV_MASTER_END_NONE = 0,      /* it did not end by this act */
    GMV_MASTER_END_FAILED = 1,    /* after five resends there was cause for another; EOT is to be sent */
    GMV_MASTER_END_BY_SLAVE = 2,  /* EOT came; nothing is to be sent */
    GMV_MASTER_END_BY_DRIVER = 3, /* gmv_master_close; EOT is to be sent */
    GMV_MASTER_END_REVERSED = 4   /* the driver may receive, and no block is out; EOT is to be sent */
};

/* The words of a master's report. */
enum {
    GMV_MASTER_REPORT_SEND = 0,         /* GMV_MASTER_SEND_.. */
    GMV_MASTER_REPORT_NUMBER = 1,       /* of the block to send, 0 to 7; no block: 0 */
    GMV_MASTER_REPORT_ENDING = 2,       /* GMV_ETB or GMV_ETX; no block: 0 */
    GMV_MASTER_REPORT_OFFSET = 3,       /* where its text begins in the message; no block: 0 */
    GMV_MASTER_REPORT_LENGTH = 4,       /* how many bytes its text has; no block: 0 */
    GMV_MASTER_REPORT_ACKNOWLEDGED = 5, /* 1: the block that was out is acknowledged; else 0 */
    GMV_MASTER_REPORT_DONE = 6,         /* 1: with it the whole message; else 0 */
    GMV_MASTER_REPORT_END = 7,          /* GMV_MASTER_END_..: whether and how the opening ended */
    GMV_MASTER_REPORT_COUNT = 8,        /* the blocks acknowledged since the opening */
    GMV_MASTER_REPORT_RESENDS = 9,      /* how often the block now out was sent again; none out: 0 */
    GMV_MASTER_REPORT_WORDS = 10
};

/* The master's acts are the seven functions after gmv_master_fresh. Each returns 0 with state and
 * report written; or, in this order and with nothing changed (nor the report), 1, 2 or 11. Words
 * from GMV_MASTER_WORDS and GMV_MASTER_REPORT_WORDS on are not changed. Where an act changes nothing
 * of the master, which is no refusal, the report says to send nothing, and tells count and resends.
 *
 * 2: state_words below GMV_MASTER_WORDS or report_words below GMV_MASTER_REPORT_WORDS.
 * 11: the words encode no state (gmv_master_open takes any words), or the act does not apply now. They
 * encode a state exactly if one of these is so:
 *     closed     all words but the count are 0, whatever the count
 *     idle       words 1 to 4, 8 and 9 are 0, and words 6 and 7 go together
 *     waiting    the block size is 1 or more, the resends are 0 to 5, the offset is 0 or below the
 *                message's length (it need not be a multiple of the block size), words 6 and 7 go
 *                together, word 8 is 0 or 1, and word 9 is 0, or 1 where word 7 is 1
 * Words 6 and 7 go together where the last reply is ACK or NAK and word 7 is 0 or 1; or it is RINT and
 * word 7 is 1; or it is GMV_REPLY_NONE and word 7, the count and the offset are 0. */

/* A master before its first opening: closed, count 0. Returns 0, or 2 (state_words below
 * GMV_MASTER_WORDS) with nothing changed. Words from GMV_MASTER_WORDS on are not changed. */
uint64_t gmv_master_fresh(uint64_t *state, size_t state_words);

/* The driver opens the master (HOST-53). Whatever the words are, it is idle then, with count 0, and
 * block 1 is the next. Nothing is to be sent. */
uint64_t gmv_master_open(uint64_t *state, size_t state_words,
                         uint64_t *report, size_t report_words);

/* The driver starts a message: its first block is to be sent. Any length and any block size but 0 (a
 * block as appendix C.3 frames it has at most 99999 bytes).
 * 1: block_size is 0. 11: the master is closed, or a block is out. */
uint64_t gmv_master_start(size_t message_length, uint64_t block_size,
                          uint64_t *state, size_t state_words,
                          uint64_t *report, size_t report_words);

/* A reply arrived: GMV_REPLY_.., and with an ACK its number as the driver read it, any number (with the
 * others it is not looked at). A RINT is *doubtful* if the last undamaged reply before it in this opening
 * was a RINT too, whatever was sent last; or was a NAK, and what was sent last is ENQ. Undamaged replies
 * are ACKs with any number, NAKs and RINTs, also those that came with no block out. By the first line
 * that applies:
 *     the master is closed                   nothing changes
 *     EOT                                    the opening ends (GMV_MASTER_END_BY_SLAVE), the block out
 *                                            counted as not accepted; nothing is to be sent
 *     no block is out                        nothing changes but words 6 and 7
 *     ACK, number of the block out;          it is acknowledged: the next block is to be sent, or the
 *     RINT that is not doubtful              message is done. Where word 9 is 1: EOT is to be sent, and
 *                                            the opening ends (GMV_MASTER_END_REVERSED); if it was the
 *                                            message's last block, the message is done as well
 *     ACK, number just before; NAK;          the block is to be sent again; after five resends EOT,
 *     RINT that is doubtful                  and the opening ends (GMV_MASTER_END_FAILED)
 *     ACK, any other number                  nothing changes but word 6
 *     damaged                                nothing changes
 * Just before is 7 for 0, and 0 for 1, also for the opening's first block. While the master is open each
 * undamaged reply is noted in word 6, and a RINT in word 7.
 * The count ends at 2^64 - 1: from there on an ACK with the number of the block out, or a RINT that is
 * not doubtful, changes nothing but words 6 and 7.
 * 1: reply is none of the five. */
uint64_t gmv_master_reply(uint64_t reply, uint64_t number,
                          uint64_t *state, size_t state_words,
                          uint64_t *report, size_t report_words);

/* Timer A ran out: the block out is to be sent again, as on a NAK, also where ENQ was sent last. Closed or
 * with no block out nothing changes. It is no reply: word 6 stays. */
uint64_t gmv_master_timer(uint64_t *state, size_t state_words,
                          uint64_t *report, size_t report_words);

/* The driver closes the master: EOT is to be sent, and the opening ends (GMV_MASTER_END_BY_DRIVER).
 * 11: the master is closed, or a block is out. */
uint64_t gmv_master_close(uint64_t *state, size_t state_words,
                          uint64_t *report, size_t report_words);

/* The driver enquires: a bare ENQ is to be sent, by which the slave gives its last reply again. It is no
 * resend, has no limit and touches no count.
 * 11: the master is closed, or no block is out. */
uint64_t gmv_master_enquire(uint64_t *state, size_t state_words,
                            uint64_t *report, size_t report_words);

/* The driver may receive. With no block out EOT is to be sent, and the opening ends at once
 * (GMV_MASTER_END_REVERSED). With a block out it ends when that block is acknowledged, and nothing is to
 * be sent now; said twice, nothing changes. It is not taken back. (At a count of 2^64 - 1 no block is
 * acknowledged any more.)
 * 11: the master is closed, or no RINT came in this opening. */
uint64_t gmv_master_may_receive(uint64_t *state, size_t state_words,
                                uint64_t *report, size_t report_words);

#ifdef __cplusplus
}
#endif

#endif
