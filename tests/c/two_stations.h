/* The master and the station of the archive over a line in memory, which keeps order in each direction
 * and loses and damages units. */
#ifndef TWO_STATIONS_H
#define TWO_STATIONS_H

#include "harness.h"

enum { LONGEST_MESSAGE = 48, LONGEST_BLOCK = 8, UNITS = 64, ALL_BLOCKS = 64, SENDS_OF_BLOCK = 6 };
/* The messages of every dialogue, and their blocks in all. */
enum { MESSAGES = 9, BLOCKS = 48 };
/* More than any dialogue needs: one that does not end is ended, and is seen not to have delivered all. */
enum { MOST_ACTS = 20000 };

typedef struct {
    uint64_t number, ending;
    size_t length;
    uint8_t text[LONGEST_BLOCK];
} block;

/* What is on the line: a block, ENQ or EOT to the station, a reply to the master. */
typedef struct {
    uint64_t kind; /* GMV_MASTER_SEND_.. or GMV_REPLY_.. */
    int damaged;
    block block; /* of a reply its number alone */
} unit;

typedef struct {
    unit units[UNITS];
    size_t count;
} direction;

/* What a line does to units: a letter for each send of a block, for each ACK or RINT of it and for each
 * ENQ while it is out, and the last letter for all further ones. l loses, d damages, p passes on (as
 * no letter does), t passes it on twice. Where nothing is on the line, the master's driver
 * makes as many enquiries for a block as there are letters, and then Timer A runs out. (HOST-61 allows
 * fewer, as ENQ is a bid too; nothing bids here.) */
typedef struct {
    const char *blocks, *acknowledgments, *enquiries;
    int asks; /* the station's driver asks for RINT whenever it may */
} recipe;

/* Readings of document 02, request 14, that are not the library's: each is put in its place by words of a
 * state or of a report that are changed. */
enum reading {
    AS_IT_IS,
    NAK_NOT_KEPT,          /* as the last reply of the station */
    NAK_OF_ENQ_NOT_KEPT,   /* that to a damaged ENQ */
    DUPLICATE_GETS_RINT,   /* that of a block that was answered RINT */
    RINT_TAKEN_AFTER_RINT, /* unless ENQ was sent last */
    DAMAGED_REPLY_NOTED    /* as the reply before a RINT */
};

typedef struct {
    recipe recipe;
    enum reading reading;
    guarded master, master_report, station, station_report, buffer;
    direction forward, back;
    size_t started, done, taken, acknowledgments, enquiries;
    size_t enquiries_made, interrupts_given, interrupts_taken;
    block sent[ALL_BLOCKS], accepted[ALL_BLOCKS];
    size_t sent_count, accepted_count, sends[ALL_BLOCKS];
    uint64_t end;
    int right_texts;
    int acts; /* of the patient drivers */
} dialogue;

#define MASTER(d) words_of(&(d)->master), word_count(&(d)->master), \
    words_of(&(d)->master_report), word_count(&(d)->master_report)
#define STATION(d) words_of(&(d)->station), word_count(&(d)->station), \
    words_of(&(d)->station_report), word_count(&(d)->station_report)

dialogue begin_dialogue(recipe line, size_t buffer_length);
void end_dialogue(dialogue *d);

void put(direction *d, const unit *u);
unit take_at(direction *d, size_t index);

/* The acts of the master's driver. */
uint64_t phase_of(const dialogue *d);
void start_message(dialogue *d);
void close_master(dialogue *d);
void run_timer(dialogue *d);
void enquire(dialogue *d);
void say_may_receive(dialogue *d);
void take_reply(dialogue *d);

/* The acts of the station's driver. */
int may_ask(const dialogue *d);
void ask_for_interrupt(dialogue *d);
void take_unit(dialogue *d);

/* The next act of two patient drivers: what is on the line comes first, then an enquiry or Timer A, and
 * an idle master starts the next message at once. 0: all is over, or MOST_ACTS were done. */
int next_act(dialogue *d);

/* Goes on to the end: all messages are delivered, each block sent so often (0: as often as may be). */
void deliver_all(dialogue *d, size_t sends);

/* The statement of document 02, requests 3 and 14: the blocks that the station accepted are the first of
 * those that the master sent, each once, the master's count is theirs or one less (theirs where the
 * opening was reversed), and the messages that came out are the first ones started. */
int statement_holds(const dialogue *d);

#endif
