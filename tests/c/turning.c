/* Dialogues in which the line is turned round: document 02, request 14. After every act the statement is
 * looked at (two_stations.h). */
#include "two_stations.h"

#include <string.h>

static const recipe perfect = {"p", "p", "", 0};

static uint64_t told(const dialogue *d, size_t index)
{
    return words_of(&d->master_report)[index];
}

/* ---- lines that lose and damage, and all is delivered */

/* What was made and given over a dialogue of 48 blocks. */
typedef struct {
    size_t sends, enquiries, given, taken;
} counts;

static void delivers_all(recipe line, counts expected)
{
    dialogue d = begin_dialogue(line, LONGEST_MESSAGE);

    deliver_all(&d, expected.sends);
    CHECK(d.enquiries_made == expected.enquiries);
    CHECK(d.interrupts_given == expected.given);
    CHECK(d.interrupts_taken == expected.taken);
    end_dialogue(&d);
}

static void interrupts_by_recipe(void)
{
    const recipe asks = {"p", "p", "", 1}, lost_once = {"p", "lp", "", 1}, damaged_once = {"p", "dp", "", 1};
    const recipe in_truth = {"dp", "lp", "p", 1};
    /* without an ACK since the last RINT none may be asked for: every other block has one */
    const counts every_other = {1, 0, 24, 24}, never_heard = {2, 0, 48, 0}, refused = {3, 48, 48, 48};

    begin_test("turning the line: RINT for every other of 48 blocks, each sent once");
    delivers_all(asks, every_other);
    begin_test("turning the line: each RINT lost or damaged once: a duplicate gets ACK, no wish is heard");
    delivers_all(lost_once, never_heard);
    delivers_all(damaged_once, never_heard);
    begin_test("turning the line: a RINT that is refused, and the block gets through");
    delivers_all(in_truth, refused);
}

static void enquiries_by_recipe(void)
{
    const recipe reply_lost = {"p", "lp", "p", 0}, rint_lost = {"p", "lp", "p", 1};
    const recipe each_lost = {"p", "llp", "lpp", 1}, damaged = {"p", "lp", "d", 1};
    const recipe all_lost = {"p", "lp", "ll", 1}, block_lost = {"lp", "p", "p", 0};

    begin_test("turning the line: each ACK lost once, ENQ brings it, and no block is sent again");
    delivers_all(reply_lost, (counts){1, 48, 0, 0});
    begin_test("turning the line: each RINT lost once, ENQ brings it, and no block is sent again");
    delivers_all(rint_lost, (counts){1, 48, 24, 24});
    begin_test("turning the line: each reply, each ENQ and its reply lost once");
    delivers_all(each_lost, (counts){1, 3 * 48, 24, 24});
    begin_test("turning the line: each ENQ damaged: its NAK has the block sent again");
    delivers_all(damaged, (counts){2, 48, 48, 0});
    begin_test("turning the line: each ENQ lost: Timer A has the block sent again");
    delivers_all(all_lost, (counts){2, 2 * 48, 48, 0});
    begin_test("turning the line: each block lost once: ENQ brings the reply before it, and it is sent again");
    delivers_all(block_lost, (counts){2, 48, 0, 0});
}

/* ---- reversals */

/* Goes on, and the statement holds, until a RINT was taken and so many blocks are acknowledged. */
static void go_on_until(dialogue *d, uint64_t count)
{
    int holds = 1;

    while (words_of(&d->master)[GMV_MASTER_COUNT] < count && next_act(d))
        holds &= statement_holds(d);
    CHECK(holds && d->interrupts_taken > 0);
}

static void finish(dialogue *d)
{
    int holds = 1;

    while (next_act(d))
        holds &= statement_holds(d);
    CHECK(holds);
    CHECK(d->end == GMV_MASTER_END_REVERSED);
    CHECK(words_of(&d->station)[GMV_STATION_OPEN] == 0 && d->accepted_count == d->sent_count);
}

/* The leave in the middle of the first message, whose blocks are 1 to 10: it ends with the block out. */
static void reversal_in_a_message(recipe line)
{
    dialogue d = begin_dialogue(line, LONGEST_MESSAGE);

    go_on_until(&d, 3);
    say_may_receive(&d);
    CHECK(phase_of(&d) == GMV_MASTER_WAITING && told(&d, GMV_MASTER_REPORT_SEND) == GMV_MASTER_SEND_NOTHING);
    finish(&d);
    CHECK(words_of(&d.master)[GMV_MASTER_COUNT] == 4 && d.accepted_count == 4);
    CHECK(d.taken == 0 && d.done == 0);
    end_dialogue(&d);
}

/* The leave while the last block of the first message is out: done and reversed in one act. */
static void reversal_with_done(recipe line)
{
    dialogue d = begin_dialogue(line, LONGEST_MESSAGE);

    go_on_until(&d, 9);
    say_may_receive(&d);
    while (phase_of(&d) == GMV_MASTER_WAITING && next_act(&d))
        ;
    CHECK(told(&d, GMV_MASTER_REPORT_DONE) == 1);
    CHECK(told(&d, GMV_MASTER_REPORT_END) == GMV_MASTER_END_REVERSED);
    finish(&d);
    CHECK(d.taken == 1 && d.done == 1 && d.accepted_count == 10);
    end_dialogue(&d);
}

/* The leave with no block out: at once. */
static void reversal_when_idle(void)
{
    const recipe asks = {"p", "p", "", 1};
    dialogue d = begin_dialogue(asks, LONGEST_MESSAGE);

    go_on_until(&d, 10);
    CHECK(phase_of(&d) == GMV_MASTER_IDLE);
    say_may_receive(&d);
    CHECK(told(&d, GMV_MASTER_REPORT_END) == GMV_MASTER_END_REVERSED);
    CHECK(told(&d, GMV_MASTER_REPORT_SEND) == GMV_MASTER_SEND_EOT);
    finish(&d);
    CHECK(d.taken == 1 && d.done == 1 && d.accepted_count == 10);
    end_dialogue(&d);
}

/* No RINT came: there is no leave, whatever the station's driver asked for. */
static void no_leave_before(void)
{
    dialogue d = begin_dialogue(perfect, LONGEST_MESSAGE);

    start_message(&d);
    ask_for_interrupt(&d);
    CHECK(gmv_master_may_receive(MASTER(&d)) == GMV_STATE);
    CHECK(gmv_station_interrupt(STATION(&d)) == GMV_STATE);
    take_unit(&d);
    CHECK(gmv_master_may_receive(MASTER(&d)) == GMV_STATE);
    CHECK(gmv_station_interrupt(STATION(&d)) == GMV_STATE);
    take_reply(&d);
    CHECK(gmv_master_may_receive(MASTER(&d)) == GMV_OK);
    end_dialogue(&d);
}

/* A second opening after a reversal, from the first block on, on the same words. */
static void opened_after_a_reversal(void)
{
    const recipe asks = {"p", "p", "", 1};
    dialogue d = begin_dialogue(asks, LONGEST_MESSAGE), again;

    go_on_until(&d, 3);
    say_may_receive(&d);
    finish(&d);
    again = d;
    again.started = again.done = again.taken = again.sent_count = again.accepted_count = 0;
    memset(again.sends, 0, sizeof again.sends);
    again.end = GMV_MASTER_END_NONE;
    CHECK(gmv_station_open(STATION(&again)) == GMV_OK && gmv_master_open(MASTER(&again)) == GMV_OK);
    deliver_all(&again, 1);
    end_dialogue(&again);
}

/* ---- runs in which another reading acknowledges a block that was lost */

static void damage_newest(direction *line)
{
    CHECK(line->count > 0);
    if (line->count > 0)
        line->units[line->count - 1].damaged = 1;
}

static void lose_newest(direction *line)
{
    CHECK(line->count > 0);
    if (line->count > 0)
        line->count--;
}

/* One act: s starts, e enquires, t is Timer A, w the wish for RINT, f the station takes a unit, b the
 * master takes a reply; l and d lose and damage the newest unit to the station, m loses the newest reply,
 * x damages the second reply. */
static void do_act(dialogue *d, char act)
{
    if (act == 's')
        start_message(d);
    else if (act == 'e')
        enquire(d);
    else if (act == 't')
        run_timer(d);
    else if (act == 'w')
        ask_for_interrupt(d);
    else if (act == 'f')
        take_unit(d);
    else if (act == 'b')
        take_reply(d);
    else if (act == 'l')
        lose_newest(&d->forward);
    else if (act == 'd')
        damage_newest(&d->forward);
    else if (act == 'm')
        lose_newest(&d->back);
    else if (act == 'x')
        d->back.units[1].damaged = 1;
}

static int holds_over(dialogue *d, const char *acts)
{
    int holds = 1;

    for (; *acts; acts++) {
        do_act(d, *acts);
        holds &= statement_holds(d);
    }
    return holds;
}

/* By the library the statement holds and all is delivered; by the other reading block 2 is counted
 * though it was lost. */
static void run_under(enum reading other, const char *acts)
{
    dialogue d = begin_dialogue(perfect, LONGEST_MESSAGE);

    CHECK(holds_over(&d, acts));
    CHECK(d.accepted_count == 1 && words_of(&d.master)[GMV_MASTER_COUNT] == 1);
    deliver_all(&d, 0);
    end_dialogue(&d);
    d = begin_dialogue(perfect, LONGEST_MESSAGE);
    d.reading = other;
    CHECK(!holds_over(&d, acts));
    CHECK(d.accepted_count == 1 && words_of(&d.master)[GMV_MASTER_COUNT] == 2);
    end_dialogue(&d);
}

static void other_readings(void)
{
    begin_test("turning the line: a NAK is the last reply; else a lost block is acknowledged");
    run_under(NAK_NOT_KEPT, "swfbdefblfb");
    begin_test("turning the line: so is the NAK to a damaged ENQ; else a lost block is acknowledged");
    run_under(NAK_OF_ENQ_NOT_KEPT, "sedewfffblblb");
    begin_test("turning the line: a duplicate gets ACK; else a lost block is acknowledged");
    run_under(DUPLICATE_GETS_RINT, "stdtwfffblblb");
    begin_test("turning the line: RINT after RINT is refused; else a lost block is acknowledged");
    run_under(RINT_TAKEN_AFTER_RINT, "sewffblb");
    begin_test("turning the line: a damaged reply is not noted; else a lost block is acknowledged");
    run_under(DAMAGED_REPLY_NOTED, "seewfffxblbb");
}

/* ---- the drivers' duties */

/* A RINT that is lost is not given again by itself (HOST-59): asked for again, it is heard. */
static void asked_again(void)
{
    dialogue d = begin_dialogue(perfect, LONGEST_MESSAGE);

    CHECK(holds_over(&d, "swfmtfb") && d.interrupts_given == 1 && d.interrupts_taken == 0);
    CHECK(holds_over(&d, "wfb") && d.interrupts_given == 2 && d.interrupts_taken == 1);
    deliver_all(&d, 0);
    end_dialogue(&d);
}

/* Neglects HOST-60: a master is killed after an eighth block, and its successor bids at once. The bid is
 * taken for an enquiry, the last ACK for the grant, and the new block 1 is joined to the old text. */
static void successor_bids(void)
{
    dialogue d = begin_dialogue(perfect, LONGEST_MESSAGE);

    while (words_of(&d.master)[GMV_MASTER_COUNT] < 8 && next_act(&d))
        CHECK(statement_holds(&d));
    d.forward.count = 0; /* its block 9 was not sent any more */
    CHECK(gmv_station_bare_enq(STATION(&d)) == GMV_OK);
    CHECK(words_of(&d.station_report)[GMV_STATION_REPLY] == GMV_REPLY_ACK);
    CHECK(words_of(&d.station_report)[GMV_STATION_REPLY_NUMBER] == 0);
    CHECK(gmv_master_open(MASTER(&d)) == GMV_OK);
    start_message(&d);
    take_unit(&d);
    CHECK(d.taken == 1 && words_of(&d.station_report)[GMV_STATION_MESSAGE_LENGTH] == 8 * 4);
    CHECK(!statement_holds(&d));
    end_dialogue(&d);
}

/* Neglects HOST-61: block 0 is out and lost, the slave's Timer D has run out, and ENQ is taken for a bid.
 * The ACK 0 that grants it acknowledges the block. */
static void enquiry_is_a_bid(void)
{
    const unit grant = {GMV_REPLY_ACK, 0, {0, 0, 0, {0}}};
    dialogue d = begin_dialogue(perfect, LONGEST_MESSAGE);

    while (words_of(&d.master)[GMV_MASTER_COUNT] < 7 && next_act(&d))
        CHECK(statement_holds(&d));
    lose_newest(&d.forward);
    CHECK(gmv_station_end(STATION(&d)) == GMV_OK);
    enquire(&d);
    take_at(&d.forward, 0);
    put(&d.back, &grant);
    CHECK(statement_holds(&d));
    take_reply(&d);
    CHECK(!statement_holds(&d));
    end_dialogue(&d);
}

/* ---- any line */

static void disturb(direction *d)
{
    const size_t index = d->count > 0 ? random_below(d->count) : 0;

    if (d->count == 0)
        return;
    if (random_below(2) == 0)
        d->units[index].damaged = 1;
    else
        take_at(d, index);
}

/* The leave is said seldom, so that most dialogues go on for long. */
static int random_act(dialogue *d)
{
    const uint64_t choice = random_below(48);
    const int is_out = phase_of(d) == GMV_MASTER_WAITING;
    const int may_leave = words_of(&d->master)[GMV_MASTER_INTERRUPTED] == 1;

    if (choice == 0 && is_out)
        run_timer(d);
    else if (choice <= 2 && is_out)
        enquire(d);
    else if (choice <= 8 && may_ask(d))
        ask_for_interrupt(d);
    else if (choice == 9 && may_leave && random_below(8) == 0)
        say_may_receive(d);
    else if (choice == 10)
        disturb(&d->forward);
    else if (choice == 11)
        disturb(&d->back);
    else if (choice < 24 && d->back.count > 0)
        take_reply(d);
    else
        return next_act(d);
    return 1;
}

/* Units are lost and damaged anywhere on the line, Timer A and ENQ are often early, RINT is asked for and
 * the leave given at any time, and buffers may be short. */
static void any_line(void)
{
    const recipe enquires = {"p", "p", "p", 0};
    size_t ends[GMV_MASTER_END_REVERSED + 1] = {0, 0, 0, 0, 0}, heard_twice = 0;
    int holds = 1;

    for (int i = 0; i < 600; i++) {
        dialogue d = begin_dialogue(i % 2 ? perfect : enquires, i % 8 == 0 ? 20 : LONGEST_MESSAGE);

        for (int acts = 0; acts < 5000 && random_act(&d); acts++)
            holds &= statement_holds(&d);
        if (d.end == GMV_MASTER_END_BY_DRIVER)
            holds &= d.taken == MESSAGES && d.done == MESSAGES;
        heard_twice += d.interrupts_taken > d.interrupts_given; /* by ENQ */
        ends[d.end]++;
        end_dialogue(&d);
    }
    CHECK(holds && heard_twice > 0);
    CHECK(ends[GMV_MASTER_END_NONE] == 0);
    for (int end = GMV_MASTER_END_FAILED; end <= GMV_MASTER_END_REVERSED; end++)
        CHECK(ends[end] > 0);
}

void test_turning(void)
{
    const recipe asks = {"p", "p", "", 1}, lossy = {"ldp", "lp", "p", 1};

    interrupts_by_recipe();
    enquiries_by_recipe();
    begin_test("turning the line: reversed in a message, with the block out");
    reversal_in_a_message(asks);
    reversal_in_a_message(lossy);
    begin_test("turning the line: done and reversed in one act");
    reversal_with_done(asks);
    begin_test("turning the line: reversed at once with no block out");
    reversal_when_idle();
    begin_test("turning the line: 11 for leave before a RINT, and for a wish with one pending or given");
    no_leave_before();
    begin_test("turning the line: opened again after a reversal, all is delivered");
    opened_after_a_reversal();
    other_readings();
    begin_test("turning the line: a RINT that was lost is heard when it is asked for again");
    asked_again();
    begin_test("turning the line: a bid taken for an enquiry, an enquiry for a bid: the statement fails");
    successor_bids();
    enquiry_is_a_bid();
    begin_test("turning the line: any line that keeps order");
    any_line();
}
