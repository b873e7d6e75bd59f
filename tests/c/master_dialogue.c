/* Dialogues of the master and the station: document 02, request 3. After every act the statement of it is
 * looked at (two_stations.h). Those with RINT and enquiries are in turning.c. */
#include "two_stations.h"

/* ---- dialogues */

/* All messages over such a line, each block sent so often. */
static void delivers_all(recipe line, size_t sends)
{
    dialogue d = begin_dialogue(line, LONGEST_MESSAGE);

    deliver_all(&d, sends);
    end_dialogue(&d);
}

/* The line loses every block, or every ACK: after six sends the first message fails. */
static void fails(recipe line, size_t accepted)
{
    dialogue d = begin_dialogue(line, LONGEST_MESSAGE);

    while (next_act(&d))
        CHECK(statement_holds(&d));
    CHECK(d.end == GMV_MASTER_END_FAILED && d.done == 0);
    CHECK(d.sent_count == 1 && d.sends[0] == SENDS_OF_BLOCK);
    CHECK(d.accepted_count == accepted && words_of(&d.master)[GMV_MASTER_COUNT] == 0);
    end_dialogue(&d);
}

/* The message of 39 bytes does not fit: EOT ends the opening, and the count is exact. */
static void ended_by_the_station(void)
{
    recipe perfect = {"p", "p", "", 0};
    dialogue d = begin_dialogue(perfect, 17);

    while (next_act(&d))
        CHECK(statement_holds(&d));
    CHECK(d.end == GMV_MASTER_END_BY_SLAVE && d.done == 0 && d.taken == 0);
    CHECK(d.accepted_count == 4 && words_of(&d.master)[GMV_MASTER_COUNT] == 4);
    end_dialogue(&d);
}

/* Timer A runs out early in each of the first blocks of a message, on a line that loses nothing: the
 * sixth time ends the opening. Each time leaves one more copy of every later block on the line. */
static void early_timers(int times, uint64_t end)
{
    recipe perfect = {"p", "p", "", 0};
    dialogue d = begin_dialogue(perfect, LONGEST_MESSAGE);
    size_t seen = 0;

    while (next_act(&d)) {
        if (d.sent_count > seen && times > 0 && phase_of(&d) == GMV_MASTER_WAITING) {
            run_timer(&d);
            times--;
        }
        seen = d.sent_count;
        CHECK(statement_holds(&d));
    }
    CHECK(d.end == end);
    CHECK(end == GMV_MASTER_END_FAILED ? d.taken < MESSAGES : d.taken == MESSAGES);
    end_dialogue(&d);
}

/* ---- any line */

static void disturb(direction *d)
{
    const size_t index = d->count > 0 ? random_below(d->count) : 0;

    if (d->count == 0)
        return;
    if (random_below(2) == 0)
        d->units[index].damaged = 1;
    else
        take_at(d, index);
}

static int random_act(dialogue *d)
{
    const uint64_t choice = random_below(32);

    if (choice == 0 && phase_of(d) == GMV_MASTER_WAITING)
        run_timer(d);
    else if (choice == 1)
        disturb(&d->forward);
    else if (choice == 2)
        disturb(&d->back);
    else if (choice < 16 && d->back.count > 0)
        take_reply(d);
    else
        return next_act(d);
    return 1;
}

/* Units are lost and damaged anywhere on the line, Timer A is often early, and buffers may be short. */
static void any_line(void)
{
    recipe perfect = {"p", "p", "", 0};
    size_t ends[4] = {0, 0, 0, 0};
    int holds = 1;

    for (int i = 0; i < 400; i++) {
        dialogue d = begin_dialogue(perfect, i % 8 == 0 ? 20 : LONGEST_MESSAGE);

        for (int acts = 0; acts < 5000 && random_act(&d); acts++)
            holds &= statement_holds(&d);
        if (d.end == GMV_MASTER_END_BY_DRIVER)
            holds &= d.taken == MESSAGES && d.done == MESSAGES;
        ends[d.end]++;
        end_dialogue(&d);
    }
    CHECK(holds);
    CHECK(ends[GMV_MASTER_END_NONE] == 0 && ends[GMV_MASTER_END_FAILED] > 0);
    CHECK(ends[GMV_MASTER_END_BY_SLAVE] > 0 && ends[GMV_MASTER_END_BY_DRIVER] > 0);
}

/* ---- what the statement needs; these show that it can fail */

/* An ACK 1 of earlier is on the line, and block 1 is lost. */
static void old_acknowledgment(void)
{
    recipe lost = {"l", "p", "", 0};
    unit old = {GMV_REPLY_ACK, 0, {1, 0, 0, {0}}};
    dialogue d = begin_dialogue(lost, LONGEST_MESSAGE);

    put(&d.back, &old);
    start_message(&d);
    CHECK(statement_holds(&d));
    take_reply(&d);
    CHECK(!statement_holds(&d));
    end_dialogue(&d);
}

/* A copy of block 1 comes in behind block 8: it is taken for block 9. */
static void order_not_kept(void)
{
    recipe perfect = {"p", "p", "", 0};
    dialogue d = begin_dialogue(perfect, LONGEST_MESSAGE);
    unit copy;

    start_message(&d);
    copy = d.forward.units[0];
    while (d.accepted_count < 8 && next_act(&d))
        CHECK(statement_holds(&d));
    put(&d.forward, &copy);
    take_unit(&d);
    CHECK(d.accepted_count == 9 && !statement_holds(&d));
    end_dialogue(&d);
}

/* The master is opened again before the second message, and the station is not: the message is
 * acknowledged and dropped. So it would be if numbers began anew with each message. */
static void opened_on_one_side(void)
{
    recipe perfect = {"p", "p", "", 0};
    dialogue d = begin_dialogue(perfect, LONGEST_MESSAGE);

    d.started = 4; /* the next two have one block each */
    d.taken = 4;
    d.done = 4;
    start_message(&d);
    take_unit(&d);
    take_reply(&d);
    CHECK(d.taken == 5 && d.done == 5 && statement_holds(&d));
    CHECK(gmv_master_open(MASTER(&d)) == GMV_OK);
    start_message(&d);
    take_unit(&d);
    take_reply(&d);
    CHECK(d.taken == 5 && d.done == 6 && !statement_holds(&d));
    end_dialogue(&d);
}

/* ---- the tests */

static void lines_by_recipe(void)
{
    const recipe perfect = {"p", "p", "", 0}, each_once = {"ldp", "lp", "", 0};
    const recipe worst = {"lldp", "ldt", "", 0}, deaf = {"l", "p", "", 0}, mute = {"p", "l", "", 0};
    const recipe noisy = {"d", "p", "", 0};

    begin_test("master and station: 48 blocks in 9 messages, each sent once");
    delivers_all(perfect, 1);
    begin_test("master and station: each block lost once and damaged once, each ACK lost once");
    delivers_all(each_once, 4);
    begin_test("master and station: six sends of each block, by all causes, and all is delivered");
    delivers_all(worst, SENDS_OF_BLOCK);
    begin_test("master and station: failure after six sends, where the line loses or damages all");
    fails(deaf, 0);
    fails(noisy, 0);
    fails(mute, 1);
}

void test_master_dialogue(void)
{
    lines_by_recipe();
    begin_test("master and station: a message that does not fit is ended by EOT");
    ended_by_the_station();
    begin_test("master and station: early timers multiply the blocks, and the sixth ends it");
    early_timers(5, GMV_MASTER_END_BY_DRIVER);
    early_timers(6, GMV_MASTER_END_FAILED);
    begin_test("master and station: any line that keeps order");
    any_line();
    begin_test("master and station: an old ACK, order not kept, one side opened: the statement fails");
    old_acknowledgment();
    order_not_kept();
    opened_on_one_side();
}
