//! Histories of one master: each act is compared with the model in everything, and what the master said in
//! all of the history with what the rules say of it as a whole.

use crate::compare::{Compare, Outcome};
use crate::compare_master::{MasterAnswer, MasterMemory};
use crate::guarded::same;
use crate::make_master::{self, sizes_around, PlannedTold};
use host::master_model::{
    self, Answer, End, Master, Report, Told, Transmit, REPLY_ACK, REPLY_DAMAGED, REPLY_NAK,
    REPLY_RINT,
};
use host::station_model::LastReply;

/// A master in the middle of its history, and what it said so far.
#[derive(Clone)]
pub struct History {
    pub memory: MasterMemory,
    told: Vec<PlannedTold>,
    said: Vec<MasterAnswer>,
}

impl History {
    /// Before the first opening.
    pub fn new(compare: &mut Compare) -> Result<History, String> {
        Ok(History {
            memory: MasterMemory::fresh(compare)?,
            told: Vec::new(),
            said: Vec::new(),
        })
    }

    pub fn act(
        &mut self,
        compare: &mut Compare,
        planned: PlannedTold,
    ) -> Result<MasterAnswer, String> {
        let answer = compare.master_act(&mut self.memory, &planned.told().act())?;
        self.said.push(answer);
        self.told.push(planned);
        Ok(answer)
    }

    /// What the answers say, each with the text of the message that was being sent.
    fn answers(&self) -> Result<Vec<Answer<'_>>, String> {
        let mut message: &[u8] = &[];
        let mut answers = Vec::new();
        for (planned, answer) in self.told.iter().zip(&self.said) {
            if let (
                PlannedTold::Start {
                    message: started, ..
                },
                0,
            ) = (planned, answer.number)
            {
                message = started;
            }
            answers.push(said(answer, message)?);
        }
        Ok(answers)
    }

    /// The whole history gives what was said, act by act.
    pub fn end(&self) -> Outcome {
        let told: Vec<Told> = self.told.iter().map(PlannedTold::told).collect();
        let expected = master_model::answers(&told);
        same("answer of a history", &self.answers()?, &expected)
    }
}

/// What an answer says, with the text of the block.
fn said<'a>(answer: &MasterAnswer, message: &'a [u8]) -> Result<Answer<'a>, String> {
    if answer.number != 0 {
        return Ok(Err(answer.number));
    }
    let [send, number, ending, offset, length, acknowledged, done, end, count, resends] =
        answer.report;
    let transmit = match send {
        0 => Transmit::Nothing,
        1 => {
            let rest = message.get(offset as usize..);
            let text = rest.and_then(|rest| rest.get(..length as usize));
            let text = text.ok_or_else(|| format!("{answer:?}: not a part of the message"))?;
            Transmit::Block {
                number,
                ending,
                text,
            }
        }
        2 => Transmit::Eot,
        _ => Transmit::Enq,
    };
    let end = match end {
        0 => End::No,
        1 => End::Failed,
        2 => End::BySlave,
        3 => End::ByDriver,
        _ => End::Reversed,
    };
    Ok(Ok(Report {
        transmit,
        acknowledged: acknowledged == 1,
        done: done == 1,
        end,
        count,
        resends,
    }))
}

/// Any acts at any time.
pub fn master_histories(compare: &mut Compare) -> Outcome {
    for _ in 0..36_000 {
        let mut history = History::new(compare)?;
        for _ in 0..compare.random.between(1, 120) {
            let master = history.memory.master()?;
            let planned = make_master::any_told(&mut compare.random, &master, 40);
            history.act(compare, planned)?;
        }
        history.end()?;
    }
    Ok(())
}

/// What a master with a block out noted as the last reply.
fn last_reply(master: &Master) -> LastReply {
    match master {
        Master::Waiting(_, noted, _) => noted.last_reply,
        Master::Closed(_) | Master::Idle(..) => LastReply::Nothing,
    }
}

/// A reply of a line that works well: now and then a block is sent again, and never six times; an enquiry
/// comes between, and RINT in place of ACK where that was the last reply.
fn good_reply(compare: &mut Compare, master: &Master) -> PlannedTold {
    let own = make_master::own_number(master);
    let resends = match master {
        Master::Waiting(out, ..) => out.resends,
        Master::Closed(_) | Master::Idle(..) => 0,
    };
    let ack = |number| PlannedTold::Reply {
        reply: REPLY_ACK,
        number,
    };
    if resends == master_model::MOST_RESENDS {
        return ack(own);
    }
    match compare.random.below(24) {
        5 | 6 if last_reply(master) == LastReply::Ack => PlannedTold::Reply {
            reply: REPLY_RINT,
            number: own,
        },
        7 => PlannedTold::Enquire,
        0 => PlannedTold::Timer,
        1 => PlannedTold::Reply {
            reply: REPLY_NAK,
            number: own,
        },
        2 => ack(master_model::number_just_before(own)),
        3 => PlannedTold::Reply {
            reply: REPLY_DAMAGED,
            number: own,
        },
        4 => ack((own + 2) % 8),
        _ => ack(own),
    }
}

/// The texts of a message's blocks as they are first sent, one behind the other, and how many there are.
fn sent_whole(
    compare: &mut Compare,
    history: &mut History,
    message: &[u8],
    block_size: u64,
) -> Result<(Vec<u8>, u64), String> {
    let started = PlannedTold::Start {
        message: message.to_vec(),
        block_size,
    };
    let mut answer = history.act(compare, started)?;
    let (mut whole, mut blocks, mut is_first) = (Vec::new(), 0, true);
    loop {
        let [_, _, _, offset, length, ..] = answer.report;
        if is_first {
            whole.extend_from_slice(&message[offset as usize..][..length as usize]);
            blocks += 1;
        }
        let master = history.memory.master()?;
        let planned = good_reply(compare, &master);
        answer = history.act(compare, planned)?;
        let [_, _, _, _, _, acknowledged, done, ..] = answer.report;
        is_first = acknowledged == 1;
        if done == 1 {
            return Ok((whole, blocks));
        }
    }
}

/// Messages of 0 to 300 blocks, several in one opening: what is sent of each is the message, in so many
/// blocks as its length and the size say.
pub fn master_messages(compare: &mut Compare) -> Outcome {
    let mut history = History::new(compare)?;
    history.act(compare, PlannedTold::Open)?;
    for blocks in 0..=300_usize {
        let size = compare.random.between(1, 4);
        for length in [blocks * size, (blocks * size).saturating_sub(size - 1)] {
            let message = compare.random.bytes(length);
            let (whole, sent) = sent_whole(compare, &mut history, &message, size as u64)?;
            same("message sent", &whole, &message)?;
            same("blocks", &[sent], &[blocks.max(1) as u64])?;
        }
        if blocks % 50 == 0 {
            history.act(compare, PlannedTold::Close)?;
            history.end()?;
            history = History::new(compare)?;
            history.act(compare, PlannedTold::Open)?;
        }
    }
    history.end()
}

/// Every message of up to 24 bytes at every size up to two over its length and at the largest.
pub fn master_sizes(compare: &mut Compare) -> Outcome {
    for length in 0..=24_usize {
        let message = compare.random.bytes(length);
        let around = sizes_around(length as u64);
        let sizes = (1..=length as u64 + 2).chain(around.into_iter().filter(|&size| size > 0));
        for block_size in sizes {
            let mut history = History::new(compare)?;
            history.act(compare, PlannedTold::Open)?;
            let (whole, sent) = sent_whole(compare, &mut history, &message, block_size)?;
            same("message sent", &whole, &message)?;
            let expected = master_model::blocks_of(&message, block_size).len() as u64;
            same("blocks", &[sent], &[expected])?;
            history.end()?;
        }
    }
    Ok(())
}

/// The block out is sent six times in all, whatever the causes, and the next cause ends the opening;
/// the resends of a block don't count for the next.
pub fn master_limit(compare: &mut Compare) -> Outcome {
    for round in 0..3_000_u64 {
        let mut history = History::new(compare)?;
        history.act(compare, PlannedTold::Open)?;
        let before = round % 20;
        let message = compare.random.bytes(40);
        let mut answer = history.act(
            compare,
            PlannedTold::Start {
                message,
                block_size: 1,
            },
        )?;
        for number in (1..=before).map(|index| index % 8) {
            let causes = compare.random.below(6);
            causes_in_a_row(compare, &mut history, number, causes)?;
            let is_rint = last_reply(&history.memory.master()?) == LastReply::Ack;
            let reply = match is_rint && compare.random.one_in(2) {
                true => REPLY_RINT,
                false => REPLY_ACK,
            };
            answer = history.act(compare, PlannedTold::Reply { reply, number })?;
        }
        let mut sends = 0;
        while answer.report[0] == 1 {
            sends += 1;
            answer = causes_in_a_row(compare, &mut history, (before + 1) % 8, 1)?;
        }
        let [send, .., end, count, resends] = answer.report;
        same("sends", &[sends], &[6])?;
        same(
            "end of the report",
            &[send, end, count, resends],
            &[2, 1, before, 0],
        )?;
        history.end()?;
    }
    Ok(())
}

/// So many causes of a resend, each of any kind. Gives the last answer.
fn causes_in_a_row(
    compare: &mut Compare,
    history: &mut History,
    own: u64,
    causes: usize,
) -> Result<MasterAnswer, String> {
    let mut last = Err("no cause".to_string());
    for _ in 0..causes {
        let before = last_reply(&history.memory.master()?);
        if before == LastReply::Nak && compare.random.one_in(3) {
            history.act(compare, PlannedTold::Enquire)?;
            last = history.act(compare, rint());
            continue;
        }
        let planned = match compare.random.below(4) {
            0 => PlannedTold::Timer,
            1 => PlannedTold::Reply {
                reply: REPLY_NAK,
                number: compare.random.draw(),
            },
            2 if before == LastReply::Rint => rint(),
            _ => PlannedTold::Reply {
                reply: REPLY_ACK,
                number: master_model::number_just_before(own),
            },
        };
        last = history.act(compare, planned);
    }
    if causes == 0 {
        return Ok(history.said[history.said.len() - 1]);
    }
    last
}

fn rint() -> PlannedTold {
    PlannedTold::Reply {
        reply: REPLY_RINT,
        number: 0,
    }
}
