//! What the lines of a link of the two X3.28 stations do to the units on them.

use crate::stations_counts::StationsKind as Kind;
use crate::stations_link::Link;
use crate::stations_units::{Back, Forward, LinkAct, Way};

impl Link<'_> {
    pub fn line_acts(&mut self, act: &LinkAct) {
        match *act {
            LinkAct::Lose(way, index) => self.loses(way, index),
            LinkAct::Repeat(way, index) => self.repeats(way, index),
            LinkAct::DamageUnit(index, into) => self.damages_unit(index, into),
            LinkAct::DamageReply(index, into) => self.damages_reply(index, into),
            LinkAct::UnitNoise(index, noise) => {
                self.counts.add(Kind::Noise);
                self.counts.add_if(Kind::EnqNoise, noise == Forward::Enq);
                if self.forward.len() < self.beginning.capacity {
                    self.forward.insert(index, noise);
                }
            }
            LinkAct::ReplyNoise(index, noise) => {
                self.counts.add(Kind::Noise);
                self.counts.add_if(Kind::NakNoise, noise == Back::Nak);
                if self.back.len() < self.beginning.capacity {
                    self.back.insert(index, noise);
                }
            }
            _ => unreachable!("an act of a station or its driver"),
        }
    }

    fn loses(&mut self, way: Way, index: usize) {
        self.counts.add(Kind::Loss);
        self.counts.add_if(Kind::LossBehindHead, index > 0);
        match way {
            Way::Forward => {
                let lost = self.forward.remove(index);
                self.counts.add_if(Kind::EnqLost, lost == Forward::Enq);
            }
            Way::Back => {
                let lost = self.back.remove(index);
                self.counts.add_if(Kind::RintLost, lost == Back::Rint);
            }
        }
    }

    fn repeats(&mut self, way: Way, index: usize) {
        self.counts.add(Kind::Repetition);
        let capacity = self.beginning.capacity;
        match way {
            Way::Forward if self.forward.len() < capacity => {
                let unit = self.forward[index];
                self.counts.add_if(Kind::EnqRepeated, unit == Forward::Enq);
                self.forward.insert(index, unit);
            }
            Way::Back if self.back.len() < capacity => {
                let unit = self.back[index];
                self.counts.add_if(Kind::RintRepeated, unit == Back::Rint);
                self.back.insert(index, unit);
            }
            Way::Forward | Way::Back => {}
        }
    }

    fn damages_unit(&mut self, index: usize, into: Forward) {
        let was_enq = self.forward[index] == Forward::Enq;
        self.count_damage(index);
        self.counts.add_if(Kind::EnqDamaged, was_enq);
        let looks_like_enq = into == Forward::Enq && !was_enq;
        self.counts.add_if(Kind::DamagedIntoEnq, looks_like_enq);
        self.forward[index] = match into {
            Forward::Damaged if was_enq => Forward::DamagedEnq,
            _ => into,
        };
    }

    fn damages_reply(&mut self, index: usize, into: Back) {
        let was_rint = self.back[index] == Back::Rint;
        self.count_damage(index);
        self.counts.add_if(Kind::RintDamaged, was_rint);
        self.counts.add_if(Kind::DamagedIntoNak, into == Back::Nak);
        self.back[index] = into;
    }

    fn count_damage(&mut self, index: usize) {
        self.counts.add(Kind::Damage);
        self.counts.add_if(Kind::DamageBehindHead, index > 0);
    }
}
