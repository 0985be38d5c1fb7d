//! Hours drawn by chance: of 0 to 60 intervals and some more, with refused ones
//! between.

use std::ops::Range;

use second::hour::{MOST_INTERVALS, MOST_SECONDS};
use second::layout::{ENTITLEMENT_RECORD, NAME, SECONDS};
use second::names::NameField;
use second::{Hour, draft};

use crate::chance::Chance;
use crate::questions::hour::{Input, any};
use crate::questions::settle;
use crate::questions::settle::{faults, inputs};

/// Keeps the chance of hours apart from that of the settlement's inputs.
const APART: u64 = 0x686f_7572;

pub fn chance(seed: u64, k: u64) -> Chance {
    Chance::of(seed ^ APART, k)
}

/// The k-th hour of a seed.
pub fn input(seed: u64, k: u64) -> Input {
    let chance = &mut chance(seed, k);
    match chance.below(4) {
        0 => any::input(chance),
        _ => grown(chance),
    }
}

/// Where the head has the Monitoring RTO and the seconds.
const MONITORING: usize = NAME.end;
const LASTING: Range<usize> = NAME.end + 1..NAME.end + 3;

/// The same interval, this many seconds long.
pub fn lasting(interval: &settle::Input, seconds: u16) -> settle::Input {
    let mut interval = interval.clone();
    interval.sheet[LASTING].copy_from_slice(&seconds.to_be_bytes());
    interval
}

pub fn name_of(interval: &settle::Input) -> NameField {
    draft::name(&interval.sheet[NAME])
}

pub fn monitoring_of(interval: &settle::Input) -> u8 {
    interval.sheet[MONITORING]
}

pub fn monitored_by(interval: &settle::Input, monitoring: u8) -> settle::Input {
    let mut interval = interval.clone();
    interval.sheet[MONITORING] = monitoring;
    interval
}

/// The same interval of the other Monitoring RTO.
pub fn otherwise_monitored(interval: &settle::Input) -> settle::Input {
    monitored_by(interval, 3 - monitoring_of(interval))
}

/// The same interval of a flowgate with this name, in its list too.
pub fn of_flowgate(interval: &settle::Input, name: NameField) -> settle::Input {
    let before = name_of(interval);
    let mut interval = interval.clone();
    interval.sheet[NAME].copy_from_slice(&name);
    let (entries, _) = interval.list.as_chunks_mut::<ENTITLEMENT_RECORD>();
    for entry in entries.iter_mut().filter(|entry| entry[NAME] == before) {
        entry[NAME].copy_from_slice(&name);
    }
    interval
}

/// The same interval of a flowgate whose name differs in one of its bytes.
pub fn of_other_flowgate(interval: &settle::Input, byte: usize) -> settle::Input {
    let mut name = name_of(interval);
    name[byte] = if name[byte] == b'x' { b'y' } else { b'x' };
    of_flowgate(interval, name)
}

/// An interval that is accepted by itself.
pub fn accepted(chance: &mut Chance) -> settle::Input {
    loop {
        let input = inputs::input(chance.draw(), 0);
        if input.answer().is_ok() {
            return input;
        }
    }
}

/// Intervals of one flowgate and one Monitoring RTO, each accepted by itself unless the
/// list has the flowgate's name twice.
fn models(chance: &mut Chance) -> Vec<settle::Input> {
    let first = accepted(chance);
    let mut models = vec![first.clone()];
    for _ in 0..chance.below(4) {
        let more = of_flowgate(&accepted(chance), name_of(&first));
        models.push(monitored_by(&more, monitoring_of(&first)));
    }
    models
}

fn grown(chance: &mut Chance) -> Input {
    let models = models(chance);
    let drawn = chance.below(MOST_INTERVALS + 1);
    let wanted = chance.pick(&[0, 1, 2, 4, 12, drawn, drawn, 59, 60, 60, 60]);
    let pace = match wanted {
        0..=12 => chance.pick(&[None, Some(60), Some(300), Some(900)]),
        _ => chance.pick(&[Some(60), Some(60), Some(59), Some(1)]),
    };
    let mut growth = Growth {
        models,
        pace,
        hour: Hour::open(),
        intervals: Vec::new(),
    };
    while growth.hour.count < wanted && growth.intervals.len() < wanted + 20 {
        growth.step(chance);
    }
    for _ in 0..chance.below(6) {
        growth.step(chance);
    }
    Input::grown("intervals one by one", growth.intervals)
}

/// An hour on its way.
struct Growth {
    models: Vec<settle::Input>,
    /// How long an interval is; any length where there is none.
    pace: Option<u16>,
    hour: Hour,
    intervals: Vec<settle::Input>,
}

impl Growth {
    fn step(&mut self, chance: &mut Chance) {
        let model = &self.models[chance.below(self.models.len())];
        let model = lasting(model, self.seconds(chance));
        let kinds = if self.hour.count == 0 { 4 } else { 30 };
        let interval = match chance.below(kinds) {
            0 => faults::alone(chance),
            1 => damaged(chance, &model),
            4 => of_other_flowgate(&model, chance.below(name_length(&model))),
            5 => of_other_flowgate(&model, name_length(&model) - 1),
            6 => otherwise_monitored(&model),
            7 => otherwise_monitored(&of_other_flowgate(&model, 0)),
            8 => inputs::input(chance.draw(), 0),
            _ => model,
        };
        let _ = self.hour.add(&interval.sheet, &interval.list);
        self.intervals.push(interval);
    }

    /// The pace, or now and then what just fills the hour, or one second more or less.
    fn seconds(&self, chance: &mut Chance) -> u16 {
        let rest = (MOST_SECONDS - self.hour.totals().seconds).0;
        let next = rest + chance.within(-1..=1);
        if chance.one_in(6) && SECONDS.contains(&next) {
            return next as u16;
        }
        let any = chance.within(SECONDS) as u16;
        self.pace.unwrap_or(any)
    }
}

fn name_length(interval: &settle::Input) -> usize {
    let name = name_of(interval);
    second::names::bearing(&name).len()
}

fn damaged(chance: &mut Chance, interval: &settle::Input) -> settle::Input {
    let mut interval = interval.clone();
    let at = chance.below(interval.sheet.len());
    interval.sheet[at] ^= 1 << chance.below(8);
    interval.origin += ", a bit flipped";
    interval
}

#[cfg(test)]
mod tests {
    use super::*;

    #[test]
    fn another_name_changes_no_amount() {
        let chance = &mut chance(6, 0);
        for _ in 0..50 {
            let interval = accepted(chance);
            let amount = |it: &settle::Input| it.answer().map(|it| it.payment.amount);
            let renamed = of_flowgate(&interval, [b'z'; 16]);
            assert_eq!(amount(&renamed), amount(&interval));
            assert_eq!(name_of(&renamed), [b'z'; 16]);
        }
    }

    #[test]
    fn hours_are_grown_to_sixty() {
        let counts = (0..60).map(|k| {
            let mut hour = Hour::open();
            for interval in grown(&mut chance(7, k)).intervals {
                let _ = hour.add(&interval.sheet, &interval.list);
            }
            hour.count
        });
        let counts: Vec<usize> = counts.collect();
        assert!(counts.iter().filter(|count| **count == 60).count() >= 3);
        assert!(counts.contains(&0));
        assert!(counts.iter().any(|count| (5..60).contains(count)));
    }
}
