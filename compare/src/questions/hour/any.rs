//! Any value of an hour, as a caller may write it.

use second::hour::LARGEST_AMOUNT;

use crate::chance::Chance;
use crate::questions::hour::Input;
use crate::questions::hour::inputs::{accepted, lasting, monitoring_of, name_of};
use crate::questions::settle;
use crate::sides::hours::Hour;

pub fn input(chance: &mut Chance) -> Input {
    let model = accepted(chance);
    let before = hour(chance, &model);
    let mut intervals = Vec::new();
    for _ in 0..1 + chance.below(3) {
        intervals.push(lasting(&model, chance.pick(&[1, 60, 900])));
    }
    Input {
        before: Some(before),
        intervals,
        origin: String::from("any value of an hour"),
    }
}

/// An hour that now and then takes the interval.
fn hour(chance: &mut Chance, interval: &settle::Input) -> Hour {
    let below_61 = chance.below(61);
    let (wild, long) = (chance.one_in(2), chance.one_in(2));
    let mut other = name_of(interval);
    other[chance.below(16)] ^= 1 << chance.below(8);
    let name = name_of(interval);
    let monitoring = monitoring_of(interval);
    Hour {
        amounts: [0; 60].map(|_: i64| if wild { amount(chance) } else { 0 }),
        seconds: [0; 60].map(|_: u16| seconds(chance, long)),
        count: chance.pick(&[0, 1, 2, below_61, 59, 60, 61, 255, 1 << 32, usize::MAX]),
        name: chance.pick(&[name, name, name, other, [0; 16]]),
        monitoring_rto: chance.pick(&[monitoring, monitoring, monitoring, 0, 1, 2, 3, 255]),
    }
}

fn amount(chance: &mut Chance) -> i64 {
    let largest = LARGEST_AMOUNT.0;
    let drawn = chance.draw() as i64;
    let edge = chance.pick(&[
        i64::MIN,
        i64::MAX,
        largest,
        largest + 1,
        -largest,
        -largest - 1,
    ]);
    chance.pick(&[0, 1, -1, drawn, drawn % largest, edge, edge])
}

fn seconds(chance: &mut Chance, long: bool) -> u16 {
    let drawn = chance.draw() as u16;
    match long {
        true => chance.pick(&[0, 1, 900, 3599, 3600, u16::MAX, drawn]),
        false => chance.pick(&[0, 1, 30, 60]),
    }
}
