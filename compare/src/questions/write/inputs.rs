//! Sheets and drafts drawn by chance.

use second::layout::LAKE_FLOWS;
use second::names::NameField;

use crate::chance::Chance;
use crate::interval::{Scale, Sizes, add_lake_to_one_in, drawn};
use crate::questions::settle;
use crate::questions::write::{Input, fields};
use crate::sides::drafts::Draft;

/// Keeps the chance of drafts apart from that of the settlement's inputs.
const APART: u64 = 0x6472_6166_7473;

pub fn chance(seed: u64, k: u64) -> Chance {
    Chance::of(seed ^ APART, k)
}

/// The k-th input of a seed.
pub fn input(seed: u64, k: u64) -> Input {
    let chance = &mut chance(seed, k);
    if chance.one_in(3) {
        let input = settle::inputs::input(chance.draw(), 0);
        return Input::sheet(input.origin, input.sheet);
    }
    let mut draft = sound(chance);
    let origin = match chance.below(10) {
        0..=1 => "any sizes and values",
        2..=5 => {
            alter(chance, &mut draft);
            "fields altered"
        }
        6 => {
            miscount(chance, &mut draft);
            "other counts"
        }
        7 => {
            fill_behind(chance, &mut draft);
            "anything behind the counts"
        }
        8 => {
            fill_behind(chance, &mut draft);
            miscount(chance, &mut draft);
            "anything behind other counts"
        }
        _ => {
            rearrange(chance, &mut draft);
            "records rearranged"
        }
    };
    Input::draft(origin, &draft, room(chance, draft.length()))
}

/// Now and then of as many records as there can be.
fn sound(chance: &mut Chance) -> Draft {
    let sizes = match chance.one_in(60) {
        true => Sizes::LONGEST,
        false => Sizes::drawn(chance),
    };
    let scale = Scale::drawn(chance);
    let mut interval = drawn(chance, sizes, scale);
    add_lake_to_one_in(3, chance, &mut interval, scale);
    Draft::of(&interval)
}

/// A buffer around the sheet's length.
fn room(chance: &mut Chance, length: usize) -> usize {
    let less = chance.below(length);
    chance.pick(&[
        0,
        1,
        less,
        length - 1,
        length,
        length,
        length + 1,
        length + 2,
        length + 100,
        2 * length,
    ])
}

/// One to four fields with another value.
fn alter(chance: &mut Chance, draft: &mut Draft) {
    let all = fields::all(draft);
    for _ in 0..1 + chance.below(4) {
        all[chance.below(all.len())].make(draft);
    }
}

fn miscount(chance: &mut Chance, draft: &mut Draft) {
    let any = chance.below(40);
    for count in [
        &mut draft.zone_count,
        &mut draft.unit_count,
        &mut draft.point_count,
        &mut draft.par_count,
        &mut draft.factor_count,
        &mut draft.path_count,
        &mut draft.circulation_count,
    ] {
        let (there, fewer) = (*count, count.saturating_sub(1));
        let other = chance.pick(&[0, fewer, there + 1, any, 33, 257, 2889, usize::MAX]);
        if chance.one_in(4) {
            *count = other;
        }
    }
}

/// Records of any values in every cell behind the counts.
fn fill_behind(chance: &mut Chance, draft: &mut Draft) {
    for zone in &mut draft.zones[draft.zone_count..] {
        (zone.name, zone.load) = (name(chance), chance.draw() as u32 % 2_000_001);
        zone.losses = chance.draw() as u32 % 2_000_001;
    }
    for unit in &mut draft.units[draft.unit_count..] {
        (unit.name, unit.zone) = (name(chance), chance.below(4) as u8);
        unit.output = chance.draw() as u32 % 2_000_001;
    }
    for point in &mut draft.points[draft.point_count..] {
        (point.name, point.sort) = (name(chance), 1 + chance.below(2) as u8);
        (point.line, point.zone) = (chance.below(3) as u8, chance.below(3) as u8);
        point.import = chance.draw() as u32 % 200_001;
        point.export = chance.draw() as u32 % 200_001;
        point.wheel_in = chance.draw() as u32 % 200_001;
        point.wheel_out = chance.draw() as u32 % 200_001;
    }
    for par in &mut draft.pars[draft.par_count..] {
        (par.name, par.class) = (name(chance), 1 + chance.below(2) as u8);
        (par.actual, par.target) = (chance.draw() as i32, chance.draw() as i32);
    }
    for factor in &mut draft.factors[draft.factor_count..] {
        (factor.target, factor.subject) = (chance.below(9) as u8, 1 + chance.below(4) as u8);
        (factor.index, factor.factor) = (chance.below(257) as u16, chance.draw() as i16);
    }
    for path in &mut draft.paths[draft.path_count..] {
        (path.name, path.flow) = (name(chance), chance.within(LAKE_FLOWS) as i32);
        path.factor = chance.draw() as i16;
    }
    for circulation in &mut draft.circulations[draft.circulation_count..] {
        circulation.flow = chance.draw() as i32;
    }
}

fn name(chance: &mut Chance) -> NameField {
    [0; 16].map(|_: u8| 1 + chance.below(255) as u8)
}

/// Two records of a kind exchanged, or one in the other's place too.
fn rearrange(chance: &mut Chance, draft: &mut Draft) {
    let keep = chance.one_in(2);
    match chance.below(6) {
        5 => move_one(chance, &mut draft.paths[..draft.path_count], keep),
        0 => move_one(chance, &mut draft.zones[..draft.zone_count], keep),
        1 => move_one(chance, &mut draft.units[..draft.unit_count], keep),
        2 => move_one(chance, &mut draft.points[..draft.point_count], keep),
        3 => move_one(chance, &mut draft.pars[..draft.par_count], keep),
        _ => move_one(chance, &mut draft.factors[..draft.factor_count], keep),
    }
}

fn move_one<T: Copy>(chance: &mut Chance, records: &mut [T], keep: bool) {
    if records.is_empty() {
        return;
    }
    let (one, other) = (chance.below(records.len()), chance.below(records.len()));
    match keep {
        true => records[one] = records[other],
        false => records.swap(one, other),
    }
}
