//! Drafts: sheets that are read as drafts, and drafts that are written as sheets.

mod check;
mod counts;
mod damage;
mod fields;
mod inputs;
mod landmarks;
mod order;

use std::fmt;

use second::draft;

use crate::interval::{Scale, Sizes, add_lake, drawn};
use crate::mismatch::{Mismatch, Shown, Trouble};
use crate::questions::settle::earlier;
use crate::questions::{Outcome, Question};
use crate::sides::drafts::{Draft, Drafts};
use crate::sides::{Second, Sides};
use crate::tally::Tally;
use crate::text;
use fields::Alteration;

/// What is asked of both sides.
#[derive(Clone, Debug)]
pub enum Asked {
    /// A sheet to be read.
    Sheet(Vec<u8>),
    /// A draft to be written into a buffer of this length.
    Draft(Box<Draft>, usize),
}

#[derive(Clone, Debug)]
pub struct Input {
    pub asked: Asked,
    /// How the input came about.
    pub origin: String,
}

impl Input {
    pub fn sheet(origin: impl fmt::Display, sheet: Vec<u8>) -> Self {
        Input {
            asked: Asked::Sheet(sheet),
            origin: origin.to_string(),
        }
    }

    pub fn draft(origin: impl fmt::Display, draft: &Draft, room: usize) -> Self {
        Input {
            asked: Asked::Draft(Box::new(*draft), room),
            origin: origin.to_string(),
        }
    }

    fn trouble(&self, mismatch: Mismatch) -> Box<Trouble> {
        Box::new(Trouble {
            mismatch,
            input: Some(Box::new(self.clone())),
        })
    }
}

impl Shown for Input {
    fn origin(&self) -> String {
        self.origin.clone()
    }

    fn text(&self) -> String {
        match &self.asked {
            Asked::Sheet(sheet) => format!("sheet\n{}", text::sheet(sheet)),
            Asked::Draft(draft, room) => format!("{draft}buffer {room}\n"),
        }
    }
}

/// How many of the settlement's seeded inputs stand for one here.
const INPUTS_PER_DRAFT: u64 = 2;

pub struct Write {
    tally: Tally,
    /// Turns from one buffer to the next.
    turn: usize,
}

impl Default for Write {
    fn default() -> Self {
        Write {
            tally: landmarks::tally(),
            turn: 0,
        }
    }
}

impl Write {
    /// Asks both sides and counts what was met; the refusal.
    fn ask(&mut self, sides: &Sides, input: &Input) -> Result<u8, Box<Trouble>> {
        let fault = |mismatch| input.trouble(mismatch);
        self.tally.count();
        match &input.asked {
            Asked::Sheet(sheet) => {
                let refusal = check::reading(sides, sheet).map_err(fault)?;
                landmarks::mark_sheet(&mut self.tally, refusal);
                Ok(refusal)
            }
            Asked::Draft(draft, room) => {
                let refusal = check::writing(sides, draft, *room).map_err(fault)?.refusal;
                landmarks::mark_draft(&mut self.tally, draft, *room, refusal);
                Ok(refusal)
            }
        }
    }

    fn expect(&mut self, sides: &Sides, input: &Input, row: u8) -> Outcome {
        match self.ask(sides, input)? {
            refusal if refusal == row => Ok(()),
            refusal => Err(input.trouble(Mismatch::unexpected(row, "both", refusal))),
        }
    }

    /// A draft that meets this row, or none, in a buffer that is long enough and in one
    /// that is not.
    fn expect_draft(&mut self, sides: &Sides, what: &str, draft: &Draft, row: u8) -> Outcome {
        let length = draft.length();
        let long = length + [0, 1, 0, 40][self.turn % 4];
        let short = [0, 1, length / 2, length - 1][self.turn / 4 % 4];
        self.turn += 1;
        let in_short = if row == 0 { 27 } else { row };
        self.expect(sides, &Input::draft(what, draft, long), row)?;
        self.expect(sides, &Input::draft(what, draft, short), in_short)
    }

    /// Every field to its ends and past them.
    fn every_field(&mut self, sides: &Sides, base: &Draft) -> Outcome {
        for alteration in fields::all(base) {
            let Alteration { what, row, .. } = &alteration;
            self.expect_draft(sides, what, &alteration.of(base), *row)?;
        }
        Ok(())
    }

    /// Every row of a record with every other one of another record, or of the same.
    fn every_pair(&mut self, sides: &Sides, base: &Draft) -> Outcome {
        for pair in order::pairs(base) {
            self.expect_draft(sides, &pair.what, &pair.draft, pair.row)?;
            landmarks::mark_pair(&mut self.tally, pair.rows);
        }
        Ok(())
    }

    /// Every buffer length up to a little more than the sheet's.
    fn every_buffer(&mut self, sides: &Sides, draft: &Draft, step: usize) -> Outcome {
        let length = draft.length();
        let around = (length - 2)..(length + 20);
        for room in (0..length).step_by(step).chain(around) {
            let row = if room < length { 27 } else { 0 };
            let input = Input::draft("every buffer", draft, room);
            self.expect(sides, &input, row)?;
        }
        Ok(())
    }
}

/// Sheet S, the same with wheels and with paths, the smallest sheet, and a longest one.
fn bases(seed: u64) -> [Draft; 5] {
    let chance = &mut inputs::chance(seed, u64::MAX);
    let smallest = Sizes {
        zones: 1,
        units: 1,
        points: 0,
        pars: 0,
    };
    let smallest = drawn(chance, smallest, Scale::FULL);
    let mut longest = drawn(chance, Sizes::LONGEST, Scale::FULL);
    add_lake(chance, &mut longest, Scale::FULL);
    (longest.paths[0].flow, longest.paths[0].factor) = (-200_000, -10_000);
    let read = |records: Vec<Vec<u8>>| Second.read_draft(&records.concat()).draft;
    [
        read(draft::sheet_s()),
        read(draft::sheet_s_with_wheels()),
        read(draft::sheet_s_with_paths()),
        Draft::of(&smallest),
        Draft::of(&longest),
    ]
}

impl Question for Write {
    fn name(&self) -> &'static str {
        "write"
    }

    fn directed(&mut self, sides: &Sides, seed: u64) -> Outcome {
        let bases = bases(seed);
        for base in &bases {
            let sheet = Input::sheet("a sheet to be altered", base.sheet());
            self.expect(sides, &sheet, 0)?;
            if base.point_count > 0 {
                let sheet = earlier::with_points_of(earlier::BODY, &base.sheet());
                let earlier = Input::sheet("points of the earlier form", sheet);
                self.expect(sides, &earlier, 9)?;
            }
            self.every_field(sides, base)?;
            let made = counts::of(base).chain(order::factors(base));
            for (what, draft, row) in made.chain(order::into_zone_0(base)) {
                self.expect_draft(sides, &what, &draft, row)?;
            }
        }
        let [_, _, with_paths, ..] = &bases;
        self.every_pair(sides, with_paths)?;
        for (what, draft, row) in counts::surplus(&mut inputs::chance(seed, u64::MAX - 1)) {
            self.expect_draft(sides, &what, &draft, row)?;
        }
        Ok(())
    }

    fn share(&self, count: u64) -> u64 {
        count.div_ceil(INPUTS_PER_DRAFT)
    }

    fn seeded(&mut self, sides: &Sides, seed: u64, k: u64) -> Outcome {
        let mut input = inputs::input(seed, k);
        input.origin = format!("seed {seed} draft {k}: {}", input.origin);
        self.ask(sides, &input).map(|_| ())
    }

    fn sweeps(&mut self, sides: &Sides, seed: u64) -> Outcome {
        let [sheet_s, with_wheels, with_paths, smallest, longest] = &bases(seed);
        for draft in [sheet_s, with_wheels, with_paths, smallest] {
            self.every_buffer(sides, draft, 1)?;
        }
        self.every_buffer(sides, longest, 499)?;
        for records in [draft::sheet_s(), draft::sheet_s_with_paths()] {
            for sheet in damage::every_one(&records.concat()) {
                self.ask(sides, &Input::sheet("sheet S damaged", sheet))?;
            }
        }
        Ok(())
    }

    fn tally(&self) -> &Tally {
        &self.tally
    }
}

#[cfg(test)]
mod tests {
    use super::*;

    const SIDES: Sides = Sides {
        second: &Second,
        tested: &Second,
    };

    #[test]
    fn everything_is_met_as_expected() {
        let mut write = Write::default();
        let met = write.directed(&SIDES, 5).and(write.sweeps(&SIDES, 5));
        let met = met.and((0..3000).try_for_each(|k| write.seeded(&SIDES, 5, k)));
        let told = met.err().map(|trouble| trouble.to_string());
        assert_eq!(told, None);
        assert_eq!(write.tally.missing(), Vec::<String>::new());
    }
}
