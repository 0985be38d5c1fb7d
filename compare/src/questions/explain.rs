//! Which record refuses a sheet, and the reason for an accepted one's price: the same
//! inputs as for `settle`, and some for the part and the reason.

mod check;
mod directed;
mod landmarks;
mod part;

use std::path::Path;
use std::rc::Rc;

use second::explained;

use crate::chance::Chance;
use crate::mismatch::Mismatch;
use crate::questions::settle::cases::Case;
use crate::questions::settle::inputs::{input, longest_with_paths};
use crate::questions::settle::{self, Input, faults, one_record, own_rows, program};
use crate::questions::{Outcome, Question};
use crate::sides::{Explanation, Sides};
use crate::tally::Tally;
use directed::Directed;

/// How many of the settlement's seeded inputs stand for one here.
const INPUTS_PER_EXPLANATION: u64 = 2;
/// Behind the settlement's own: other inputs of the same seed.
const FIRST_SEEDED: u64 = 1 << 32;
/// One in so many beginnings of a longest sheet, which no divisor has in common with the
/// length of a record: every number of bytes present comes up.
const SWEEP_STEP: usize = 9;
/// The program is run on one in so many of the inputs made for a landmark.
const PROGRAM_STEP: usize = 7;

pub struct Explain {
    cases: Rc<[Case]>,
    /// Inputs made for a landmark, with the seed that they were made of.
    made: Option<(u64, Rc<[Directed]>)>,
    tally: Tally,
}

impl Explain {
    pub fn with_cases(cases: Rc<[Case]>) -> Self {
        Explain {
            cases,
            made: None,
            tally: landmarks::tally(),
        }
    }

    fn directed_inputs(&mut self, seed: u64) -> Rc<[Directed]> {
        let made = self.made.take().filter(|(of, _)| *of == seed);
        let (_, inputs) = made.unwrap_or_else(|| (seed, directed::all(seed).into()));
        self.made = Some((seed, Rc::clone(&inputs)));
        inputs
    }

    /// Asks both sides and counts what was met.
    fn ask(&mut self, sides: &Sides, input: &Input) -> Result<Explanation, Mismatch> {
        let explanation = check::check(sides, input)?;
        landmarks::mark(&mut self.tally, input, &explanation);
        Ok(explanation)
    }

    fn asked(&mut self, sides: &Sides, input: &Input) -> Outcome {
        let outcome = self.ask(sides, input);
        outcome.map(|_| ()).map_err(|it| input.trouble(it))
    }

    /// Asks both sides, and holds their answer against what is expected.
    fn expect(&mut self, sides: &Sides, (input, expected): &Directed) -> Outcome {
        let found = self.ask(sides, input).map_err(|it| input.trouble(it))?;
        let Some(expected) = expected.filter(|it| *it != found) else {
            return Ok(());
        };
        let [expected, found] = [expected, found].map(|it| format!("{it:?}"));
        Err(input.trouble(Mismatch::unexpected(expected, "both", found)))
    }

    fn case_files(&mut self, sides: &Sides) -> Outcome {
        for case in Rc::clone(&self.cases).iter() {
            self.asked(sides, &case.input)?;
            if case.every_truncation {
                self.every_truncation(sides, &case.input)?;
            }
        }
        Ok(())
    }

    fn every_truncation(&mut self, sides: &Sides, input: &Input) -> Outcome {
        let mut cuts = directed::truncations(input);
        cuts.try_for_each(|cut| self.expect(sides, &cut))
    }

    /// Every kind of record with every set of rows that it can meet, and every refusal with
    /// every other one.
    fn rows(&mut self, sides: &Sides, seed: u64) -> Outcome {
        for (k, faulty) in (0..).zip(one_record::all()) {
            let chance = &mut Chance::of(seed, u64::MAX - 1000 - k);
            self.asked(sides, &faulty.input(chance).0)?;
        }
        for row in own_rows() {
            for other in own_rows().filter(|other| *other >= row) {
                let chance = &mut Chance::of(seed, u64::MAX - 1);
                self.asked(sides, &faults::planted(chance, &[row, other]))?;
            }
        }
        Ok(())
    }
}

impl Question for Explain {
    fn name(&self) -> &'static str {
        "explain"
    }

    fn directed(&mut self, sides: &Sides, seed: u64) -> Outcome {
        self.case_files(sides)?;
        self.rows(sides, seed)?;
        for (input, _) in settle::directed::all(seed) {
            self.asked(sides, &input)?;
        }
        let directed = self.directed_inputs(seed);
        directed.iter().try_for_each(|it| self.expect(sides, it))
    }

    fn share(&self, count: u64) -> u64 {
        count.div_ceil(INPUTS_PER_EXPLANATION)
    }

    fn seeded(&mut self, sides: &Sides, seed: u64, k: u64) -> Outcome {
        let mut input = input(seed, FIRST_SEEDED + k);
        input.origin = format!("seed {seed} explanation {k}: {}", input.origin);
        self.asked(sides, &input)
    }

    /// Beginnings of sheets, and small ones with each bit turned.
    fn sweeps(&mut self, sides: &Sides, seed: u64) -> Outcome {
        for small in [
            settle::directed::sheet_s(),
            settle::directed::sheet_s_with_paths(),
        ] {
            self.every_truncation(sides, &small)?;
            let mut turned = directed::each_bit_turned(&small);
            turned.try_for_each(|input| self.asked(sides, &input))?;
        }
        let longest = longest_with_paths(&mut Chance::of(seed, u64::MAX));
        let mut cuts = directed::truncations(&longest).step_by(SWEEP_STEP);
        cuts.try_for_each(|cut| self.expect(sides, &cut))
    }

    fn program(&mut self, path: &Path, seed: u64) -> Outcome {
        let own = self.directed_inputs(seed);
        let own = own.iter().map(|(input, _)| input.clone());
        let directed = settle::directed::all(seed).into_iter();
        let directed = directed.map(|(input, _)| input).chain(own);
        let cases = self.cases.iter().map(|case| case.input.clone());
        let seeded = (0..settle::PROGRAM_INPUTS).map(|k| input(seed, FIRST_SEEDED + k));
        let directed = directed.step_by(PROGRAM_STEP);
        let inputs = cases.chain(directed).chain(seeded);
        let printed = |sheet: &[u8], list: &[u8]| explained(sheet, list).into_bytes();
        program::check_all(path, self.name(), printed, inputs)
    }

    fn tally(&self) -> &Tally {
        &self.tally
    }
}
