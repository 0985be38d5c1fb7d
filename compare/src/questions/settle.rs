//! The settlement of one interval, with its listing, its reading and its look-up.

mod bounds;
pub(super) mod cases;
pub(super) mod check;
pub(super) mod directed;
pub(super) mod earlier;
mod expected;
pub(super) mod faults;
pub(super) mod inputs;
pub(super) mod landmarks;
pub(super) mod one_record;
pub(super) mod program;

use std::path::Path;
use std::rc::Rc;

use second::{Refusal, printed, settle};

use crate::chance::Chance;
use crate::mismatch::{Mismatch, Shown, Trouble};
use crate::questions::{Outcome, Question};
use crate::sides::{Side, Sides};
use crate::tally::Tally;
use crate::text;
use cases::Case;
use check::Answer;
use directed::Directed;
pub(super) use expected::Expected;

/// The output buffer's length.
#[derive(Clone, Copy, Debug)]
pub enum Room {
    Length(usize),
    /// As long as the listing and this much more, or less.
    Listing(i64),
}

#[derive(Clone, Debug)]
pub struct Input {
    pub sheet: Vec<u8>,
    pub list: Vec<u8>,
    pub room: Room,
    /// How the input came about.
    pub origin: String,
}

impl Input {
    pub fn of(origin: &str, sheet: Vec<u8>, list: Vec<u8>) -> Self {
        Input {
            sheet,
            list,
            room: Room::Listing(40),
            origin: origin.to_string(),
        }
    }

    /// What the second implementation answers.
    pub fn answer(&self) -> Answer {
        second::settle(&self.sheet, &self.list)
    }

    pub(super) fn trouble(&self, mismatch: Mismatch) -> Box<Trouble> {
        Box::new(Trouble {
            mismatch,
            input: Some(Box::new(self.clone())),
        })
    }
}

impl Shown for Input {
    fn origin(&self) -> String {
        self.origin.clone()
    }

    /// A case file that expects nothing yet.
    fn text(&self) -> String {
        let (sheet, list) = (text::sheet(&self.sheet), text::entitlements(&self.list));
        let buffer = check::room(self, &self.answer());
        format!("sheet\n{sheet}entitlements\n{list}buffer {buffer}\n")
    }
}

/// The refusals that an interval has of its own, where nothing is printed.
pub(super) fn own_rows() -> impl Iterator<Item = u8> {
    let printing = Refusal::BufferTooShort.number();
    Refusal::of_statement().filter(move |row| *row != printing)
}

/// The tally's groups.
const ANSWERS: usize = 0;
const LANDMARKS: usize = 1;
const PAIRS: usize = 2;

/// How many seeded inputs the program is run on.
pub(super) const PROGRAM_INPUTS: u64 = 400;

pub struct Settle {
    cases: Rc<[Case]>,
    /// Inputs made for a landmark, with the seed that they were made of.
    made: Option<(u64, Rc<[Directed]>)>,
    tally: Tally,
}

impl Settle {
    pub fn with_cases(cases: Rc<[Case]>) -> Self {
        let refusals = Refusal::of_statement().map(|number| format!("refused {number}"));
        let answers = [String::from("accepted")].into_iter().chain(refusals);
        let pairs = one_record::pairs();
        let pairs = pairs.iter().map(one_record::Pair::to_string);
        Settle {
            cases,
            made: None,
            tally: Tally::default()
                .with("answers", answers.collect(), true)
                .with("landmarks", landmarks::names(), true)
                .with("pairs of rows on one record", pairs.collect(), false),
        }
    }

    fn directed_inputs(&mut self, seed: u64) -> Rc<[Directed]> {
        let made = self.made.take().filter(|(of, _)| *of == seed);
        let (_, inputs) = made.unwrap_or_else(|| (seed, directed::all(seed).into()));
        self.made = Some((seed, Rc::clone(&inputs)));
        inputs
    }

    /// Asks both sides and counts what was met.
    fn ask(&mut self, sides: &Sides, input: &Input) -> Outcome {
        let answer = input.answer();
        let outcome = check::check(sides, input, &answer);
        let refusal = outcome.map_err(|it| input.trouble(it))?;
        self.tally.count();
        let place = Refusal::of_statement().position(|number| number == refusal);
        self.tally.mark(ANSWERS, place.map_or(0, |it| it + 1));
        for landmark in landmarks::shown(input, &answer) {
            self.tally.mark(LANDMARKS, landmark);
        }
        Ok(())
    }

    /// Holds both sides against what is expected, and then against each other.
    fn expect(&mut self, sides: &Sides, input: &Input, expected: &[Expected]) -> Outcome {
        let both: [(&dyn Side, &str); 2] = [(sides.second, "second"), (sides.tested, "tested")];
        for (side, name) in both {
            for expected in expected {
                let met = expected.holds(side, name, input);
                met.map_err(|it| input.trouble(it))?;
            }
        }
        self.ask(sides, input)
    }

    fn case_files(&mut self, sides: &Sides) -> Outcome {
        for case in Rc::clone(&self.cases).iter() {
            self.expect(sides, &case.input, &case.expected)?;
            if case.every_truncation {
                self.every_truncation(sides, &case.input)?;
            }
            if case.every_buffer {
                self.every_buffer(sides, &case.input)?;
            }
        }
        Ok(())
    }

    fn every_truncation(&mut self, sides: &Sides, input: &Input) -> Outcome {
        for (input, expected) in directed::truncations(input) {
            self.expect(sides, &input, &expected)?;
        }
        Ok(())
    }

    /// Every buffer length from 0 to a little more than the listing's.
    fn every_buffer(&mut self, sides: &Sides, input: &Input) -> Outcome {
        for length in 0..check::listing_length(&input.answer()) + 20 {
            let mut input = input.clone();
            input.room = Room::Length(length);
            self.ask(sides, &input)?;
        }
        Ok(())
    }

    /// Figures on the bounds, and a step past them.
    fn bounds(&mut self, sides: &Sides) -> Outcome {
        for input in [directed::sheet_s(), directed::sheet_s_with_paths()] {
            let held = bounds::check(sides, &input);
            held.map_err(|it| input.trouble(it))?;
        }
        Ok(())
    }

    /// Every kind of record with every set of rows that it can meet.
    fn rows_on_one_record(&mut self, sides: &Sides, seed: u64) -> Outcome {
        for (k, faulty) in (0..).zip(one_record::all()) {
            let chance = &mut Chance::of(seed, u64::MAX - 1000 - k);
            let (input, expected) = faulty.input(chance);
            self.expect(sides, &input, &expected)?;
            if let Some(pair) = faulty.pair() {
                self.tally.mark(PAIRS, pair);
            }
        }
        Ok(())
    }

    /// Every refusal by itself and with every other one, anywhere on the input.
    fn rows_anywhere(&mut self, sides: &Sides, seed: u64) -> Outcome {
        for row in Refusal::of_statement() {
            for other in Refusal::of_statement().filter(|other| *other >= row) {
                let chance = &mut Chance::of(seed, u64::MAX - 1);
                self.ask(sides, &faults::planted(chance, &[row, other]))?;
            }
        }
        Ok(())
    }
}

impl Question for Settle {
    fn name(&self) -> &'static str {
        "settle"
    }

    fn directed(&mut self, sides: &Sides, seed: u64) -> Outcome {
        self.case_files(sides)?;
        self.rows_on_one_record(sides, seed)?;
        self.rows_anywhere(sides, seed)?;
        for (input, expected) in self.directed_inputs(seed).iter() {
            self.expect(sides, input, expected)?;
        }
        self.bounds(sides)
    }

    fn seeded(&mut self, sides: &Sides, seed: u64, k: u64) -> Outcome {
        let mut input = inputs::input(seed, k);
        input.origin = format!("seed {seed} input {k}: {}", input.origin);
        self.ask(sides, &input)
    }

    fn sweeps(&mut self, sides: &Sides, seed: u64) -> Outcome {
        let longest = inputs::longest_with_paths(&mut Chance::of(seed, u64::MAX));
        let (sheet_s, with_paths) = (directed::sheet_s(), directed::sheet_s_with_paths());
        for input in [&sheet_s, &with_paths, &longest] {
            self.every_truncation(sides, input)?;
            self.every_buffer(sides, input)?;
        }
        Ok(())
    }

    fn program(&mut self, path: &Path, seed: u64) -> Outcome {
        let directed = self.directed_inputs(seed);
        let cases = self.cases.iter().map(|case| case.input.clone());
        let directed = directed.iter().map(|(input, _)| input.clone());
        let seeded = (0..PROGRAM_INPUTS).map(|k| inputs::input(seed, k));
        let inputs = cases.chain(directed).chain(seeded);
        let listed = |sheet: &[u8], list: &[u8]| printed(&settle(sheet, list));
        program::check_all(path, self.name(), listed, inputs)
    }

    fn tally(&self) -> &Tally {
        &self.tally
    }
}
