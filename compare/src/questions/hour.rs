//! Whole hours: intervals added one by one to hours of 0 to 60, and their totals.

mod any;
mod cases;
mod check;
mod directed;
mod inputs;
mod landmarks;
mod program;

use std::ops::Range;
use std::path::Path;
use std::rc::Rc;

use crate::mismatch::{Mismatch, Shown, Trouble};
use crate::program::Program;
use crate::questions::settle::own_rows;
use crate::questions::{Outcome, Question, settle};
use crate::sides::Sides;
use crate::sides::hours::Hour;
use crate::tally::Tally;
use cases::Case;
use check::Step;
use directed::Directed;

#[derive(Clone, Debug)]
pub struct Input {
    /// What the intervals are added to; an hour that is opened where there is none.
    pub before: Option<Hour>,
    pub intervals: Vec<settle::Input>,
    /// How the input came about.
    pub origin: String,
}

impl Input {
    pub fn grown(origin: &str, intervals: Vec<settle::Input>) -> Self {
        Input {
            before: None,
            intervals,
            origin: origin.to_string(),
        }
    }

    /// A mismatch where these of the intervals are added to an hour.
    fn trouble(&self, hour: &Hour, added: Range<usize>, mismatch: Mismatch) -> Box<Trouble> {
        Box::new(Trouble {
            mismatch,
            input: Some(Box::new(Place {
                input: self.clone(),
                hour: *hour,
                added,
            })),
        })
    }

    /// A mismatch where all of the intervals are added.
    fn trouble_of_all(&self, mismatch: Mismatch) -> Box<Trouble> {
        let before = self.before.unwrap_or(Hour::EMPTY);
        self.trouble(&before, 0..self.intervals.len(), mismatch)
    }
}

/// Where the sides differ.
struct Place {
    input: Input,
    hour: Hour,
    added: Range<usize>,
}

impl Shown for Place {
    fn origin(&self) -> String {
        self.input.origin.clone()
    }

    /// The hour, then the intervals that are added to it.
    fn text(&self) -> String {
        let mut text = format!("{:?}\n", self.hour);
        for k in self.added.clone() {
            let interval = &self.input.intervals[k];
            text += &format!("# interval {}: {}\n", k + 1, interval.origin);
            text += &interval.text();
        }
        text
    }
}

/// How many of the settlement's seeded inputs stand for one hour here.
const INPUTS_PER_HOUR: u64 = 20;
/// How many seeded hours the program is run on.
const PROGRAM_HOURS: u64 = 60;

pub struct Hours {
    cases: Rc<[Case]>,
    /// Hours made for a landmark, with the seed that they were made of.
    made: Option<(u64, Rc<[Directed]>)>,
    tally: Tally,
}

impl Hours {
    /// With the case files below a folder.
    pub fn with_cases(folder: &Path) -> Result<Self, String> {
        Ok(Hours {
            cases: cases::load(folder)?.into(),
            made: None,
            tally: landmarks::tally(),
        })
    }

    fn directed_hours(&mut self, seed: u64) -> Rc<[Directed]> {
        let made = self.made.take().filter(|(of, _)| *of == seed);
        let (_, hours) = made.unwrap_or_else(|| (seed, directed::all(seed).into()));
        self.made = Some((seed, Rc::clone(&hours)));
        hours
    }

    /// Asks both sides and counts what was met.
    fn ask<'a>(&mut self, sides: &Sides, input: &'a Input) -> Result<Vec<Step<'a>>, Box<Trouble>> {
        let steps = check::check(sides, input)?;
        landmarks::mark(&mut self.tally, input, &steps);
        Ok(steps)
    }

    /// Asks both sides, and holds their answers against what is expected.
    fn expect(&mut self, sides: &Sides, (input, expected): &Directed) -> Outcome {
        let steps = self.ask(sides, input)?;
        let answers: Vec<u8> = steps.iter().map(|step| step.changed.refusal).collect();
        if answers == *expected {
            return Ok(());
        }
        let [expected, answers] = [expected, &answers].map(|it| format!("{it:?}"));
        Err(input.trouble_of_all(Mismatch::unexpected(expected, "both", answers)))
    }

    fn case_files(&mut self, sides: &Sides) -> Outcome {
        for case in Rc::clone(&self.cases).iter() {
            let steps = self.ask(sides, &case.input)?;
            let hour = steps.last().map_or(Hour::EMPTY, |step| step.changed.hour);
            let met = case.holds(&steps, &sides.tested.totals(&hour));
            met.map_err(|mismatch| case.input.trouble_of_all(mismatch))?;
        }
        Ok(())
    }
}

impl Question for Hours {
    fn name(&self) -> &'static str {
        "hour"
    }

    fn directed(&mut self, sides: &Sides, seed: u64) -> Outcome {
        self.case_files(sides)?;
        let hours = self.directed_hours(seed);
        hours.iter().try_for_each(|hour| self.expect(sides, hour))
    }

    fn share(&self, count: u64) -> u64 {
        count.div_ceil(INPUTS_PER_HOUR)
    }

    fn seeded(&mut self, sides: &Sides, seed: u64, k: u64) -> Outcome {
        let mut input = inputs::input(seed, k);
        input.origin = format!("seed {seed} hour {k}: {}", input.origin);
        self.ask(sides, &input).map(|_| ())
    }

    fn sweeps(&mut self, sides: &Sides, seed: u64) -> Outcome {
        let mut hours = directed::just_filled(seed);
        hours.try_for_each(|hour| self.expect(sides, &hour))
    }

    fn program(&mut self, path: &Path, seed: u64) -> Outcome {
        let what = format!("program {}", path.display());
        let program = Program::at(path).map_err(|error| Trouble::outside(&what, error))?;
        let mut runs = program::check_absent_files(&program)?;
        let directed = self.directed_hours(seed);
        let cases = self.cases.iter().map(|case| case.input.clone());
        let directed = directed.iter().map(|(input, _)| input.clone());
        let seeded = (0..PROGRAM_HOURS).map(|k| inputs::input(seed, k));
        let hours = cases.chain(directed).chain(seeded);
        let hours = hours.chain(program::long_files());
        for input in hours.filter(|input| input.before.is_none()) {
            program::check(&program, &input)?;
            runs += 1;
        }
        println!("{what}: {runs} runs");
        Ok(())
    }

    fn tally(&self) -> &Tally {
        &self.tally
    }
}
