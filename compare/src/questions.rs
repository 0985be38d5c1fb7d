//! What is asked of both sides. A question has its own inputs, check, tally and
//! landmarks; another one adds a file here and a line to `all`.

pub mod explain;
pub mod hour;
pub mod settle;
pub mod write;

use std::path::{Path, PathBuf};
use std::rc::Rc;

use crate::mismatch::Trouble;
use crate::sides::Sides;
use crate::tally::Tally;
use crate::text::root;

pub type Outcome = Result<(), Box<Trouble>>;

pub trait Question {
    fn name(&self) -> &'static str;

    /// The inputs that every run makes: case files, and inputs made for a landmark.
    fn directed(&mut self, sides: &Sides, seed: u64) -> Outcome;

    /// How many seeded inputs it takes in a run that has so many for `settle`.
    fn share(&self, count: u64) -> u64 {
        count
    }

    /// The k-th input of a seed.
    fn seeded(&mut self, sides: &Sides, seed: u64, k: u64) -> Outcome;

    /// Long rows of inputs that are nearly alike.
    fn sweeps(&mut self, sides: &Sides, seed: u64) -> Outcome;

    /// The same question to a program.
    fn program(&mut self, program: &Path, _seed: u64) -> Outcome {
        let what = format!("program {}", program.display());
        Err(Trouble::outside(&what, "no program answers this question"))
    }

    fn tally(&self) -> &Tally;
}

/// The folders of the case files.
pub struct CaseFiles {
    pub settle: PathBuf,
    pub hour: PathBuf,
}

impl Default for CaseFiles {
    fn default() -> Self {
        CaseFiles {
            settle: root().join("tests/cases"),
            hour: root().join("tests/hours"),
        }
    }
}

/// All questions, with their case files.
pub fn all(cases: &CaseFiles) -> Result<Vec<Box<dyn Question>>, String> {
    let of_intervals = Rc::from(settle::cases::load(&cases.settle)?);
    Ok(vec![
        Box::new(settle::Settle::with_cases(Rc::clone(&of_intervals))),
        Box::new(hour::Hours::with_cases(&cases.hour)?),
        Box::new(write::Write::default()),
        Box::new(explain::Explain::with_cases(of_intervals)),
    ])
}
