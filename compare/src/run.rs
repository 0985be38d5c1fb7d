//! A run through all questions.

use std::path::{Path, PathBuf};
use std::process::Command;

use crate::questions::{Outcome, Question};
use crate::sides::Sides;
use crate::text::root;

/// What a run is made of.
pub struct Plan {
    pub seed: u64,
    /// How many seeded inputs there are for `settle`; other questions take a share.
    pub count: u64,
    /// One of the seeded inputs alone.
    pub only: Option<u64>,
    /// One of the questions alone.
    pub question: Option<String>,
    /// Each bears its question's name.
    pub programs: Vec<PathBuf>,
}

impl Plan {
    pub fn of_seed(seed: u64) -> Self {
        Plan {
            seed,
            count: 20_000,
            only: None,
            question: None,
            programs: Vec::new(),
        }
    }

    pub fn asks(&self, question: &dyn Question) -> bool {
        let only = self.question.as_deref();
        only.is_none_or(|name| name == question.name())
    }
}

/// The question that a program answers.
pub fn asked_of(program: &Path) -> Option<&str> {
    program.file_name()?.to_str()
}

/// The seed of the commit that is checked out: its first 16 hexadecimal digits.
pub fn seed_of_commit() -> Option<u64> {
    let mut git = Command::new("git");
    let git = git.args(["rev-parse", "HEAD"]).current_dir(root());
    let output = git.output().ok()?;
    let digits = String::from_utf8(output.stdout).ok()?;
    u64::from_str_radix(digits.get(..16)?, 16).ok()
}

/// Asks the questions one by one; the first mismatch ends the run.
pub fn run(plan: &Plan, sides: &Sides, questions: &mut [Box<dyn Question>]) -> Outcome {
    for question in questions.iter_mut().filter(|it| plan.asks(it.as_ref())) {
        if let Some(k) = plan.only {
            question.seeded(sides, plan.seed, k)?;
            continue;
        }
        question.directed(sides, plan.seed)?;
        for k in 0..question.share(plan.count) {
            question.seeded(sides, plan.seed, k)?;
        }
        question.sweeps(sides, plan.seed)?;
        for program in &plan.programs {
            if asked_of(program) == Some(question.name()) {
                question.program(program, plan.seed)?;
            }
        }
    }
    Ok(())
}
