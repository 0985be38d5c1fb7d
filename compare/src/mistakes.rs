//! Runs the comparison with copies of the second implementation that hold one mistake
//! each (second/mistakes): every one must be found.

use std::panic::{AssertUnwindSafe, catch_unwind};
use std::process::ExitCode;
use std::time::Instant;

use crate::library::Library;
use crate::mismatch::Trouble;
use crate::questions::{self, CaseFiles, Question};
use crate::run::{Plan, run, seed_of_commit};
use crate::sides::{Reference, Sides};

/// What a run finds first, in one line.
fn finding(trouble: &Trouble) -> String {
    let origin = trouble.input.as_ref().map(|input| input.origin());
    let origin = origin.unwrap_or_default();
    format!("{}, by {origin}", trouble.mismatch.what)
}

/// A copy with one mistake.
pub struct Mistake<'a> {
    pub name: &'a str,
    /// The question that must find it; any of them where none is named.
    pub question: Option<&'a str>,
    pub second: &'a dyn Reference,
}

/// What a run with this mistake finds, if anything.
fn found(
    mistake: &Mistake,
    plan: &mut Plan,
    questions: &mut [Box<dyn Question>],
) -> Option<String> {
    plan.question = mistake.question.map(String::from);
    let sides = Sides {
        second: mistake.second,
        tested: &Library,
    };
    match catch_unwind(AssertUnwindSafe(|| run(plan, &sides, questions))) {
        Ok(Ok(())) => None,
        Ok(Err(trouble)) => Some(finding(&trouble)),
        Err(_) => Some(String::from("it gives up")),
    }
}

/// Runs the default comparison with each; fails if a mistake is not found.
pub fn find_all(mistakes: &[Mistake]) -> ExitCode {
    let mut questions = match questions::all(&CaseFiles::default()) {
        Ok(questions) => questions,
        Err(fault) => {
            eprintln!("{fault}");
            return ExitCode::FAILURE;
        }
    };
    let mut plan = Plan::of_seed(seed_of_commit().unwrap_or(1));
    println!("seed {}", plan.seed);
    // A mistake may make the copy itself give up.
    std::panic::set_hook(Box::new(|_| {}));
    let mut missed = 0;
    for mistake in mistakes {
        let began = Instant::now();
        let found = found(mistake, &mut plan, &mut questions);
        missed += usize::from(found.is_none());
        let found = found.unwrap_or(String::from("NOT FOUND"));
        let seconds = began.elapsed().as_secs_f64();
        println!("{seconds:6.1} s  {}: {found}", mistake.name);
    }
    println!("{} mistakes, {missed} not found", mistakes.len());
    match missed {
        0 => ExitCode::SUCCESS,
        _ => ExitCode::FAILURE,
    }
}
