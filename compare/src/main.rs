//! compare: the proved settlement beside the second implementation.

use std::process::ExitCode;
use std::time::Instant;

use compare::library::Library;
use compare::questions::{self, CaseFiles, Question};
use compare::run::{Plan, asked_of, run, seed_of_commit};
use compare::sides::{Second, Sides};

const USAGE: &str = "compare [options]
  --seed N         seed of the inputs (from the commit, or 1)
  --count M        how many seeded inputs (20000), and 1 in 20 of them hours, 1 in 2
                   sheets read as drafts and drafts written, 1 in 2 explanations
  --only K         the K-th input of the seed alone
  --question NAME  one question alone: settle, hour, write or explain
  --cases FOLDER   folder of the case files (tests/cases)
  --hours FOLDER   folder of those of hours (tests/hours)
  --program PATH   run this program too, settle, hour or explain by its name; as
                   often as there are programs";

fn options(mut words: impl Iterator<Item = String>) -> Option<(Plan, CaseFiles)> {
    let mut plan = Plan::of_seed(seed_of_commit().unwrap_or(1));
    let mut cases = CaseFiles::default();
    while let Some(word) = words.next() {
        let value = words.next()?;
        match word.as_str() {
            "--seed" => plan.seed = value.parse().ok()?,
            "--count" => plan.count = value.parse().ok()?,
            "--only" => plan.only = Some(value.parse().ok()?),
            "--cases" => cases.settle = value.into(),
            "--hours" => cases.hour = value.into(),
            "--question" => plan.question = Some(value),
            "--program" => plan.programs.push(value.into()),
            _ => return None,
        }
    }
    Some((plan, cases))
}

/// All questions, among them those that the plan names.
fn questions_for(plan: &Plan, cases: &CaseFiles) -> Result<Vec<Box<dyn Question>>, String> {
    let questions = questions::all(cases)?;
    let programs = plan.programs.iter().map(|it| asked_of(it).unwrap_or(""));
    for name in programs.chain(plan.question.as_deref()) {
        if questions.iter().all(|question| question.name() != name) {
            return Err(format!("no question has the name {name:?}"));
        }
    }
    Ok(questions)
}

/// Tells what was met, and what never was.
fn report(plan: &Plan, questions: &[Box<dyn Question>]) -> Vec<String> {
    let mut missing = Vec::new();
    for question in questions.iter().filter(|it| plan.asks(it.as_ref())) {
        println!("{}: {}", question.name(), question.tally());
        missing.extend(question.tally().missing());
    }
    missing
}

fn main() -> ExitCode {
    let Some((plan, cases)) = options(std::env::args().skip(1)) else {
        eprintln!("{USAGE}");
        return ExitCode::from(2);
    };
    println!("seed {}", plan.seed);
    let began = Instant::now();
    let mut questions = match questions_for(&plan, &cases) {
        Ok(questions) => questions,
        Err(fault) => {
            eprintln!("{fault}");
            return ExitCode::FAILURE;
        }
    };
    let sides = Sides {
        second: &Second,
        tested: &Library,
    };
    let outcome = run(&plan, &sides, &mut questions);
    println!("{:.1} s", began.elapsed().as_secs_f64());
    if let Err(trouble) = outcome {
        println!("{trouble}");
        return ExitCode::FAILURE;
    }
    let missing = report(&plan, &questions);
    println!("no mismatch");
    if missing.is_empty() || plan.only.is_some() {
        return ExitCode::SUCCESS;
    }
    println!("never met: {}", missing.join(", "));
    ExitCode::FAILURE
}
