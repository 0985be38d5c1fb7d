//! The case files of hours below tests/hours, made bytes by the text tool.

use std::path::Path;

use crate::mismatch::Mismatch;
use crate::questions::hour::Input;
use crate::questions::hour::check::Step;
use crate::questions::settle;
use crate::sides::hours::HourTotals;
use crate::text::{self, from_hex};

#[derive(Clone, Debug)]
pub struct Case {
    pub input: Input,
    /// What is said of the last interval, and lines of the hour's totals.
    expected: Vec<String>,
}

/// All cases below a folder.
pub fn load(folder: &Path) -> Result<Vec<Case>, String> {
    let cases = text::cases(folder)?.into_iter();
    cases
        .map(|lines| parse(&lines).ok_or(format!("not understood: {lines:?}")))
        .collect()
}

fn parse(lines: &[String]) -> Option<Case> {
    let mut case = Case {
        input: Input::grown("", Vec::new()),
        expected: Vec::new(),
    };
    for line in lines {
        let (word, rest) = line.split_once(' ').unwrap_or((line, ""));
        match word {
            "case" => case.input.origin = text::below_root(rest),
            "hour" => {}
            "sheet" => {
                let sheet = from_hex(rest)?;
                let interval = settle::Input::of("a case's interval", sheet, Vec::new());
                case.input.intervals.push(interval);
            }
            "entitlements" => case.input.intervals.last_mut()?.list = from_hex(rest)?,
            "expect" => case.expected.push(rest.to_string()),
            _ => return None,
        }
    }
    Some(case)
}

impl Case {
    /// Whether the sides answer so.
    pub fn holds(&self, steps: &[Step], totals: &HourTotals) -> Result<(), Mismatch> {
        let told = told(steps, totals);
        let mut expected = self.expected.iter();
        match expected.find(|line| !told.contains(line)) {
            None => Ok(()),
            Some(line) => Err(Mismatch::unexpected(line, "both", told.join(", "))),
        }
    }
}

/// What is told of the last interval, and the totals.
fn told(steps: &[Step], totals: &HourTotals) -> Vec<String> {
    let mut told = match steps.last() {
        None => Vec::new(),
        Some(Step {
            before, changed, ..
        }) => match changed.refusal {
            0 => {
                let amount = changed.hour.amounts[before.count];
                vec![String::from("accepted"), format!("amount {amount}")]
            }
            number => vec![format!("refused {number}")],
        },
    };
    told.push(format!("seconds {}", totals.seconds));
    told.push(format!("amount {}", totals.amount));
    told.push(format!("NYISO {}", totals.nyiso));
    told.push(format!("PJM {}", totals.pjm));
    told
}

#[cfg(test)]
mod tests {
    use super::*;
    use crate::questions::hour::check::check;
    use crate::sides::hours::Hours;
    use crate::sides::{Second, Sides};
    use second::draft;
    use text::hex;

    /// Sheet S, taken, and an empty sheet.
    fn case(expected: &str) -> Case {
        let sheet = format!("sheet {}", hex(&draft::sheet_s().concat()));
        let list = format!("entitlements {}", hex(&draft::list_s()));
        let expected = format!("expect {expected}");
        let lines = ["case it", "hour", &sheet, &list, "sheet", &expected];
        parse(&lines.map(String::from)).unwrap()
    }

    #[test]
    fn what_is_expected_is_held_against_the_answers() {
        let sides = Sides {
            second: &Second,
            tested: &Second,
        };
        let holds = |expected| {
            let case = case(expected);
            let steps = check(&sides, &case.input).ok().unwrap();
            let totals = Second.totals(&steps[1].changed.hour);
            case.holds(&steps, &totals).is_ok()
        };
        assert!(holds("refused 1") && holds("seconds 300"));
        assert!(holds("amount 1328125") && holds("NYISO -1328125"));
        assert!(!holds("accepted") && !holds("refused 12"));
        assert!(!holds("amount 0") && !holds("PJM -1328125"));
    }
}
