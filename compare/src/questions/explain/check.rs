//! One explanation on both sides, and what must hold of the tested side's own answers.

use crate::mismatch::{Mismatch, same};
use crate::questions::explain::part;
use crate::questions::settle::Input;
use crate::sides::{Explanation, Figures, Side, Sides};

/// The last row that a record meets.
pub const LAST_OF_RECORDS: u8 = 11;

pub fn check(sides: &Sides, input: &Input) -> Result<Explanation, Mismatch> {
    let (sheet, list) = (&input.sheet[..], &input.list[..]);
    let explanation = sides.tested.explain(sheet, list);
    same(
        "explanation",
        sides.second.explain(sheet, list),
        explanation,
    )?;
    by_itself(sides.tested, sheet, list, &explanation)?;
    Ok(explanation)
}

/// Holds a side's explanation against its other answers and the papers.
fn by_itself(
    side: &dyn Side,
    sheet: &[u8],
    list: &[u8],
    explanation: &Explanation,
) -> Result<(), Mismatch> {
    by_the_settlement(explanation, &side.settle(sheet, list))?;
    by_the_reader(side, sheet, explanation)?;
    by_the_papers(sheet, explanation)
}

fn hold(holds: bool, expected: &str, explanation: &Explanation) -> Result<(), Mismatch> {
    let found = || format!("{explanation:?}");
    match holds {
        true => Ok(()),
        false => Err(Mismatch::unexpected(expected, "tested", found())),
    }
}

/// The number is the settlement's own; the reason goes by its flow and entitlement, and a
/// refusal has none.
fn by_the_settlement(explanation: &Explanation, figures: &Figures) -> Result<(), Mismatch> {
    let number = figures.refusal;
    let expected = format!("the settlement's number, {number}");
    hold(explanation.refusal == number, &expected, explanation)?;
    let reason = match (number, (figures.settled - figures.entitlement).signum()) {
        (0, 1) => 1,
        (0, -1) => 2,
        (0, _) => 3,
        _ => 0,
    };
    let expected = format!("the reason {reason}");
    hold(explanation.reason == reason, &expected, explanation)
}

/// The part begins where the reader met the fault. No record before it is faulty, and what
/// is behind it does not matter.
fn by_the_reader(side: &dyn Side, sheet: &[u8], explanation: &Explanation) -> Result<(), Mismatch> {
    let &Explanation {
        refusal, from, to, ..
    } = explanation;
    let within = from <= to && to <= sheet.len();
    hold(within, "a part of the sheet", explanation)?;
    let sound = from == 0 || !is_of_record(side.read(&sheet[..from]).refusal);
    hold(sound, "no faulty record before the part", explanation)?;
    if is_of_record(refusal) {
        let met = side.read(&sheet[..to]);
        let same = (met.refusal, met.place) == (refusal, from);
        hold(
            same,
            "the same refusal by the part as the last",
            explanation,
        )?;
    }
    Ok(())
}

fn is_of_record(refusal: u8) -> bool {
    (1..=LAST_OF_RECORDS).contains(&refusal)
}

fn by_the_papers(sheet: &[u8], explanation: &Explanation) -> Result<(), Mismatch> {
    let expected = "the part that the papers give to the row";
    hold(part::holds(sheet, explanation), expected, explanation)
}

#[cfg(test)]
mod tests {
    use super::*;
    use crate::sides::Second;
    use second::draft::{self, factor, head, name, unit, zone};

    fn sheet() -> Vec<Vec<u8>> {
        vec![
            head(name(b"A\\B"), 1, 300, [5, 6]),
            zone(name(b"Z"), 10, 0),
            unit(name(b"U"), 1, 10),
            factor(0, 1, 1, 0),
            factor(0, 2, 1, 0),
        ]
    }

    /// One explanation holds, and no other one.
    fn assert_alone(sheet: &[u8], list: &[u8]) {
        let right = Second.explain(sheet, list);
        let holds = |it: Explanation| by_itself(&Second, sheet, list, &it).is_ok();
        for refusal in 0..=28 {
            for reason in 0..=4 {
                let other = Explanation {
                    refusal,
                    reason,
                    ..right
                };
                assert_eq!(holds(other), other == right, "{other:?}");
            }
        }
        for from in 0..=sheet.len() + 1 {
            for to in 0..=sheet.len() + 1 {
                let other = Explanation { from, to, ..right };
                assert_eq!(holds(other), other == right, "{other:?}");
            }
        }
    }

    #[test]
    fn one_explanation_holds() {
        let list = &draft::list_s()[..];
        let whole = sheet().concat();
        for length in 0..=whole.len() {
            assert_alone(&whole[..length], list);
        }
        for value in [0, 100, -100] {
            assert_alone(&whole, &draft::entitlement(name(b"A\\B"), value));
        }
        assert_alone(&whole, &[]);
        assert_alone(&whole, &[0]);
        for at in 0..whole.len() {
            let mut altered = whole.clone();
            altered[at] ^= 0x41;
            assert_alone(&altered, list);
        }
        for (at, record) in [(1, 0), (3, 1), (2, 1), (5, 4), (5, 2)] {
            let mut records = sheet();
            records.insert(at, records[record].clone());
            assert_alone(&records.concat(), list);
        }
    }
}
