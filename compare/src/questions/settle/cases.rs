//! The case files below tests/cases, made bytes by the text tool.

use std::path::Path;

use crate::questions::settle::{Expected, Input, Room};
use crate::text::{self, from_hex};

#[derive(Debug)]
pub struct Case {
    pub input: Input,
    pub expected: Vec<Expected>,
    pub every_truncation: bool,
    pub every_buffer: bool,
}

/// All cases below a folder.
pub fn load(folder: &Path) -> Result<Vec<Case>, String> {
    let cases = text::cases(folder)?.into_iter();
    cases
        .map(|lines| parse(&lines).ok_or(format!("not understood: {lines:?}")))
        .collect()
}

fn parse(lines: &[String]) -> Option<Case> {
    let mut case = Case {
        input: Input::of("", Vec::new(), Vec::new()),
        expected: Vec::new(),
        every_truncation: false,
        every_buffer: false,
    };
    for line in lines {
        let (word, rest) = line.split_once(' ').unwrap_or((line, ""));
        match word {
            "case" => case.input.origin = text::below_root(rest),
            "sheet" => case.input.sheet = from_hex(rest)?,
            "entitlements" => case.input.list = from_hex(rest)?,
            "buffer" => case.input.room = Room::Length(rest.parse().ok()?),
            "every-truncation" => case.every_truncation = true,
            "every-buffer" => case.every_buffer = true,
            "expect" => case.expected.push(expected(rest)?),
            _ => return None,
        }
    }
    Some(case)
}

fn expected(text: &str) -> Option<Expected> {
    Some(match text.split_once(' ') {
        None if text == "accepted" => Expected::Refusal(0),
        Some(("refused", number)) => Expected::Refusal(number.parse().ok()?),
        Some(("place", place)) => Expected::Place(place.parse().ok()?),
        Some(_) => Expected::Line(text.to_string()),
        None => return None,
    })
}

#[cfg(test)]
mod tests {
    use super::*;
    use crate::mismatch::Shown;
    use crate::questions::settle::inputs;
    use crate::sides::Second;

    #[test]
    fn what_is_expected_is_held_against_a_side() {
        let lines = ["case it", "sheet 01", "expect refused 3"].map(String::from);
        let case = parse(&lines).unwrap();
        let holds = |expected: &Expected, input| expected.holds(&Second, "second", input).is_ok();
        assert!(holds(&case.expected[0], &case.input));
        assert!(holds(&Expected::Place(0), &case.input));
        assert!(!holds(&Expected::Place(1), &case.input));
        let sheet_s = crate::questions::settle::directed::sheet_s();
        let line = |text: &str| Expected::Line(text.to_string());
        assert!(holds(&line("market 13187500"), &sheet_s));
        assert!(!holds(&line("market 1318750"), &sheet_s));
    }

    /// What a mismatch prints is read as the same bytes.
    #[test]
    fn printed_inputs_are_read_back() {
        let folder = std::env::temp_dir().join(format!("m2m-printed-{}", std::process::id()));
        std::fs::create_dir_all(&folder).unwrap();
        let inputs: Vec<Input> = (0..12).map(|k| inputs::input(11, k)).collect();
        for (k, input) in inputs.iter().enumerate() {
            let text = format!("# {k}\n{}expect accepted\n", input.text());
            std::fs::write(folder.join(format!("{k:04}.case")), text).unwrap();
        }
        let cases = load(&folder);
        std::fs::remove_dir_all(&folder).unwrap();
        let cases = cases.unwrap();
        assert_eq!(cases.len(), inputs.len());
        for (case, input) in cases.iter().zip(&inputs) {
            assert_eq!(case.input.sheet, input.sheet);
            assert_eq!(case.input.list, input.list);
        }
    }
}
