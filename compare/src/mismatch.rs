//! What a comparison can find.

use std::fmt::{Debug, Display};

/// An answer on which the sides differ, or that is not as accurate as demanded.
#[derive(Debug)]
pub struct Mismatch {
    pub what: String,
    /// Both answers, each behind the name of its side.
    pub answers: [String; 2],
}

impl Mismatch {
    pub fn of(what: &str, second: impl Display, tested: impl Display) -> Self {
        Mismatch {
            what: what.to_string(),
            answers: [format!("second: {second}"), format!("tested: {tested}")],
        }
    }

    /// An answer that is not the one that document 01 gives.
    pub fn unexpected(expected: impl Display, side: &str, found: impl Display) -> Self {
        Mismatch {
            what: String::from("not as expected"),
            answers: [format!("expected: {expected}"), format!("{side}: {found}")],
        }
    }
}

/// Holds an answer of both sides against each other.
pub fn same<T: PartialEq + Debug>(what: &str, second: T, tested: T) -> Result<(), Mismatch> {
    if second == tested {
        return Ok(());
    }
    let [second, tested] = [second, tested].map(|answer| format!("{answer:?}"));
    Err(Mismatch::of(what, second, tested))
}

/// An input that can be shown.
pub trait Shown {
    /// How the input came about.
    fn origin(&self) -> String;

    /// The input as readable text.
    fn text(&self) -> String;
}

/// A mismatch with the input that shows it.
pub struct Trouble {
    pub mismatch: Mismatch,
    pub input: Option<Box<dyn Shown>>,
}

impl Trouble {
    /// A run that could not be made.
    pub fn outside(what: &str, fault: impl Display) -> Box<Self> {
        Box::new(Trouble {
            mismatch: Mismatch::of(what, "", fault),
            input: None,
        })
    }
}

impl Display for Trouble {
    fn fmt(&self, f: &mut std::fmt::Formatter) -> std::fmt::Result {
        writeln!(f, "MISMATCH: {}", self.mismatch.what)?;
        if let Some(input) = &self.input {
            writeln!(f, "# {}\n{}", input.origin(), input.text())?;
        }
        write!(f, "{}", self.mismatch.answers.join("\n"))
    }
}
