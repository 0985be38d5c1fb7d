//! Programs that read sheet.bin and entitle.bin in their working folder.

use std::path::Path;

use second::draft;

use crate::mismatch::{Mismatch, Trouble};
use crate::program::{Program, Supply};
use crate::questions::Outcome;
use crate::questions::settle::Input;

const SHEET_FILE: &str = "sheet.bin";
const LIST_FILE: &str = "entitle.bin";

/// A program of one interval.
struct OfInterval {
    program: Program,
    /// How it calls itself.
    name: &'static str,
    /// What it is to print for a sheet and a list.
    printed: fn(&[u8], &[u8]) -> Vec<u8>,
}

/// Runs the program at a path on these inputs, on long files and on files that are missing
/// or can't be read.
pub fn check_all(
    path: &Path,
    name: &'static str,
    printed: fn(&[u8], &[u8]) -> Vec<u8>,
    inputs: impl Iterator<Item = Input>,
) -> Outcome {
    let what = format!("program {}", path.display());
    let program = Program::at(path).map_err(|error| Trouble::outside(&what, error))?;
    let program = OfInterval {
        program,
        name,
        printed,
    };
    let mut runs = program.check_absent_files()?;
    for input in inputs.chain(long_files()) {
        program.check(&input).map_err(|it| input.trouble(it))?;
        runs += 1;
    }
    println!("{what}: {runs} runs");
    Ok(())
}

impl OfInterval {
    /// Files that are missing or can't be read count as empty; how many runs there were.
    fn check_absent_files(&self) -> Result<u64, Box<Trouble>> {
        let input = Input::of(
            "files missing or unreadable",
            draft::sheet_s().concat(),
            draft::list_s(),
        );
        let mut runs = 0;
        for sheet in Supply::ALL {
            for list in Supply::ALL {
                let outcome = self.check_supplied(&input, [sheet, list]);
                outcome.map_err(|mismatch| input.trouble(mismatch))?;
                runs += 1;
            }
        }
        Ok(runs)
    }

    /// Holds the printed text against the second implementation's.
    fn check(&self, input: &Input) -> Result<(), Mismatch> {
        self.check_supplied(input, [Supply::Written; 2])
    }

    fn check_supplied(&self, input: &Input, supplied: [Supply; 2]) -> Result<(), Mismatch> {
        let [sheet, list] = supplied;
        self.program.supply(SHEET_FILE, &input.sheet, sheet)?;
        self.program.supply(LIST_FILE, &input.list, list)?;
        let expected = (self.printed)(sheet.seen(&input.sheet), list.seen(&input.list));
        let told = sheet.told(self.name, SHEET_FILE) + &list.told(self.name, LIST_FILE);
        self.program.hold(&[], &expected, &told)
    }
}

/// Inputs with files longer than any sheet or list.
fn long_files() -> Vec<Input> {
    let (sheet, list) = (draft::sheet_s().concat(), draft::list_s());
    let mut inputs = Vec::new();
    for length in [28_004, 28_101, 28_136, 65_535, 65_536, 65_537, 200_000] {
        for filling in [0, 1, 6, 7, 8, 0x10] {
            let mut long = Input::of("a long sheet file", sheet.clone(), list.clone());
            long.sheet.resize(length, filling);
            inputs.push(long);
            let mut long = Input::of("a long list file", sheet.clone(), list.clone());
            long.list.resize(length, filling);
            inputs.push(long);
        }
    }
    inputs
}
