//! Runs the program that adds sheets to an hour, all of them with one list.

use second::draft;
use second::hour::printed_hour;

use crate::chance::Chance;
use crate::mismatch::{Mismatch, Trouble};
use crate::program::{Program, Supply};
use crate::questions::hour::Input;
use crate::questions::settle;
use crate::questions::settle::inputs::point_behind_the_longest;
use crate::sides::hours::Hour;

const LIST_FILE: &str = "list.bin";

/// Holds the printed text against the second implementation's, with the first
/// interval's list for all.
pub fn check(program: &Program, input: &Input) -> Result<(), Box<Trouble>> {
    let supplies = vec![Supply::Written; input.intervals.len()];
    check_supplied(program, input, Supply::Written, &supplies)
}

fn check_supplied(
    program: &Program,
    input: &Input,
    list: Supply,
    sheets: &[Supply],
) -> Result<(), Box<Trouble>> {
    let outcome = hold(program, input, list, sheets);
    outcome.map_err(|mismatch| input.trouble_of_all(mismatch))
}

fn hold(program: &Program, input: &Input, list: Supply, sheets: &[Supply]) -> Result<(), Mismatch> {
    let entries = input.intervals.first().map_or(&[][..], |it| &it.list);
    program.supply(LIST_FILE, entries, list)?;
    let mut told = list.told("hour", LIST_FILE);
    let mut words = vec![String::from(LIST_FILE)];
    let mut seen = Vec::new();
    for (k, (interval, supply)) in input.intervals.iter().zip(sheets).enumerate() {
        let file = format!("sheet-{k}.bin");
        program.supply(&file, &interval.sheet, *supply)?;
        told += &supply.told("hour", &file);
        seen.push(supply.seen(&interval.sheet));
        words.push(file);
    }
    let words: Vec<&str> = words.iter().map(String::as_str).collect();
    let printed = printed_hour(list.seen(entries), &seen);
    program.hold(&words, printed.as_bytes(), &told)
}

fn sheet_s() -> settle::Input {
    settle::Input::of("sheet S", draft::sheet_s().concat(), draft::list_s())
}

/// Files that are missing or can't be read count as empty, and no words at all are
/// told; how many runs there were.
pub fn check_absent_files(program: &Program) -> Result<u64, Box<Trouble>> {
    let input = Input::grown("files missing or unreadable", vec![sheet_s(); 3]);
    let mut runs = 0;
    for list in Supply::ALL {
        for absent in Supply::ALL {
            let sheets = [Supply::Written, absent, Supply::Written];
            check_supplied(program, &input, list, &sheets)?;
            check_supplied(program, &input, list, &[absent; 3])?;
            runs += 2;
        }
    }
    let outcome = check_no_words(program);
    outcome.map_err(|mismatch| input.trouble(&Hour::EMPTY, 0..0, mismatch))?;
    Ok(runs + 1)
}

fn check_no_words(program: &Program) -> Result<(), Mismatch> {
    let found = program.run(&[])?;
    match found.stdout.is_empty() && !found.stderr.is_empty() && found.status.success() {
        true => Ok(()),
        false => Err(Mismatch::of(
            "run without words",
            "its usage",
            format!("{found:?}"),
        )),
    }
}

/// Hours with a file longer than any sheet or list.
pub fn long_files() -> Vec<Input> {
    let mut hours = Vec::new();
    for length in [28_004, 28_101, 28_136, 65_536, 200_000] {
        for filling in [0, 1, 6, 7, 8, 0x10] {
            let mut sheets = vec![sheet_s(); 3];
            sheets[1].sheet.resize(length, filling);
            hours.push(Input::grown("a long sheet file", sheets));
            let mut sheets = vec![sheet_s(); 2];
            sheets[0].list.resize(length, filling);
            hours.push(Input::grown("a long list file", sheets));
        }
    }
    for length in [34, 35] {
        let behind = point_behind_the_longest(&mut Chance::of(1, length), length as usize);
        hours.push(Input::grown("a long sheet file", vec![behind, sheet_s()]));
    }
    hours
}
