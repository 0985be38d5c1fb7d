//! bench: the time of the proved settlement and of the second implementation, side
//! by side, on the same inputs.

use std::cell::RefCell;
use std::hint::black_box;
use std::time::Instant;

use compare::chance::Chance;
use compare::crafted::one_bucket;
use compare::interval::{Interval, Scale, Sizes, add_lake, drawn};
use compare::library::Library;
use compare::sides::{Second, Side};
use second::draft;
use second::layout::LONGEST_SHEET;
use second::listing::LONGEST_LISTING;
use second::names::NameField;

const ROUNDS: usize = 300;
const ROUND_NANOSECONDS: f64 = 3e5;

/// What is timed, as a question to one side; the answer is a number that both
/// sides must agree on.
type Question<'a> = Box<dyn Fn(&dyn Side) -> i64 + 'a>;

fn time(side: &dyn Side, question: &Question, repeats: usize) -> f64 {
    let began = Instant::now();
    for _ in 0..repeats {
        black_box(question(black_box(side)));
    }
    began.elapsed().as_nanos() as f64 / repeats as f64
}

/// The best time of each side in nanoseconds, in rounds by turns.
fn best(question: &Question) -> [f64; 2] {
    let sides: [&dyn Side; 2] = [&Library, &Second];
    assert_eq!(question(sides[0]), question(sides[1]), "answers differ");
    let once = time(sides[0], question, 3).max(time(sides[1], question, 3));
    let repeats = (ROUND_NANOSECONDS / once).ceil() as usize;
    let mut best = [f64::MAX; 2];
    for _ in 0..ROUNDS {
        for (best, side) in best.iter_mut().zip(sides) {
            *best = best.min(time(side, question, repeats));
        }
    }
    best
}

fn row(what: &str, bytes: usize, question: Question) {
    row_of(what, bytes, 1, question);
}

/// A question that takes so many inputs: bytes and times are those of one.
fn row_of(what: &str, bytes: usize, inputs: usize, question: Question) {
    let [ours, rust] = best(&question).map(|time| time / inputs as f64);
    println!(
        "{what:<46}{:>8}{:>12.2}{:>12.2}{:>8.2}",
        bytes / inputs,
        ours / 1000.0,
        rust / 1000.0,
        ours / rust
    );
}

/// Settles with a buffer of the longest listing's length.
fn settled(side: &dyn Side, sheet: &[u8], list: &[u8]) -> i64 {
    let mut out = [0; LONGEST_LISTING];
    let answer = side.report(sheet, list, &mut out).figures;
    answer.amount + i64::from(answer.refusal) + i64::from(out[0])
}

fn settle_row(what: &str, sheet: &[u8], list: &[u8]) {
    let question = |side: &dyn Side| settled(side, sheet, list);
    row(what, sheet.len() + list.len(), Box::new(question));
}

/// Settles one after the other, each with its list of one entry.
fn in_turn(what: &str, intervals: &[Interval]) {
    let inputs: Vec<(Vec<u8>, Vec<u8>)> = intervals
        .iter()
        .map(|it| (it.records().concat(), draft::entitlement(it.head.name, 5)))
        .collect();
    let bytes = inputs.iter().map(|(s, l)| s.len() + l.len()).sum();
    let question = |side: &dyn Side| inputs.iter().map(|(s, l)| settled(side, s, l)).sum();
    row_of(what, bytes, inputs.len(), Box::new(question));
}

fn read_row(what: &str, sheet: &[u8]) {
    let question = |side: &dyn Side| {
        let answer = side.read(sheet);
        (answer.place + answer.factors) as i64
    };
    row(what, sheet.len(), Box::new(question));
}

fn list_row(what: &str, list: &[u8], name: &NameField) {
    let question = |side: &dyn Side| side.entitlement(list, name).value;
    row(what, list.len(), Box::new(question));
}

/// Which record refuses a sheet, or the reason for its price.
fn explain_row(what: &str, sheet: &[u8], list: &[u8], refusal: u8) {
    assert_eq!(Second.explain(sheet, list).refusal, refusal, "{what}");
    let question = |side: &dyn Side| {
        let answer = side.explain(sheet, list);
        (answer.from + answer.to) as i64 + i64::from(answer.reason)
    };
    row(what, sheet.len() + list.len(), Box::new(question));
}

/// Reads a sheet as a draft, gives its first point this import, writes and settles it.
fn resettle_row(what: &str, sheet: &[u8], import: u32, list: &[u8]) {
    let out = RefCell::new(vec![0; LONGEST_SHEET]);
    let resettled = |side: &dyn Side| {
        let out = &mut out.borrow_mut();
        side.resettle(sheet, import, list, out).figures
    };
    assert_eq!(resettled(&Second).refusal, 0, "it is refused");
    let question = |side: &dyn Side| resettled(side).amount;
    row(what, sheet.len() + list.len(), Box::new(question));
}

/// Opens an hour and adds the sheets, each with the same list.
fn hour_row(what: &str, sheets: &[Vec<u8>], list: &[u8]) {
    let grown = |side: &dyn Side| {
        let add = |hour, sheet: &Vec<u8>| side.add(&hour, sheet, list).hour;
        sheets.iter().fold(side.open(), add)
    };
    assert_eq!(grown(&Second).count, sheets.len(), "one is refused");
    let question = |side: &dyn Side| side.totals(&grown(side)).amount;
    let bytes = sheets.iter().map(|sheet| sheet.len() + list.len()).sum();
    row(what, bytes, Box::new(question));
}

/// Names of 16 random bytes, in random or in rising order.
fn names(chance: &mut Chance, count: usize, rising: bool) -> Vec<NameField> {
    let mut names: Vec<NameField> = (0..count)
        .map(|_| [0; 16].map(|_: u8| 1 + chance.below(255) as u8))
        .collect();
    if rising {
        names.sort();
    }
    names
}

/// An accepted interval of these sizes.
fn interval(chance: &mut Chance, sizes: Sizes, rising: bool) -> Interval {
    let scale = Scale {
        power: 2_000_000,
        factor: 100,
    };
    loop {
        let mut interval = drawn(chance, sizes, scale);
        let names = names(chance, 256, rising);
        interval.rename(|k| names[k]);
        let list = draft::entitlement(interval.head.name, 0);
        if Second.settle(&interval.records().concat(), &list).refusal == 0 {
            return interval;
        }
    }
}

fn list(chance: &mut Chance, flowgate: NameField, rising: bool) -> Vec<u8> {
    let mut names = names(chance, 2_500, rising);
    // In the middle, and in its place among rising names.
    names[1250] = flowgate;
    if rising {
        names.sort();
    }
    let entries = names.into_iter().map(|name| draft::entitlement(name, 5));
    entries.collect::<Vec<_>>().concat()
}

/// The longest sheet and list, with names in random or in rising order.
fn longest(chance: &mut Chance, order: &str, rising: bool) {
    let longest = interval(chance, Sizes::LONGEST, rising);
    let list = list(chance, longest.head.name, rising);
    let mut sheet = longest.records().concat();
    let one = draft::entitlement(longest.head.name, 5);
    let what = |what: &str| format!("{what}, {order} names");
    settle_row(&what("longest sheet, 2,500 entries"), &sheet, &list);
    settle_row(&what("longest sheet, one entry"), &sheet, &one);
    read_row(&what("longest sheet, reading alone"), &sheet);
    list_row(&what("2,500 entries alone"), &list, &longest.head.name);
    let factor = sheet.len() - 2;
    sheet[factor..].copy_from_slice(&i16::MAX.to_be_bytes());
    settle_row(&what("refused at its last record"), &sheet, &list);
}

/// The longest sheet there is.
fn longest_with_paths(chance: &mut Chance) -> Interval {
    let mut longest = interval(chance, Sizes::LONGEST, false);
    let scale = Scale {
        power: 2_000,
        factor: 100,
    };
    add_lake(chance, &mut longest, scale);
    longest
}

/// Drawn apart from the others.
fn with_paths(chance: &mut Chance) {
    let longest = longest_with_paths(chance);
    let one = draft::entitlement(longest.head.name, 5);
    let sheet = longest.records().concat();
    settle_row("longest sheet with paths, one entry", &sheet, &one);
}

/// From small sheets to the longest.
fn growth(chance: &mut Chance) {
    for (zones, units, points, pars) in [
        (1, 1, 0, 0),
        (2, 16, 2, 1),
        (4, 32, 4, 1),
        (8, 64, 8, 2),
        (16, 128, 16, 4),
        (32, 256, 32, 8),
    ] {
        let sizes = Sizes {
            zones,
            units,
            points,
            pars,
        };
        let interval = interval(chance, sizes, false);
        let what = format!("zones {zones}, units {units}, points {points}, PARs {pars}");
        let one = draft::entitlement(interval.head.name, 5);
        settle_row(&what, &interval.records().concat(), &one);
    }
}

/// Different shapes and values in turn, so that no branch is learnt.
fn eight(chance: &mut Chance) {
    let shapes = |shapes: [[usize; 4]; 8], chance: &mut Chance| {
        shapes.map(|[zones, units, points, pars]| {
            let sizes = Sizes {
                zones,
                units,
                points,
                pars,
            };
            interval(chance, sizes, false)
        })
    };
    let long = [
        [32, 256, 32, 8],
        [27, 241, 30, 8],
        [32, 199, 25, 7],
        [19, 256, 32, 6],
        [30, 225, 17, 8],
        [24, 250, 28, 7],
        [32, 213, 31, 8],
        [21, 237, 22, 8],
    ];
    let short = [
        [2, 2, 2, 1],
        [1, 3, 0, 0],
        [3, 5, 1, 2],
        [2, 7, 3, 0],
        [4, 4, 2, 1],
        [1, 1, 1, 1],
        [5, 9, 0, 1],
        [2, 6, 4, 2],
    ];
    in_turn("eight long sheets in turn, each", &shapes(long, chance));
    in_turn("eight short sheets in turn, each", &shapes(short, chance));
}

/// Twelve accepted sheets of one flowgate and 300 s each.
fn hour(chance: &mut Chance) {
    let flowgate = names(chance, 1, false)[0];
    let list = draft::entitlement(flowgate, 5);
    let mut sheets = Vec::new();
    while sheets.len() < 12 {
        let mut longest = interval(chance, Sizes::LONGEST, false);
        longest.head.name = flowgate;
        longest.head.monitoring = 2;
        longest.head.seconds = 300;
        let sheet = longest.records().concat();
        if Second.settle(&sheet, &list).refusal == 0 {
            sheets.push(sheet);
        }
    }
    hour_row("hour of twelve longest sheets, one entry", &sheets, &list);
}

/// The slowest names that anyone can write.
fn crafted(chance: &mut Chance) {
    let names = one_bucket(chance, 2_500);
    let entries = names.iter().map(|name| draft::entitlement(*name, 5));
    let list = entries.collect::<Vec<_>>().concat();
    list_row("2,500 entries alone, one bucket", &list, &names[1250]);
    let mut interval = interval(chance, Sizes::LONGEST, false);
    interval.rename(|k| names[k]);
    let sheet = interval.records().concat();
    let one = draft::entitlement(interval.head.name, 5);
    settle_row("longest sheet, one entry, one bucket", &sheet, &one);
    read_row("longest sheet, reading alone, one bucket", &sheet);
}

/// Sheets that are read, altered, written and settled again.
fn drafts(chance: &mut Chance) {
    let sheet_s = draft::sheet_s().concat();
    let what = "sheet S read, altered, written and settled";
    resettle_row(what, &sheet_s, 600, &draft::list_s());
    let longest = interval(chance, Sizes::LONGEST, false);
    let list = draft::entitlement(longest.head.name, 5);
    let import = longest.points[0].import.saturating_sub(1);
    let what = "longest sheet read, written and settled again";
    resettle_row(what, &longest.records().concat(), import, &list);
}

/// The longest sheet, refused at its last record and accepted, and sheet S.
fn explanations(chance: &mut Chance) {
    let mut longest = longest_with_paths(chance);
    let list = draft::entitlement(longest.head.name, 5);
    let sheet = longest.records().concat();
    longest.circulations[0].flow = i32::MAX;
    let refused = longest.records().concat();
    explain_row(
        "longest sheet, refused at its last record",
        &refused,
        &list,
        9,
    );
    explain_row("longest sheet accepted", &sheet, &list, 0);
    let sheet_s = draft::sheet_s().concat();
    explain_row("sheet S accepted", &sheet_s, &draft::list_s(), 0);
}

fn main() {
    let chance = &mut Chance::of(2024, 1);
    println!("Microseconds, best of {ROUNDS} rounds; a buffer of {LONGEST_LISTING} bytes.");
    println!(
        "{:<46}{:>8}{:>12}{:>12}{:>8}",
        "", "bytes", "ours", "Rust", "ratio"
    );
    settle_row("sheet S", &draft::sheet_s().concat(), &draft::list_s());
    longest(chance, "random", false);
    longest(chance, "rising", true);
    with_paths(&mut Chance::of(2024, 2));
    println!("From small sheets to the longest, one entry, random names:");
    growth(chance);
    println!("Different sheets, one entry each, random names:");
    eight(chance);
    println!("Whole hours:");
    hour(chance);
    println!("Crafted names:");
    crafted(chance);
    println!("Drafts, one entry:");
    drafts(chance);
    println!("Explanations, one entry:");
    explanations(&mut Chance::of(2024, 3));
}
