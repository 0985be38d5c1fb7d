//! One input on both sides.

use second::draft;
use second::layout::{ENTITLEMENT_RECORD, Kind, NAME};
use second::names::NameField;
use second::reader::read;
use second::sheet::{Sheet, Subject};
use second::units::Power;
use second::{Refusal, Statement, listing};

use crate::mismatch::{Mismatch, same};
use crate::questions::settle::{Input, Room};
use crate::sides::{Figures, Rounded, Sides};

pub type Answer = Result<Statement, Refusal>;

/// The listing's length on an accepted input, 0 on a refused one.
pub fn listing_length(answer: &Answer) -> usize {
    answer.as_ref().map_or(0, |it| listing(it).len())
}

/// The output buffer's length for an input.
pub fn room(input: &Input, answer: &Answer) -> usize {
    match input.room {
        Room::Length(length) => length,
        Room::Listing(more) => (listing_length(answer) as i64 + more).max(0) as usize,
    }
}

/// A buffer in which every stray byte shows.
fn patterned(length: usize) -> Vec<u8> {
    (0..length).map(|k| (k * 37 + 11) as u8 | 0x80).collect()
}

/// Asks both sides all questions, with a buffer for this answer; the refusal met, 0 on
/// acceptance.
pub fn check(sides: &Sides, input: &Input, answer: &Answer) -> Result<u8, Mismatch> {
    let Sides { second, tested } = sides;
    let (sheet, list) = (&input.sheet[..], &input.list[..]);
    same("reading", second.read(sheet), tested.read(sheet))?;
    let figures = second.settle(sheet, list);
    same("statement", figures, tested.settle(sheet, list))?;
    for name in names_of(sheet, list) {
        let value = second.entitlement(list, &name);
        same("entitlement", value, tested.entitlement(list, &name))?;
    }
    let refusal = printing(sides, input, figures, room(input, answer))?;
    if figures.refusal == 0 {
        accuracy(sides, sheet, list)?;
    }
    Ok(refusal)
}

/// The flowgate's name as it stands on the sheet, and one from the list.
fn names_of(sheet: &[u8], list: &[u8]) -> Vec<NameField> {
    let entries = entries(list);
    let middle = entries.get(entries.len() / 2).map(name_of);
    let flowgate = sheet.get(NAME).map(draft::name);
    flowgate.into_iter().chain(middle).collect()
}

/// The whole records at the front of a list.
pub fn entries(list: &[u8]) -> &[[u8; ENTITLEMENT_RECORD]] {
    list.as_chunks().0
}

pub fn name_of(entry: &[u8; ENTITLEMENT_RECORD]) -> NameField {
    draft::name(&entry[NAME])
}

/// Compares statement and buffer; the refusal met, 0 on acceptance.
fn printing(sides: &Sides, input: &Input, figures: Figures, length: usize) -> Result<u8, Mismatch> {
    let (sheet, list) = (&input.sheet[..], &input.list[..]);
    let mut out = patterned(length);
    let answer = sides.second.report(sheet, list, &mut out);
    let refusal = answer.figures.refusal;
    let expected = match (figures.refusal, refusal) {
        (0, 23) => Figures::refused(23),
        _ => figures,
    };
    same("statement with its listing", expected, answer.figures)?;
    if refusal != 0 {
        same("buffer of a refusal", &patterned(length), &out)?;
    }
    let mut buffer = patterned(length);
    let tested = sides.tested.report(sheet, list, &mut buffer);
    same("statement with its listing", answer, tested)?;
    if out != buffer {
        let shown = [&out, &buffer].map(|bytes| bytes.escape_ascii().to_string());
        return Err(Mismatch::of("output buffer", &shown[0], &shown[1]));
    }
    Ok(refusal)
}

/// Judges the tested side's own figures by the exact ones.
fn accuracy(sides: &Sides, sheet: &[u8], list: &[u8]) -> Result<(), Mismatch> {
    let figures = sides.tested.settle(sheet, list);
    let content = read(sheet).map_err(|it| Mismatch::of("reading", it.refusal, "accepted"))?;
    let mut rounded = Rounded {
        targets: vec![(0, generation_to_load(&figures))],
        market: figures.market,
        settled: figures.settled,
        amount: figures.amount,
        entitlement: figures.entitlement / Power(1).watts().0,
    };
    for par in 1..=content.pars.len() {
        let (sheet, list) = par_as_flowgate(sheet, &content, par);
        let on_par = sides.tested.settle(&sheet, &list);
        if on_par.refusal == 0 {
            rounded.targets.push((par, generation_to_load(&on_par)));
        }
    }
    let verdict = sides.second.judge(sheet, &rounded);
    verdict.map_err(|breach| Mismatch::of("accuracy", "as demanded", breach))
}

fn generation_to_load(figures: &Figures) -> [i64; 3] {
    [
        figures.gtl,
        figures.first_remainder,
        figures.second_remainder,
    ]
}

/// The whole records at the front of a sheet.
pub fn records(sheet: &[u8]) -> Vec<&[u8]> {
    let (mut records, mut rest) = (Vec::new(), sheet);
    while let Some(kind) = rest.first().and_then(|byte| Kind::of(*byte)) {
        let Some((record, behind)) = rest.split_at_checked(1 + kind.body()) else {
            break;
        };
        records.push(record);
        rest = behind;
    }
    records
}

/// A statement tells the flowgate's generation-to-load flow alone. On this sheet the
/// flowgate has the PAR's factors for units and zones, and all others are zero.
fn par_as_flowgate(sheet: &[u8], content: &Sheet, par: usize) -> (Vec<u8>, Vec<u8>) {
    let [units, zones, points, _] = content.counts();
    let kept = &records(sheet)[..1 + units + zones + points];
    let mut bytes = kept.concat();
    for subject in [Subject::Unit, Subject::Zone] {
        for (index, factor) in (1..).zip(content.factors(par, subject)) {
            bytes.extend(draft::factor(0, subject as u8, index, factor.0 as i16));
        }
    }
    for index in (1..).take(points) {
        bytes.extend(draft::factor(0, Subject::Point as u8, index, 0));
    }
    (bytes, draft::entitlement(content.head.name.field(), 0))
}
