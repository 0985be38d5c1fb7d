//! One sheet or draft on both sides.

use crate::mismatch::{Mismatch, same};
use crate::sides::Sides;
use crate::sides::drafts::{Circulation, Draft, Factor, Par, Path, Point, Unit, Written, Zone};

/// A buffer in which every stray byte shows.
fn patterned(length: usize) -> Vec<u8> {
    (0..length).map(|k| (k * 37 + 11) as u8 | 0x80).collect()
}

/// Reads a sheet as a draft, and writes an accepted one again: the refusal.
pub fn reading(sides: &Sides, sheet: &[u8]) -> Result<u8, Mismatch> {
    let drafted = sides.second.read_draft(sheet);
    same("draft of a sheet", drafted, sides.tested.read_draft(sheet))?;
    let refusal = sides.tested.read(sheet).refusal;
    same("refusal of a sheet", refusal, drafted.refusal)?;
    if refusal != 0 {
        same("draft of a refusal", Draft::EMPTY, drafted.draft)?;
        return Ok(refusal);
    }
    let mut again = vec![0; sheet.len()];
    let written = sides.tested.write_draft(&drafted.draft, &mut again);
    same_bytes("sheet written again", sheet, &again)?;
    let length = sheet.len();
    same("length of a sheet", Written { refusal, length }, written)?;
    writing(sides, &drafted.draft, sheet.len())?;
    Ok(refusal)
}

/// Writes a draft into a buffer of this length.
pub fn writing(sides: &Sides, draft: &Draft, room: usize) -> Result<Written, Mismatch> {
    let (mut out, mut buffer) = (patterned(room), patterned(room));
    let written = sides.second.write_draft(draft, &mut out);
    let tested = sides.tested.write_draft(draft, &mut buffer);
    same("what is written", written, tested)?;
    same_bytes("output buffer", &out, &buffer)?;
    let behind = &patterned(room)[written.length..];
    same_bytes("bytes behind the sheet", behind, &out[written.length..])?;
    by_the_reader(sides, draft, &out, written)?;
    Ok(written)
}

/// Holds what was written against the draft's records as a reader meets them.
fn by_the_reader(
    sides: &Sides,
    draft: &Draft,
    out: &[u8],
    written: Written,
) -> Result<(), Mismatch> {
    let sheet = draft.sheet();
    let refusal = match sides.tested.read(&sheet).refusal {
        0 if out.len() < sheet.len() => 27,
        refusal => refusal,
    };
    same("refusal as the reader's", refusal, written.refusal)?;
    if refusal != 0 {
        return Ok(());
    }
    same_bytes("sheet of a draft", &sheet, &out[..written.length])?;
    let again = sides.tested.read_draft(&out[..written.length]);
    same("draft read again", read_again(draft), again.draft)
}

/// A draft as it is read again: nothing but zeros behind the counts, a line by 1 and no
/// zone of a proxy.
fn read_again(draft: &Draft) -> Draft {
    let mut again = *draft;
    again.zones[draft.zone_count..].fill(Zone::NONE);
    again.units[draft.unit_count..].fill(Unit::NONE);
    again.points[draft.point_count..].fill(Point::NONE);
    again.pars[draft.par_count..].fill(Par::NONE);
    again.factors[draft.factor_count..].fill(Factor::NONE);
    again.paths[draft.path_count..].fill(Path::NONE);
    again.circulations[draft.circulation_count..].fill(Circulation::NONE);
    for point in &mut again.points {
        match point.line {
            0 => point.zone = 0,
            _ => point.line = 1,
        }
    }
    again
}

/// Tells the first place where the bytes differ, and some from there on.
fn same_bytes(what: &str, second: &[u8], tested: &[u8]) -> Result<(), Mismatch> {
    if second == tested {
        return Ok(());
    }
    let differ = second
        .iter()
        .zip(tested)
        .position(|(one, other)| one != other);
    let at = differ.unwrap_or(second.len().min(tested.len()));
    let told = |bytes: &[u8]| {
        let from = &bytes[at..bytes.len().min(at + 30)];
        format!(
            "{} bytes, from {at} on {}",
            bytes.len(),
            from.escape_ascii()
        )
    };
    Err(Mismatch::of(what, told(second), told(tested)))
}
