//! Sheets as they were before request 5, when a point ended behind export.

use second::layout::Kind;
use second::reader::read;

use crate::questions::settle::check::records;

/// Bytes of a point's wheels, which end its body.
const WHEELS: usize = 8;
/// A point's body without them.
pub const BODY: usize = Kind::Point.body() - WHEELS;

/// The sheet with points whose bodies have so many bytes.
pub fn with_points_of(body: usize, sheet: &[u8]) -> Vec<u8> {
    let cut = records(sheet).into_iter().map(|record| match record[0] {
        kind if kind == Kind::Point as u8 => &record[..1 + body],
        _ => record,
    });
    cut.collect::<Vec<_>>().concat()
}

/// Whether these bytes have points of the earlier form, and are a sheet with wheels of
/// zero.
pub fn is_form_of(sheet: &[u8]) -> bool {
    let (mut with_wheels, mut rest, mut points) = (Vec::new(), sheet, 0);
    while let Some(kind) = rest.first().and_then(|byte| Kind::of(*byte)) {
        let is_point = kind == Kind::Point;
        let body = if is_point { BODY } else { kind.body() };
        let Some((record, behind)) = rest.split_at_checked(1 + body) else {
            return false;
        };
        with_wheels.extend_from_slice(record);
        if is_point {
            with_wheels.extend([0; WHEELS]);
            points += 1;
        }
        rest = behind;
    }
    rest.is_empty() && points > 0 && read(&with_wheels).is_ok()
}

#[cfg(test)]
mod tests {
    use super::*;
    use second::draft;

    #[test]
    fn sheet_s_of_the_earlier_form_is_known() {
        let sheet = draft::sheet_s().concat();
        let earlier = with_points_of(BODY, &sheet);
        assert_eq!(earlier.len(), sheet.len() - 2 * WHEELS);
        assert!(is_form_of(&earlier) && !is_form_of(&sheet));
        assert!(!is_form_of(&with_points_of(BODY + 1, &sheet)));
        let refused = read(&earlier).unwrap_err();
        assert_eq!((refused.refusal.number(), refused.place), (9, 122));
    }
}
