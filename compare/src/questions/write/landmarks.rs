//! Situations that a comparison of drafts must not miss.

use second::layout::{LONGEST_SHEET, SCHEDULES};

use crate::questions::settle::landmarks::wheels;
use crate::sides::drafts::{Draft, Point};
use crate::tally::Tally;

/// What writing can answer.
const ROWS: [u8; 12] = [0, 5, 6, 7, 8, 9, 10, 11, 12, 13, 27, 28];
/// What reading can answer.
const OF_SHEET: [u8; 15] = [0, 1, 2, 3, 4, 5, 6, 7, 8, 9, 10, 11, 12, 13, 28];

const ACCEPTED: [&str; 21] = [
    "a buffer exactly long enough",
    "a buffer one byte longer",
    "the longest sheet",
    "neither points nor PARs",
    "a factor below zero",
    "a PAR's flow below zero",
    "a line told by another number than 1",
    "a proxy that tells a zone",
    "the last of 32 zones as a line's end",
    "a cell behind the counts that is not zero",
    "a point with wheel in alone",
    "a point with wheel out alone",
    "wheel in of 200,000",
    "wheel out of 200,000",
    "four paths and a circulation",
    "a path's flow below zero",
    "a path's factor below zero",
    "a circulation below zero",
    "a path's flow of -200,000 and a factor of -10,000",
    "a path behind its count that is not zero",
    "a circulation behind its count that is not zero",
];

const TOO_SHORT: [&str; 6] = [
    "row 27 by one byte",
    "row 27 of an empty buffer",
    "row 27 of the longest sheet",
    "row 27 of the longest sheet by one byte",
    "row 27 by one byte, wheels on every point",
    "row 27 by one byte, with paths",
];

const INTO_ZONE_0: [&str; 6] = [
    "a line into zone 0 on the first point",
    "a line into zone 0 on a later point",
    "a line into zone 0 on the 32nd point",
    "a line into zone 0 that is told by another number than 1",
    "a line into zone 0 with a schedule out of range",
    "a line into zone 0 with a wheel alone out of range",
];

const COUNTS: [&str; 27] = [
    "a 33rd zone",
    "a 257th unit",
    "a 33rd point",
    "a 9th PAR",
    "a 2,889th factor",
    "2^64 - 1 zones",
    "2^64 - 1 units",
    "2^64 - 1 points",
    "2^64 - 1 PARs",
    "2^64 - 1 factors",
    "row 12 with factors due",
    "row 12 without zones",
    "row 13 without any factor",
    "a fifth path",
    "a second circulation",
    "2^64 - 1 paths",
    "2^64 - 1 circulations",
    "row 28 by one path alone",
    "row 28 by two paths alone",
    "row 28 by three paths alone",
    "row 28 by four paths alone",
    "row 28 by a circulation alone",
    "row 28 by one path and a circulation",
    "row 28 by two paths and a circulation",
    "row 28 by three paths and a circulation",
    "row 12 where 28 is met too",
    "row 13 where 28 is met too",
];

/// The largest schedule.
const MOST: u32 = *SCHEDULES.end() as u32;

/// The tally's groups.
const READ: usize = 0;
const WRITTEN: usize = 1;
const SHORT: usize = 2;
const LANDMARKS: usize = 3;
const PAIRS: usize = 4;

pub fn tally() -> Tally {
    let told = |row: u8| match row {
        0 => String::from("accepted"),
        row => format!("refused {row}"),
    };
    let landmarks = ACCEPTED.iter().chain(&TOO_SHORT);
    let landmarks = landmarks
        .chain(&INTO_ZONE_0)
        .chain(&wheels::BEYOND)
        .chain(&COUNTS);
    let short = ROWS[1..]
        .iter()
        .map(|row| format!("row {row} in a short buffer"));
    let pairs = pairs().into_iter();
    Tally::default()
        .with("sheets read", OF_SHEET.map(told).to_vec(), true)
        .with("drafts written", ROWS.map(told).to_vec(), true)
        .with("rows where the buffer is too short", short.collect(), false)
        .with(
            "landmarks",
            landmarks.map(|it| it.to_string()).collect(),
            true,
        )
        .with(
            "rows of two records",
            pairs
                .map(|[row, later]| format!("row {row} before row {later}"))
                .collect(),
            false,
        )
}

/// Rows of a record, and of a later one.
fn pairs() -> Vec<[u8; 2]> {
    let every = (6..=11).flat_map(|row| (6..=11).map(move |later| [row, later]));
    // Behind a factor stand factors, paths and a circulation, none of which has a code.
    every
        .filter(|[row, later]| *row < 10 || *later != 8)
        .collect()
}

pub fn mark_pair(tally: &mut Tally, rows: Option<[u8; 2]>) {
    let place = rows.and_then(|rows| pairs().iter().position(|it| *it == rows));
    if let Some(place) = place {
        tally.mark(PAIRS, place);
    }
}

pub fn mark_sheet(tally: &mut Tally, refusal: u8) {
    let place = OF_SHEET.iter().position(|row| *row == refusal);
    tally.mark(READ, place.unwrap_or(0));
}

/// Counts what a draft showed.
pub fn mark_draft(tally: &mut Tally, draft: &Draft, room: usize, refusal: u8) {
    let Some(answer) = ROWS.iter().position(|row| *row == refusal) else {
        return;
    };
    tally.mark(WRITTEN, answer);
    if refusal == 0 {
        shown(tally, 0, &accepted(draft, room));
        return;
    }
    if room < draft.length() {
        tally.mark(SHORT, answer - 1);
    }
    let into_zone = ACCEPTED.len() + TOO_SHORT.len();
    let beyond = into_zone + INTO_ZONE_0.len();
    match refusal {
        27 => shown(tally, ACCEPTED.len(), &too_short(draft, room)),
        8 => {
            shown(tally, into_zone, &into_zone_0(draft));
            shown(tally, beyond, &wheels::beyond(&draft.sheet()));
        }
        9 => shown(tally, beyond, &wheels::beyond(&draft.sheet())),
        _ => {
            let before = beyond + wheels::BEYOND.len();
            shown(tally, before, &counts(draft, refusal));
        }
    }
}

fn shown(tally: &mut Tally, before: usize, shown: &[bool]) {
    let places = shown.iter().enumerate().filter(|(_, shown)| **shown);
    places.for_each(|(k, _)| tally.mark(LANDMARKS, before + k));
}

fn longest(draft: &Draft) -> bool {
    draft.length() == LONGEST_SHEET
}

fn accepted(draft: &Draft, room: usize) -> [bool; ACCEPTED.len()] {
    let length = draft.length();
    let point = |holds: fn(u8, u8) -> bool| draft.points().iter().any(|it| holds(it.line, it.zone));
    let wheels = |holds: fn(u32, u32) -> bool| {
        let mut points = draft.points().iter();
        points.any(|it| holds(it.wheel_in, it.wheel_out))
    };
    let behind = &draft.factors[draft.factor_count..];
    let unused = &draft.circulations[draft.circulation_count..];
    [
        room == length,
        room == length + 1,
        longest(draft),
        draft.point_count + draft.par_count == 0,
        draft.factors().iter().any(|it| it.factor < 0),
        draft.pars().iter().any(|it| it.actual < 0 || it.target < 0),
        point(|line, _| line > 1),
        point(|line, zone| line == 0 && zone != 0),
        point(|line, zone| line != 0 && zone == 32),
        behind.iter().any(|it| it.index != 0),
        wheels(|wheel_in, wheel_out| wheel_in > 0 && wheel_out == 0),
        wheels(|wheel_in, wheel_out| wheel_in == 0 && wheel_out > 0),
        wheels(|wheel_in, _| wheel_in == MOST),
        wheels(|_, wheel_out| wheel_out == MOST),
        draft.path_count == 4,
        draft.paths().iter().any(|it| it.flow < 0),
        draft.paths().iter().any(|it| it.factor < 0),
        draft.circulations().iter().any(|it| it.flow < 0),
        draft
            .paths()
            .iter()
            .any(|it| (it.flow, it.factor) == (-200_000, -10_000)),
        draft.paths[draft.path_count..]
            .iter()
            .any(|it| it.flow != 0),
        unused.iter().any(|it| it.flow != 0),
    ]
}

fn too_short(draft: &Draft, room: usize) -> [bool; TOO_SHORT.len()] {
    let by_one = room + 1 == draft.length();
    let points = draft.points();
    let mut wheels = points.iter().map(|it| it.wheel_in.min(it.wheel_out));
    [
        by_one,
        room == 0,
        longest(draft),
        by_one && longest(draft),
        by_one && !points.is_empty() && wheels.all(|wheel| wheel > 0),
        by_one && draft.path_count > 0,
    ]
}

fn into_zone_0(draft: &Draft) -> [bool; INTO_ZONE_0.len()] {
    let at = |k: usize| {
        draft
            .points()
            .get(k)
            .is_some_and(Point::is_line_into_zone_0)
    };
    let any = |holds: fn(&Point) -> bool| {
        let mut lines = draft.points().iter().filter(|it| it.is_line_into_zone_0());
        lines.any(holds)
    };
    [
        at(0),
        (1..31).any(at),
        at(31),
        any(|it| it.line > 1),
        any(|it| it.import.max(it.export) > MOST),
        any(|it| it.import.max(it.export) <= MOST && it.wheel_in.max(it.wheel_out) > MOST),
    ]
}

fn counts(draft: &Draft, refusal: u8) -> [bool; COUNTS.len()] {
    let (zones, units, points) = (draft.zone_count, draft.unit_count, draft.point_count);
    let (pars, factors) = (draft.par_count, draft.factor_count);
    let is = |row| refusal == row;
    let all = usize::MAX;
    let shown = [
        is(5) && zones == 33,
        is(5) && zones <= 32 && units == 257,
        is(5) && units <= 256 && points == 33,
        is(5) && points <= 32 && pars == 9,
        is(10) && factors == 2889,
        is(5) && zones == all,
        is(5) && zones <= 32 && units == all,
        is(5) && units <= 256 && points == all,
        is(5) && points <= 32 && pars == all,
        is(10) && factors == all,
        is(12) && zones > 0 && factors == 0,
        is(12) && zones == 0,
        is(13) && factors == 0,
    ];
    let lake = of_lake(draft, refusal);
    let shown = [&shown[..], &lake].concat();
    shown.try_into().expect("one for each name")
}

/// Surplus paths and circulations, row 28 in its ways, and where it comes later.
fn of_lake(draft: &Draft, refusal: u8) -> [bool; 14] {
    let (paths, circulations) = (draft.path_count, draft.circulation_count);
    let is = |row| refusal == row;
    let others = draft.zone_count <= 32 && draft.unit_count <= 256;
    let others = others && draft.point_count <= 32 && draft.par_count <= 8;
    let by = |of_paths, around| is(28) && (paths, circulations) == (of_paths, around);
    let part = ![(0, 0), (4, 1)].contains(&(paths, circulations));
    [
        is(5) && others && paths == 5,
        is(5) && others && paths <= 4 && circulations == 2,
        is(5) && others && paths == usize::MAX,
        is(5) && others && paths <= 4 && circulations == usize::MAX,
        by(1, 0),
        by(2, 0),
        by(3, 0),
        by(4, 0),
        by(0, 1),
        by(1, 1),
        by(2, 1),
        by(3, 1),
        is(12) && part,
        is(13) && part,
    ]
}
