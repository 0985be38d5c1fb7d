//! Counts: fewer records than there are, more, and more than a sheet may have.

use second::names::NameField;

use crate::chance::Chance;
use crate::interval::{Scale, Sizes, add_lake, drawn};
use crate::sides::drafts::{Circulation, Draft, Factor, Par, Path, Point, Unit, Zone};

/// A draft with the row that it meets, and how it was made.
pub type Made = (String, Box<Draft>, u8);

/// A kind of record behind the head: its count, how many cells there are, and the row
/// of a record of zeros and of a surplus one.
struct Kind {
    name: &'static str,
    count: fn(&mut Draft) -> &mut usize,
    cells: usize,
    zeros: u8,
    surplus: u8,
}

const fn kind(name: &'static str, count: fn(&mut Draft) -> &mut usize, cells: usize) -> Kind {
    Kind {
        name,
        count,
        cells,
        zeros: 6,
        surplus: 5,
    }
}

const KINDS: [Kind; 7] = [
    kind("zones", |it| &mut it.zone_count, 33),
    kind("units", |it| &mut it.unit_count, 257),
    kind("points", |it| &mut it.point_count, 33),
    kind("PARs", |it| &mut it.par_count, 9),
    Kind {
        zeros: 10,
        surplus: 10,
        ..kind("factors", |it| &mut it.factor_count, 2889)
    },
    kind("paths", |it| &mut it.path_count, 5),
    // A circulation of zeros is sound, so that it is 28 where there are no paths.
    Kind {
        zeros: 28,
        ..kind("circulations", |it| &mut it.circulation_count, 2)
    },
];

/// Other counts over the same cells, zeros behind those that are used.
pub fn of(base: &Draft) -> impl Iterator<Item = Made> {
    let mut all = fewer(base);
    all.extend(parts_of_the_lake(base));
    for kind in KINDS {
        let there = *(kind.count)(&mut base.clone());
        let row = match there + 1 < kind.cells {
            true => kind.zeros,
            false => kind.surplus,
        };
        for count in [there + 1, kind.cells].into_iter().chain(ABOVE) {
            let mut draft = Box::new(*base);
            *(kind.count)(&mut draft) = count;
            // Zeros are sound here up to the last cell.
            let row = if row == 28 && count >= kind.cells {
                kind.surplus
            } else {
                row
            };
            all.push((format!("{count} {}", kind.name), draft, row));
        }
    }
    all.into_iter()
}

/// Counts above every array's length.
const ABOVE: [usize; 6] = [2890, 65_536, 1 << 32, (1 << 32) + 1, 1 << 63, usize::MAX];

fn fewer(base: &Draft) -> Vec<Made> {
    let mut all = Vec::new();
    let mut with = |what: &str, row: u8, alter: &dyn Fn(&mut Draft)| {
        let mut draft = Box::new(*base);
        alter(&mut draft);
        all.push((what.to_string(), draft, row));
    };
    with("no factors", 13, &|it| it.factor_count = 0);
    with("one factor less", 13, &|it| it.factor_count -= 1);
    with("no zones", 8, &|it| it.zone_count = 0);
    with("no units", 10, &|it| it.unit_count = 0);
    with("neither units nor factors", 12, &|it| {
        (it.unit_count, it.factor_count) = (0, 0);
    });
    with("a head and zones", 12, &|it| {
        (it.unit_count, it.point_count) = (0, 0);
        (it.par_count, it.factor_count) = (0, 0);
    });
    with("a head", 12, &|it| {
        (it.zone_count, it.unit_count, it.point_count) = (0, 0, 0);
        (it.par_count, it.factor_count) = (0, 0);
    });
    if base.point_count > 0 {
        with("no points", 10, &|it| it.point_count = 0);
        with("one point less", 10, &|it| it.point_count -= 1);
    }
    if base.par_count > 0 {
        with("no PARs", 10, &|it| it.par_count = 0);
        with("one PAR less", 10, &|it| it.par_count -= 1);
    }
    if base.unit_count > 1 {
        with("one unit less", 10, &|it| it.unit_count -= 1);
    }
    all
}

/// Fewer paths, or no circulation, by themselves and beside rows 12 and 13.
fn parts_of_the_lake(base: &Draft) -> Vec<Made> {
    let mut all = Vec::new();
    let mut with = |paths: usize, circulations: usize, row: u8, less: fn(&mut Draft)| {
        let mut draft = Box::new(*base);
        (draft.path_count, draft.circulation_count) = (paths, circulations);
        less(&mut draft);
        let what = format!("{paths} paths and {circulations} circulations, row {row}");
        all.push((what, draft, row));
    };
    for paths in 0..=base.path_count {
        for circulations in 0..=base.circulation_count {
            let whole = [(0, 0), (4, 1)].contains(&(paths, circulations));
            with(paths, circulations, if whole { 0 } else { 28 }, |_| {});
            with(paths, circulations, 13, |it| it.factor_count -= 1);
            with(paths, circulations, 12, |it| {
                (it.unit_count, it.factor_count) = (0, 0);
            });
        }
    }
    all
}

const EXTRA: NameField = *b"one more of them";

/// As many of a kind as a sheet may have, and one more.
pub fn surplus(chance: &mut Chance) -> Vec<Made> {
    let mut all = Vec::new();
    for kind in KINDS {
        let full = full(chance, &kind);
        for count in [kind.cells].into_iter().chain(ABOVE) {
            let mut draft = full.clone();
            *(kind.count)(&mut draft) = count;
            let what = |how: &str| format!("{count} {}, the last {how}", kind.name);
            let mut add = |how, draft: &Draft, row| {
                all.push((what(how), Box::new(*draft), row));
            };
            add("all zeros", &draft, kind.surplus);
            fill_last(&mut draft);
            add("sound", &draft, kind.surplus);
            let mut repeated = draft.clone();
            repeat_last(&mut repeated);
            add("like the one before", &repeated, kind.surplus);
            let row = spoil_before(&mut draft, kind.name);
            add("behind a faulty one", &draft, row);
        }
    }
    all
}

/// A draft that has all of a kind that a sheet may have, and some of the others.
fn full(chance: &mut Chance, kind: &Kind) -> Box<Draft> {
    let mut sizes = Sizes {
        zones: 2,
        units: 3,
        points: 2,
        pars: 2,
    };
    match kind.name {
        "zones" => sizes.zones = kind.cells - 1,
        "units" => sizes.units = kind.cells - 1,
        "points" => sizes.points = kind.cells - 1,
        "PARs" => sizes.pars = kind.cells - 1,
        "factors" => sizes = Sizes::LONGEST,
        _ => {}
    }
    let mut interval = drawn(chance, sizes, Scale::FULL);
    add_lake(chance, &mut interval, Scale::FULL);
    Box::new(Draft::of(&interval))
}

/// A sound record in the last cell of each kind.
fn fill_last(draft: &mut Draft) {
    let name = EXTRA;
    draft.zones[32] = Zone {
        name,
        load: 1,
        losses: 0,
    };
    draft.units[256] = Unit {
        name,
        zone: 1,
        output: 1,
    };
    draft.points[32] = Point {
        name,
        sort: 1,
        line: 0,
        zone: 0,
        import: 0,
        export: 1,
        wheel_in: 2,
        wheel_out: 0,
    };
    draft.pars[8] = Par {
        name,
        class: 2,
        actual: 0,
        target: 0,
    };
    draft.factors[2888] = Factor {
        target: 8,
        subject: 3,
        index: 33,
        factor: 0,
    };
    fill_last_of_lake(draft);
}

fn fill_last_of_lake(draft: &mut Draft) {
    draft.paths[4] = Path {
        name: EXTRA,
        flow: 1,
        factor: 1,
    };
    draft.circulations[1] = Circulation { flow: 1 };
}

/// The last cell of each kind like the one before it.
fn repeat_last(draft: &mut Draft) {
    draft.zones[32] = draft.zones[31];
    draft.units[256] = draft.units[255];
    draft.points[32] = draft.points[31];
    draft.pars[8] = draft.pars[7];
    draft.factors[2888] = draft.factors[2887];
    draft.paths[4] = draft.paths[3];
    draft.circulations[1] = draft.circulations[0];
}

/// Spoils the last record but one of a kind: the row that it then meets.
fn spoil_before(draft: &mut Draft, kind: &str) -> u8 {
    match kind {
        "zones" => draft.zones[31].losses = u32::MAX,
        "units" => draft.units[255].zone = 0,
        "points" => (draft.points[31].line, draft.points[31].zone) = (1, 0),
        "PARs" => draft.pars[7].name = draft.pars[0].name,
        "factors" => draft.factors[2887].factor = i16::MIN,
        "paths" => draft.paths[3].factor = i16::MIN,
        _ => draft.circulations[0].flow = i32::MIN,
    }
    match kind {
        "zones" | "circulations" => 9,
        "units" | "points" => 8,
        "PARs" => 7,
        _ => 11,
    }
}
