//! Request 6: paths and the circulation, from their rows to the settlement flow.

#[path = "common/rows.rs"]
mod rows;

use std::cmp::Ordering;

use rows::{place_of, refusal};
use second::content::{Circulation, Content, Path, content};
use second::draft::{self, circulation, name, path};
use second::exact::{self, Rounded, judge_hour};
use second::fraction::Fraction;
use second::lake::{impact, middle, settlement_flow, unrounded_impact};
use second::reader::read;
use second::sheet::{self, Lake};
use second::units::{Amount, Factor, Power, QuarterWatts, Watts};
use second::{Hour, Name, listing, settle, write};

/// The first path's record of sheet S with paths, and the circulation's.
const S_PATH: usize = 21;
const S_CIRCULATION: usize = 25;

fn lake(paths: [(i64, i64); 4], circulation: i64) -> Lake {
    let path = |(flow, factor)| sheet::Path {
        name: Name::of(*b"any path's name.").unwrap(),
        flow: Power(flow),
        factor: Factor(factor),
    };
    Lake {
        paths: paths.map(path).to_vec(),
        circulation: Power(circulation),
    }
}

/// One path whose impact is so many halves of a watt, in steps of 5.
fn of_halves(halves: i64) -> Lake {
    // (4 x flow - circulation) x 10 / 4 W is 5 / 2 W for each step.
    let steps = halves / 5;
    lake(
        [((steps + 3) / 4, 1), (0, 0), (0, 0), (0, 0)],
        4 * ((steps + 3) / 4) - steps,
    )
}

#[test]
fn halves_of_the_impact_go_to_even() {
    for (halves, rounded) in [
        (5, 2),
        (15, 8),
        (25, 12),
        (35, 18),
        (-5, -2),
        (-15, -8),
        (-25, -12),
        (-35, -18),
        (0, 0),
        (10, 5),
        (-10, -5),
        (20, 10),
    ] {
        let lake = of_halves(halves);
        assert_eq!(unrounded_impact(&lake), QuarterWatts(2 * halves));
        assert_eq!(impact(&lake), Watts(rounded), "{halves} halves");
    }
}

#[test]
fn paths_are_rounded_together() {
    // Two halves are one; each by itself would be 2.
    let both = lake([(0, 1), (0, 1), (0, 0), (0, 0)], -1);
    assert_eq!(impact(&both), Watts(5));
    // The circulation goes to all four paths, by their factors.
    let spread = lake([(7, 1), (5, -2), (-3, 10), (0, 3)], 8);
    let beyond = 7 - 2 - 2 * (5 - 2) + 10 * (-3 - 2) + 3 * (0 - 2);
    assert_eq!(impact(&spread), Watts(10 * beyond));
    let greatest = lake([(200_000, 10_000); 4], -200_000);
    assert_eq!(impact(&greatest), Watts(100_000_000_000));
    let least = lake([(200_000, -10_000); 4], -200_000);
    assert_eq!(impact(&least), Watts(-100_000_000_000));
}

#[test]
fn the_middle_one_in_all_orders_and_ties() {
    for (flows, wanted) in [
        ([1, 2, 3], 2),
        ([1, 3, 2], 2),
        ([2, 1, 3], 2),
        ([2, 3, 1], 2),
        ([3, 1, 2], 2),
        ([3, 2, 1], 2),
        ([1, 1, 2], 1),
        ([1, 2, 1], 1),
        ([2, 1, 1], 1),
        ([2, 2, 1], 2),
        ([2, 1, 2], 2),
        ([1, 2, 2], 2),
        ([-5, -5, -5], -5),
        ([-10_000_000_000, 0, 10_000_000_000], 0),
    ] {
        assert_eq!(middle(flows.map(Watts)), Watts(wanted), "{flows:?}");
    }
}

/// Source document 002 writes three cases out.
#[test]
fn the_sources_cases_are_the_middle_one() {
    for market in -4..=4 {
        for adjusted in -4..=4 {
            for entitlement in -4..=4 {
                let by_source = match adjusted.cmp(&market) {
                    Ordering::Equal => market,
                    Ordering::Greater => adjusted.min(market.max(entitlement)),
                    Ordering::Less => adjusted.max(market.min(entitlement)),
                };
                let flows = [market, adjusted, entitlement].map(Watts);
                assert_eq!(middle(flows), Watts(by_source));
            }
        }
    }
}

#[test]
fn without_paths_the_market_flow_is_settled() {
    let (market, entitlement) = (Watts(20_000_000_000), Watts(5));
    assert_eq!(settlement_flow(None, market, entitlement), market);
    let statement = settle(&draft::sheet_s().concat(), &draft::list_s()).unwrap();
    assert_eq!(statement.settled, statement.flow.market);
    assert!(!statement.has_paths);
    assert!(!listing_text(&draft::sheet_s()).contains("settled"));
}

fn listing_text(records: &[Vec<u8>]) -> String {
    let statement = settle(&records.concat(), &draft::list_s()).unwrap();
    String::from_utf8(listing(&statement)).unwrap()
}

/// (199 x -3000 - 601 x 1000 - 599 x 5 - 101 x 2) x 10 / 4 is -3,002,992 and a half, even
/// is -3,002,992. Adjusted is 13,187,500 less that, above the entitlement. 184,508 W at
/// 5000 for 300 s are 76,878 and a third.
#[test]
fn sheet_s_with_paths_prints_its_listing() {
    let expected = "flowgate 415c42
gtl 12600000 0 0
parallel 5000000
shadow 400000
common 4812500
noncommon 0
market 13187500
settled 10184508
entitlement 10000000
price 5000
amount 76878
NYISO -76878
PJM 76878
";
    assert_eq!(listing_text(&draft::sheet_s_with_paths()), expected);
}

#[test]
fn the_exact_figures_are_not_rounded() {
    let bytes = draft::sheet_s_with_paths().concat();
    let sheet = read(&bytes).unwrap();
    assert_eq!(exact::impact(&sheet), Fraction::of(-6_005_985, 2));
    let settled = exact::settlement_flow(&sheet, Power(100));
    assert_eq!(settled, Fraction::of(20_369_015, 2));
    let amount = exact::amount(&sheet, &settled, Power(100));
    assert_eq!(amount, Fraction::of(369_015 * 1_500_000, 2 * 3_600_000));
    // At 200 the entitlement is above all flows, at 0 below; at 110 in the middle.
    let at = |value| exact::settlement_flow(&sheet, Power(value));
    assert_eq!(at(200), Fraction::whole(13_187_500));
    assert_eq!(at(0), settled);
    assert_eq!(at(110), Fraction::whole(11_000_000));
}

#[test]
fn an_impact_of_zero_is_told_too() {
    let mut records = draft::sheet_s_with_paths();
    for (k, record) in (1..).zip(&mut records[S_PATH..S_CIRCULATION]) {
        *record = path(name(&[b'L', k]), 0, 10_000);
    }
    records[S_CIRCULATION] = circulation(0);
    let text = listing_text(&records);
    assert!(text.contains("market 13187500\nsettled 13187500\nentitlement"));
}

#[test]
fn the_entitlement_in_the_middle_costs_nothing() {
    let sheet = draft::sheet_s_with_paths().concat();
    let list = draft::entitlement(name(b"A\\B"), 110);
    let statement = settle(&sheet, &list).unwrap();
    assert_eq!(statement.settled, Watts(11_000_000));
    assert_eq!(statement.payment.price.0, 0);
    assert_eq!(statement.payment.amount, Amount::ZERO);
}

fn verdict(change: impl Fn(&mut Rounded)) -> Result<(), String> {
    let bytes = draft::sheet_s_with_paths().concat();
    let mut rounded = Rounded {
        targets: Vec::new(),
        market: Watts(13_187_500),
        settled: Watts(10_184_508),
        amount: Amount(76_878),
    };
    change(&mut rounded);
    exact::judge(&read(&bytes).unwrap(), Power(100), &rounded)
}

/// p is 1: the market flow is off by 3 W at most, the settlement flow by 4 W from
/// 10,184,507 and a half.
#[test]
fn the_settlement_flow_may_be_off_by_one_more() {
    assert!(verdict(|_| {}).is_ok());
    assert!(verdict(|it| it.market += Watts(3)).is_ok());
    assert!(verdict(|it| it.market += Watts(4)).is_err());
    assert!(verdict(|it| it.settled += Watts(3)).is_ok());
    assert!(verdict(|it| it.settled += Watts(4)).is_err());
    assert!(verdict(|it| it.settled -= Watts(4)).is_ok());
    assert!(verdict(|it| it.settled -= Watts(5)).is_err());
    // 4 W at 5000 for 300 s are 1 2/3, and a half: 2 1/6 off 76,878 1/8.
    assert!(verdict(|it| it.amount = Amount(76_880)).is_ok());
    assert!(verdict(|it| it.amount = Amount(76_881)).is_err());
    assert!(verdict(|it| it.amount = Amount(76_876)).is_ok());
    assert!(verdict(|it| it.amount = Amount(76_875)).is_err());
}

#[test]
fn an_hour_adds_each_intervals_own_bound() {
    let (with, without) = (draft::sheet_s_with_paths(), draft::sheet_s());
    let bytes = [with.concat(), without.concat()];
    let mut hour = Hour::open();
    for sheet in &bytes {
        hour.add(sheet, &draft::list_s()).unwrap();
    }
    let amount = hour.totals().amount;
    assert_eq!(amount, Amount(76_878 + 1_328_125));
    let intervals = bytes.each_ref().map(|it| (read(it).unwrap(), Power(100)));
    // 2 1/6 and 1 3/4 off 1,405,003 1/8.
    let verdict = |by| judge_hour(&intervals, amount + Amount(by));
    assert!(verdict(4).is_ok() && verdict(-3).is_ok());
    assert!(verdict(5).is_err() && verdict(-4).is_err());
}

/// Sheet S with paths and one record replaced is refused by that record.
fn assert_refused(number: u8, at: usize, record: Vec<u8>) {
    rows::assert_refused(draft::sheet_s_with_paths(), number, at, record);
}

#[test]
fn row_28_at_the_end() {
    let whole = draft::sheet_s_with_paths();
    assert_eq!(refusal(&whole), None);
    let circulation = whole[S_CIRCULATION].clone();
    for paths in 0..4 {
        let mut records = whole[..S_PATH + paths].to_vec();
        if paths > 0 {
            let end = records.concat().len();
            assert_eq!(refusal(&records), Some((28, end)), "{paths} paths");
        }
        records.push(circulation.clone());
        let end = records.concat().len();
        assert_eq!(
            refusal(&records),
            Some((28, end)),
            "{paths} and a circulation"
        );
    }
    let end = place_of(&whole, S_CIRCULATION);
    assert_eq!(refusal(&whole[..S_CIRCULATION]), Some((28, end)));
}

#[test]
fn row_28_comes_behind_12_and_13_and_before_the_list() {
    let whole = draft::sheet_s_with_paths();
    let end = |records: &[Vec<u8>]| records.concat().len();
    // A factor is missing.
    let mut records = whole[..S_CIRCULATION].to_vec();
    records.remove(S_PATH - 1);
    assert_eq!(refusal(&records), Some((13, end(&records))));
    // No unit.
    let records = [&whole[..3], &whole[S_CIRCULATION..]].concat();
    assert_eq!(refusal(&records), Some((12, end(&records))));
    // A faulty list, none at all, loads of more than 2,000,000.
    let mut records = whole[..S_CIRCULATION].to_vec();
    for list in [&[0][..], &[], &draft::list_s()] {
        let answer = settle(&records.concat(), list);
        assert_eq!(answer.unwrap_err().number(), 28);
        records[1] = draft::zone(name(b"Z1"), 2_000_000, 2_000_000);
    }
    records.push(whole[S_CIRCULATION].clone());
    let answer = settle(&records.concat(), &draft::list_s());
    assert_eq!(answer.unwrap_err().number(), 16);
}

#[test]
fn kinds_7_and_8_stand_behind_the_factors() {
    let whole = draft::sheet_s_with_paths();
    let inserted = |at: usize, from: usize| {
        let mut records = whole.clone();
        records.insert(at, whole[from].clone());
        (refusal(&records), place_of(&records, at))
    };
    let (factor, path, circulation) = (S_PATH - 1, S_PATH + 3, S_CIRCULATION);
    // A factor behind a path and behind the circulation, a path behind the circulation.
    for (at, from) in [
        (path, factor),
        (circulation + 1, factor),
        (circulation + 1, path),
    ] {
        let (refusal, place) = inserted(at, from);
        assert_eq!(refusal, Some((4, place)));
    }
    // A path before the factors: the next factor is out of order.
    let mut records = whole.clone();
    records.insert(8, whole[path].clone());
    assert_eq!(refusal(&records), Some((4, place_of(&records, 9))));
    // A fifth path, of any name, and a second circulation.
    assert_eq!(
        inserted(circulation, path),
        (
            Some((5, place_of(&whole, circulation))),
            place_of(&whole, circulation)
        )
    );
    let (refusal_of_second, place) = inserted(circulation + 1, circulation);
    assert_eq!(refusal_of_second, Some((5, place)));
    let mut records = whole.clone();
    records.push(circulation_beyond());
    assert_eq!(refusal(&records), Some((5, place_of(&records, 26))));
    records[26].pop();
    assert_eq!(refusal(&records), Some((3, place_of(&records, 26))));
    records[26] = vec![9];
    assert_eq!(refusal(&records), Some((2, place_of(&records, 26))));
}

fn circulation_beyond() -> Vec<u8> {
    circulation(200_001)
}

#[test]
fn paths_and_circulation_are_checked_row_by_row() {
    let last = S_PATH + 3;
    assert_refused(6, last, path(name(b""), i32::MAX, i16::MAX));
    assert_refused(6, last, path(name(b"L\x004"), 0, 0));
    assert_refused(7, last, path(name(b"L1"), i32::MIN, i16::MIN));
    assert_refused(9, last, path(name(b"L4"), 200_001, 10_001));
    assert_refused(11, last, path(name(b"L4"), 200_000, 10_001));
    for beyond in [200_001, -200_001, i32::MAX, i32::MIN] {
        assert_refused(9, S_PATH, path(name(b"L1"), beyond, 0));
        assert_refused(9, S_CIRCULATION, circulation(beyond));
    }
    for beyond in [10_001, -10_001, i16::MAX, i16::MIN] {
        assert_refused(11, S_PATH, path(name(b"L1"), 0, beyond));
    }
    let mut records = draft::sheet_s_with_paths();
    // Names may stand in other kinds.
    for (at, named) in [(0, "Z1"), (1, "U1"), (2, "P1"), (3, "T1")] {
        let sign = if at % 2 == 0 { 1 } else { -1 };
        records[S_PATH + at] = path(name(named.as_bytes()), 200_000 * sign, 10_000 * sign as i16);
    }
    for flow in [200_000, -200_000] {
        records[S_CIRCULATION] = circulation(flow);
        assert_eq!(refusal(&records), None);
    }
}

fn content_s() -> Content {
    content(&draft::sheet_s_with_paths().concat()).unwrap()
}

/// Refused by this row, in a long buffer and in a short one.
fn altered(row: u8, alter: impl Fn(&mut Content)) {
    let mut content = content_s();
    alter(&mut content);
    for length in [0, content.length() - 1, 40_000] {
        let mut out = vec![0x5a; length];
        let answer = write(&content, &mut out);
        assert_eq!(answer.map_err(|it| it.number()), Err(row));
        assert!(out.iter().all(|byte| *byte == 0x5a));
    }
}

#[test]
fn sheets_with_paths_are_written_again() {
    let sheet = draft::sheet_s_with_paths().concat();
    let content = content_s();
    assert_eq!((content.paths.len(), content.circulations.len()), (4, 1));
    let mut out = vec![0x5a; sheet.len() + 1];
    assert_eq!(write(&content, &mut out), Ok(sheet.len()));
    assert_eq!(out[..sheet.len()], sheet);
    assert_eq!(out[sheet.len()], 0x5a);
    let short = &mut out[..sheet.len() - 1];
    assert_eq!(write(&content, short).unwrap_err().number(), 27);
}

#[test]
fn the_writer_gives_the_readers_rows() {
    altered(28, |it| it.circulations.clear());
    altered(28, |it| it.paths.clear());
    for paths in 1..4 {
        altered(28, |it| it.paths.truncate(paths));
        altered(28, |it| {
            it.paths.truncate(paths);
            it.circulations.clear();
        });
    }
    altered(13, |it| {
        it.paths.clear();
        it.factors.pop();
    });
    altered(12, |it| {
        it.circulations.clear();
        it.units.clear();
        it.factors.clear();
    });
    altered(5, |it| it.paths.push(it.paths[0]));
    altered(5, |it| it.circulations.push(Circulation { flow: i32::MAX }));
    altered(9, |it| {
        it.circulations[0].flow = 200_001;
        it.circulations.push(it.circulations[0]);
    });
    altered(6, |it| it.paths[0].name = name(b""));
    altered(7, |it| it.paths[3].name = it.paths[0].name);
    let beyond = |it: &mut Path| (it.flow, it.factor) = (-200_001, -10_001);
    altered(9, |it| beyond(&mut it.paths[3]));
    altered(11, |it| it.paths[3].factor = i16::MIN);
    altered(11, |it| {
        it.paths[1].factor = 10_001;
        it.paths[2].flow = i32::MIN;
    });
    altered(11, |it| {
        it.factors[12].value = 10_001;
        it.paths[0].name = name(b"");
    });
}
