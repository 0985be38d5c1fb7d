//! The figures that document 01 gives to hold against it.

mod common;

use common::Small;
use second::draft;
use second::exact::{self, Rounded, RoundedFlow};
use second::fraction::Fraction;
use second::reader::read;
use second::sheet::FLOWGATE;
use second::units::{Amount, Power, Price, Remainder, Seconds, Watts, rounded_quotient};
use second::{Refusal, Statement, listing, report, settle};

const LISTING_S: &str = "flowgate 415c42
gtl 12600000 0 0
parallel 5000000
shadow 400000
common 4812500
noncommon 0
market 13187500
entitlement 10000000
price 5000
amount 1328125
NYISO -1328125
PJM 1328125
";

fn settled(small: &Small, value: i32) -> Result<Statement, Refusal> {
    let list = draft::entitlement(draft::name(b"F"), value);
    settle(&small.bytes(), &list)
}

fn amount(difference: i64, price: i64, seconds: i64) -> i64 {
    Watts(difference).cost(Price(price), Seconds(seconds)).0
}

fn gtl(flow: i64, first_remainder: i64, second_remainder: i64) -> RoundedFlow {
    RoundedFlow {
        flow: Watts(flow),
        first_remainder: Remainder(first_remainder),
        second_remainder: Remainder(second_remainder),
    }
}

fn gtl_of(statement: &Statement) -> RoundedFlow {
    let of = statement.flow.generation_to_load;
    gtl(of.flow.0, of.first_remainder.0, of.second_remainder.0)
}

#[test]
fn sheet_s_prints_its_listing() {
    let sheet = draft::sheet_s().concat();
    let statement = settle(&sheet, &draft::list_s()).unwrap();
    assert_eq!(listing(&statement), LISTING_S.as_bytes());
    let mut out = [0x5a; 400];
    let answer = report(&sheet, &draft::list_s(), &mut out);
    assert_eq!(answer, Ok((statement, LISTING_S.len())));
    let (front, rest) = out.split_at(LISTING_S.len());
    assert_eq!(front, LISTING_S.as_bytes());
    assert!(rest.iter().all(|byte| *byte == 0x5a));
}

/// Net schedules are 500 + 70 - 30 = 540 and 300 + 20 - 200 - 50 = 70: parallel flow
/// 540 x 1000 x 10, shadow flow 70 x 400 x 10. On T1 parallel flow is 540 x 2000 x 10,
/// so it carries a quarter of 11,250,000 + 10,800,000, less 500,000 of control. The
/// difference is 3,267,500; at 5000 and 300 s that is 1,361,458 and a third.
#[test]
fn wheels_enter_the_net_schedule() {
    let sheet = draft::sheet_s_with_wheels().concat();
    let statement = settle(&sheet, &draft::list_s()).unwrap();
    let expected = "flowgate 415c42
gtl 12600000 0 0
parallel 5400000
shadow 280000
common 5012500
noncommon 0
market 13267500
entitlement 10000000
price 5000
amount 1361458
NYISO -1361458
PJM 1361458
";
    assert_eq!(String::from_utf8(listing(&statement)).unwrap(), expected);
    let sheet = read(&sheet).unwrap();
    let flow = exact::market_flow(&sheet);
    assert_eq!(flow, Fraction::whole(13_267_500));
    let amount = exact::amount(&sheet, &flow, Power(100));
    assert_eq!(amount, Fraction::of(3 * 1_361_458 + 1, 3));
}

/// Far more than its loads and outputs is wheeled, and no row of the balance is met.
#[test]
fn wheels_leave_the_balance_alone() {
    let small = Small {
        zone_loads: vec![(10, 0)],
        output: (10, 0),
        points: vec![
            (1, 0, [9, 9, 200_000, 199_999], 3),
            (2, 1, [0, 0, 200_000, 200_000], 10_000),
            (2, 1, [0, 0, 5, 200_000], 0),
        ],
    };
    let statement = settled(&small, 0).unwrap();
    assert_eq!(statement.flow.shadow, Watts(30));
    assert_eq!(statement.flow.parallel, Watts::ZERO);
    assert_eq!(statement.flow.market, Watts(30));
}

#[test]
fn a_short_buffer_is_refused_unchanged() {
    let (sheet, list) = (draft::sheet_s().concat(), draft::list_s());
    for length in 0..LISTING_S.len() {
        let mut out = vec![0x5a; length];
        let answer = report(&sheet, &list, &mut out);
        assert_eq!(answer, Err(Refusal::BufferTooShort));
        assert!(out.iter().all(|byte| *byte == 0x5a));
    }
    let mut out = vec![0x5a; LISTING_S.len()];
    assert!(report(&sheet, &list, &mut out).is_ok());
}

#[test]
fn halves_are_rounded_to_even() {
    assert_eq!(rounded_quotient(5, 2), (2, 1));
    assert_eq!(rounded_quotient(-5, 2), (-2, -1));
    assert_eq!(rounded_quotient(-1, 3), (0, -1));
    assert_eq!(rounded_quotient(7, 2), (4, -1));
    assert_eq!(rounded_quotient(-7, 2), (-4, 1));
    assert_eq!(rounded_quotient(3, 6), (0, 3));
    assert_eq!(rounded_quotient(-3, 6), (0, -3));
    assert_eq!(rounded_quotient(0, 1), (0, 0));
    assert_eq!(rounded_quotient(-2, 3), (-1, 1));
}

#[test]
fn quotients_at_the_ends_do_not_overflow() {
    let half = i64::MAX / 2;
    assert_eq!(rounded_quotient(i64::MAX, 1), (i64::MAX, 0));
    assert_eq!(rounded_quotient(i64::MIN, 1), (i64::MIN, 0));
    assert_eq!(rounded_quotient(i64::MAX, 2), (half + 1, -1));
    assert_eq!(rounded_quotient(i64::MIN + 1, 2), (-half - 1, 1));
    assert_eq!(rounded_quotient(half, i64::MAX - 1), (0, half));
    assert_eq!(rounded_quotient(-half, i64::MAX - 1), (0, -half));
    assert_eq!(rounded_quotient(i64::MIN, i64::MAX), (-1, -1));
}

#[test]
fn flow_of_seven_is_not_exact() {
    let small = Small {
        zone_loads: vec![(1, 1), (2, 0)],
        output: (1, 1),
        points: vec![],
    };
    let statement = settled(&small, 0).unwrap();
    assert_eq!(gtl_of(&statement), gtl(7, 1, 0));
    let bytes = small.bytes();
    let sheet = read(&bytes).unwrap();
    assert_eq!(
        exact::generation_to_load(&sheet, FLOWGATE),
        Fraction::of(20, 3)
    );
}

#[test]
fn flow_of_minus_ten_is_exact_with_remainders() {
    let small = Small {
        zone_loads: vec![(1, 1), (3, 0)],
        output: (5, 0),
        points: vec![(1, 0, [0, 1, 0, 0], 0)],
    };
    let statement = settled(&small, 0).unwrap();
    assert_eq!(gtl_of(&statement), gtl(-10, 2, 2));
    let bytes = small.bytes();
    let sheet = read(&bytes).unwrap();
    assert_eq!(
        exact::generation_to_load(&sheet, FLOWGATE),
        Fraction::whole(-10)
    );
}

#[test]
fn amounts_are_rounded_once() {
    assert_eq!(amount(1, 400_000, 900), 100);
    assert_eq!(amount(-1, 100_000, 900), -25);
    assert_eq!(amount(1, 6000, 300), 0);
    assert_eq!(amount(-1, 6000, 300), 0);
    assert_eq!(amount(3, 6000, 300), 2);
    assert_eq!(amount(-3, 6000, 300), -2);
    assert_eq!(amount(20_000_000_000, 400_000, 900), 2_000_000_000_000);
}

#[test]
fn at_the_entitlement_the_price_is_zero() {
    let small = Small {
        zone_loads: vec![(1000, 0)],
        output: (1, 0),
        points: vec![(2, 0, [100, 0, 0, 0], 10_000)],
    };
    let at = |value| settled(&small, value).unwrap();
    assert_eq!(at(100).flow.market, Watts(10_000_000));
    assert_eq!(at(100).payment.price, Price::ZERO);
    assert_eq!(at(100).payment.amount, Amount::ZERO);
    assert_eq!(at(99).payment.price, Price(5000));
    assert_eq!(at(101).payment.price, Price(2000));
}

#[test]
fn final_load_must_be_above_zero() {
    let with_import = |import| Small {
        zone_loads: vec![(10, 0)],
        output: (1, 0),
        points: vec![(1, 0, [import, 0, 0, 0], 0)],
    };
    assert!(settled(&with_import(9), 0).is_ok());
    assert_eq!(settled(&with_import(10), 0), Err(Refusal::NoFinalLoad));
}

#[test]
fn final_generation_may_be_zero() {
    let with_export = |export| Small {
        zone_loads: vec![(3, 1)],
        output: (10, 7),
        points: vec![(1, 0, [0, export, 0, 0], 0)],
    };
    let statement = settled(&with_export(10), 0).unwrap();
    let flow = gtl_of(&statement);
    assert_eq!(flow, gtl(0, flow.first_remainder.0, 0));
    let refusal = Refusal::FinalGenerationBelowZero;
    assert_eq!(settled(&with_export(11), 0), Err(refusal));
}

#[test]
fn accuracy_is_judged_by_exact_figures() {
    let bytes = draft::sheet_s().concat();
    let sheet = read(&bytes).unwrap();
    let sound = Rounded {
        targets: vec![(FLOWGATE, gtl(12_600_000, 0, 0))],
        market: Watts(13_187_500),
        settled: Watts(13_187_500),
        amount: Amount(1_328_125),
    };
    let entitlement = Power(100);
    assert_eq!(exact::judge(&sheet, entitlement, &sound), Ok(()));
    let verdict = |change: &dyn Fn(&mut Rounded)| {
        let mut rounded = sound.clone();
        change(&mut rounded);
        exact::judge(&sheet, entitlement, &rounded)
    };
    assert!(verdict(&|r| r.market += Watts(3)).is_ok());
    assert!(verdict(&|r| r.market += Watts(4)).is_err());
    assert!(verdict(&|r| r.settled += Watts(3)).is_ok());
    assert!(verdict(&|r| r.settled += Watts(4)).is_err());
    // Three watts of bound at 5000 and 300 s are 1.25, and a half for the amount.
    assert!(verdict(&|r| r.amount += Amount(1)).is_ok());
    assert!(verdict(&|r| r.amount += Amount(2)).is_err());
    assert!(verdict(&|r| r.targets[0].1.flow += Watts(1)).is_err());
    assert!(verdict(&|r| r.targets[0].1.first_remainder = Remainder(1)).is_err());
}
