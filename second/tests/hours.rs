//! Whole hours of document 02's request 1, mostly of sheet S with other heads.

mod common;

use common::Small;
use second::draft::{self, entitlement, head, name};
use second::exact::{self, judge_hour};
use second::fraction::Fraction;
use second::hour::{LARGEST_AMOUNT, MOST_INTERVALS, Totals, printed_hour};
use second::names::NameField;
use second::reader::read;
use second::units::{Amount, Power, Seconds};
use second::{Hour, Refusal, settle};

const NYISO: u8 = 1;
const PJM: u8 = 2;

/// Sheet S under another head; its amount is 1,328,125 for 300 s.
fn sheet(flowgate: NameField, monitoring: u8, seconds: u16) -> Vec<u8> {
    let mut records = draft::sheet_s();
    records[0] = head(flowgate, monitoring, seconds, [5000, 2000]);
    records.concat()
}

fn seconds_of_s(seconds: u16) -> Vec<u8> {
    sheet(name(b"A\\B"), PJM, seconds)
}

/// 10 MW for every flowgate here.
fn list() -> Vec<u8> {
    let flowgates = [
        name(b"A\\B"),
        name(b"B\\B"),
        long_name(b'x'),
        long_name(b'y'),
    ];
    flowgates.map(|name| entitlement(name, 100)).concat()
}

fn long_name(last: u8) -> NameField {
    let mut name = [b'n'; 16];
    name[15] = last;
    name
}

fn hour_of(seconds: &[u16]) -> Hour {
    let mut hour = Hour::open();
    for seconds in seconds {
        assert!(hour.add(&seconds_of_s(*seconds), &list()).is_ok());
    }
    hour
}

/// The interval is refused, and the hour stays as it was.
fn assert_refused(hour: &Hour, sheet: &[u8], number: u8) {
    let mut after = *hour;
    let refusal = after.add(sheet, &list()).unwrap_err();
    assert_eq!((refusal.number(), after), (number, *hour));
}

fn totals(seconds: i64, amount: i64, nyiso: i64) -> Totals {
    Totals {
        seconds: Seconds(seconds),
        amount: Amount(amount),
        nyiso: Amount(nyiso),
        pjm: Amount(-nyiso),
    }
}

#[test]
fn an_hour_opens_empty() {
    assert_eq!(Hour::open().totals(), totals(0, 0, 0));
    assert_eq!(Hour::open().count, 0);
}

#[test]
fn intervals_are_added_with_their_seconds_and_amounts() {
    let hour = hour_of(&[300, 600]);
    assert_eq!(hour.totals(), totals(900, 3 * 1_328_125, -3 * 1_328_125));
    assert_eq!(hour.amounts[..2], [Amount(1_328_125), Amount(2_656_250)]);
    assert_eq!(hour.seconds[..2], [Seconds(300), Seconds(600)]);
    assert_eq!((hour.count, hour.monitoring), (2, PJM));
    assert_eq!(hour.name, name(b"A\\B"));
    assert!(hour.amounts[2..].iter().all(|it| *it == Amount::ZERO));
    assert!(hour.seconds[2..].iter().all(|it| *it == Seconds::ZERO));
}

#[test]
fn the_monitoring_rto_has_the_amount_and_the_other_its_negative() {
    let mut hour = Hour::open();
    for value in [100, 1000] {
        let list = entitlement(name(b"A\\B"), value);
        let sheet = sheet(name(b"A\\B"), NYISO, 300);
        let alone = settle(&sheet, &list).unwrap().payment.amount;
        assert_eq!(hour.add(&sheet, &list), Ok(alone));
    }
    // 13.1875 MW beside 10 MW and 100 MW.
    let amount = 1_328_125 - 14_468_750;
    assert_eq!(hour.totals(), totals(600, amount, amount));
}

#[test]
fn exactly_3600_seconds_pass() {
    let hour = hour_of(&[900, 900, 900, 899]);
    assert_refused(&hour, &seconds_of_s(2), 25);
    let mut full = hour;
    assert!(full.add(&seconds_of_s(1), &list()).is_ok());
    assert_eq!(full.totals().seconds, Seconds(3600));
    assert_refused(&full, &seconds_of_s(1), 25);
}

#[test]
fn sixty_intervals_fill_an_hour() {
    let mut hour = hour_of(&[60; MOST_INTERVALS - 1]);
    assert!(hour.add(&seconds_of_s(60), &list()).is_ok());
    assert_eq!(hour.totals().seconds, Seconds(3600));
    assert_refused(&hour, &seconds_of_s(1), 24);
    assert_refused(&hour_of(&[1; MOST_INTERVALS]), &seconds_of_s(1), 24);
}

#[test]
fn an_hour_has_one_flowgate_and_one_monitoring_rto() {
    let hour = hour_of(&[1]);
    assert_refused(&hour, &sheet(name(b"B\\B"), PJM, 1), 26);
    assert_refused(&hour, &sheet(name(b"A\\B"), NYISO, 1), 26);
    let mut hour = Hour::open();
    let ending_in = |last| sheet(long_name(last), PJM, 1);
    assert!(hour.add(&ending_in(b'x'), &list()).is_ok());
    assert_refused(&hour, &ending_in(b'y'), 26);
}

#[test]
fn refusals_come_in_their_order() {
    let other = sheet(name(b"B\\B"), NYISO, 900);
    assert_refused(&hour_of(&[60; MOST_INTERVALS]), &other, 24);
    assert_refused(&hour_of(&[900, 900, 900, 1]), &other, 25);
    assert_refused(&hour_of(&[900, 900, 900]), &other, 26);
    let mut own = other;
    own.pop();
    for seconds in [&[60; MOST_INTERVALS][..], &[900; 4], &[1], &[]] {
        assert_refused(&hour_of(seconds), &own, 3);
    }
    let unlisted = sheet(name(b"C"), NYISO, 900);
    assert_refused(&hour_of(&[60; MOST_INTERVALS]), &unlisted, 15);
}

#[test]
fn the_amount_is_off_by_the_bounds_together_at_most() {
    let small = Small {
        zone_loads: vec![(1, 1), (2, 0)],
        output: (1, 1),
        points: vec![],
    };
    let list = entitlement(name(b"F"), 0);
    let bytes = small.bytes();
    let mut hour = Hour::open();
    for _ in 0..12 {
        assert!(hour.add(&bytes, &list).is_ok());
    }
    let amount = hour.totals().amount;
    // A flow of 7 W at 5000 for 300 s is 2.91, and exact is 20/3 W: 2.77.
    assert_eq!(amount, Amount(12 * 3));
    let sheet = read(&bytes).unwrap();
    let settled = exact::settlement_flow(&sheet, Power(0));
    let exact = exact::amount(&sheet, &settled, Power(0));
    assert_eq!(exact, Fraction::of(25, 9));
    let intervals: Vec<_> = (0..12).map(|_| (sheet.clone(), Power(0))).collect();
    let verdict = |amount| judge_hour(&intervals, Amount(amount));
    assert!(verdict(amount.0).is_ok());
    // Twelve times 2 W at 5000 for 300 s and a half: 16 off 33 1/3.
    assert!(verdict(49).is_ok() && verdict(18).is_ok());
    assert!(verdict(50).is_err() && verdict(17).is_err());
    assert!(judge_hour(&[], Amount(0)).is_ok());
    assert!(judge_hour(&[], Amount(1)).is_err());
}

#[test]
fn any_hour_has_totals() {
    let mut hour = hour_of(&[1]);
    hour.amounts = [Amount(i64::MAX); MOST_INTERVALS];
    hour.seconds = [Seconds(65_535); MOST_INTERVALS];
    hour.monitoring = 9;
    for (count, held) in [(0, 0), (1, 1), (60, 60), (61, 60), (usize::MAX, 60)] {
        hour.count = count;
        let amount = held * LARGEST_AMOUNT.0;
        assert_eq!(hour.totals(), totals(held * 65_535, amount, -amount));
    }
    assert_refused(&hour, &seconds_of_s(1), 24);
    hour.count = 1;
    assert_refused(&hour, &seconds_of_s(1), 25);
    hour.amounts[0] = Amount(i64::MIN);
    assert_eq!(hour.totals().amount, -LARGEST_AMOUNT);
    hour.count = 0;
    let mut after = hour;
    assert_eq!(
        after.add(&seconds_of_s(300), &list()),
        Ok(Amount(1_328_125))
    );
    assert_eq!(after.amounts[1..], hour.amounts[1..]);
    assert_eq!(after.totals(), totals(300, 1_328_125, -1_328_125));
}

#[test]
fn the_program_prints_each_interval_and_the_hour() {
    let sheets = [seconds_of_s(300), Vec::new(), sheet(name(b"B\\B"), PJM, 1)];
    let sheets = sheets.each_ref().map(Vec::as_slice);
    let text = "amount 1328125\nrefused 1\nrefused 26
seconds 300\namount 1328125\nNYISO -1328125\nPJM 1328125\n";
    assert_eq!(printed_hour(&list(), &sheets), text);
    let empty = "seconds 0\namount 0\nNYISO 0\nPJM 0\n";
    assert_eq!(printed_hour(&[], &[]), empty);
    let refused = Refusal::NoHead;
    let text = format!("{refused}\n{empty}");
    assert_eq!(printed_hour(&list(), &[&[]]), text);
}
