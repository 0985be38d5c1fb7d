//! The judge of accuracy itself: figures on their bounds pass, and a step past them none
//! does.

use second::exact;
use second::fraction::Fraction;
use second::reader::read;
use second::units::Power;

use crate::mismatch::{Mismatch, same};
use crate::questions::settle::Input;
use crate::sides::{Rounded, Sides};

/// A figure of a statement.
type Figure = fn(&mut Rounded) -> &mut i64;

/// Of an accepted input: market flow, settlement flow and amount, above and below.
pub fn check(sides: &Sides, input: &Input) -> Result<(), Mismatch> {
    let figures = sides.second.settle(&input.sheet, &input.list);
    let entitlement = Power(figures.entitlement / Power(1).watts().0);
    let rounded = Rounded {
        targets: Vec::new(),
        market: figures.market,
        settled: figures.settled,
        amount: figures.amount,
        entitlement: entitlement.0,
    };
    let sheet = read(&input.sheet).map_err(|it| Mismatch::of("reading", it.refusal, "accepted"))?;
    let settled = exact::settlement_flow(&sheet, entitlement);
    let amount = exact::amount(&sheet, &settled, entitlement);
    let pars = sheet.pars.len() as i64;
    let with_paths = i64::from(sheet.lake.is_some());
    let watts = pars + 2 + with_paths;
    let dearer = sheet
        .head
        .monitoring_price
        .max(sheet.head.non_monitoring_price);
    let worth = watts * dearer.0 * sheet.head.seconds.0;
    let in_money = &Fraction::of(worth, 3_600_000) + &Fraction::of(1, 2);
    let each: [(Figure, Fraction, Fraction); 3] = [
        (
            |it| &mut it.market,
            exact::market_flow(&sheet),
            Fraction::whole(pars + 2),
        ),
        (|it| &mut it.settled, settled, Fraction::whole(watts)),
        (|it| &mut it.amount, amount, in_money),
    ];
    for (figure, exact, bound) in each {
        for step in [1, -1] {
            at_its_bound(sides, input, &rounded, (figure, step), (&exact, &bound))?;
        }
    }
    Ok(())
}

/// Moves one figure to the last that is within the bound, and then past it.
fn at_its_bound(
    sides: &Sides,
    input: &Input,
    rounded: &Rounded,
    (figure, step): (Figure, i64),
    (exact, bound): (&Fraction, &Fraction),
) -> Result<(), Mismatch> {
    let mut moved = rounded.clone();
    let within = |value: i64| (&Fraction::whole(value) - exact).abs() <= *bound;
    while within(*figure(&mut moved) + step) {
        *figure(&mut moved) += step;
    }
    let passes = |rounded: &Rounded| sides.second.judge(&input.sheet, rounded).is_ok();
    same("a figure on its bound passes", passes(&moved), true)?;
    *figure(&mut moved) += step;
    same("a figure past its bound passes", passes(&moved), false)
}
