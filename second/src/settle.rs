//! One interval's statement: rows 1 to 22 and 28.

use crate::entitlement::entitlement;
use crate::flow::{Flow, market_flow};
use crate::generation_to_load::Balance;
use crate::lake::settlement_flow;
use crate::names::Name;
use crate::payment::{Payment, payment};
use crate::reader::read;
use crate::refusal::Refusal;
use crate::sheet::{Head, Sheet};
use crate::units::Watts;

#[derive(Clone, Copy, Debug, PartialEq, Eq)]
pub struct Statement {
    pub name: Name,
    pub flow: Flow,
    /// What is paid on.
    pub settled: Watts,
    /// Whether the sheet has paths and a circulation.
    pub has_paths: bool,
    pub entitlement: Watts,
    pub payment: Payment,
}

/// An accepted interval: whose it is and how long, and its statement.
#[derive(Clone, Copy, Debug)]
pub struct Interval {
    pub head: Head,
    pub statement: Statement,
}

/// Settles one interval.
pub fn settle(sheet: &[u8], list: &[u8]) -> Result<Statement, Refusal> {
    interval(sheet, list).map(|interval| interval.statement)
}

pub fn interval(sheet: &[u8], list: &[u8]) -> Result<Interval, Refusal> {
    let sheet = read(sheet)?;
    let statement = statement(&sheet, list)?;
    Ok(Interval {
        head: sheet.head,
        statement,
    })
}

/// Settles a sheet that was read: rows 14 to 22.
pub fn statement(sheet: &Sheet, list: &[u8]) -> Result<Statement, Refusal> {
    let entitlement = entitlement(list, sheet.head.name)?.watts();
    let balance = Balance::of(sheet);
    balance.rows()?;
    let flow = market_flow(sheet, &balance);
    let settled = settlement_flow(sheet.lake.as_ref(), flow.market, entitlement);
    Ok(Statement {
        name: sheet.head.name,
        flow,
        settled,
        has_paths: sheet.lake.is_some(),
        entitlement,
        payment: payment(&sheet.head, settled, entitlement)?,
    })
}
