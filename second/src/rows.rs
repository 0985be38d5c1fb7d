//! What rows 5 to 9 and 11 ask of a count, a name, a code or a number, and row 28 of
//! counts.

use std::ops::RangeInclusive;

use crate::layout::{FACTORS, MOST_CIRCULATIONS, MOST_PATHS};
use crate::names::{Name, NameField, NamesSeen};
use crate::refusal::Refusal;
use crate::sheet::{Class, Rto, ZoneNumber};
use crate::units::{Factor, Power};

pub fn room(count: usize, most: usize) -> Result<(), Refusal> {
    match count < most {
        true => Ok(()),
        false => Err(Refusal::Surplus),
    }
}

pub fn name(field: NameField) -> Result<Name, Refusal> {
    Name::of(field).ok_or(Refusal::IllFormedName)
}

/// Rows 6 and 7.
pub fn new_name(names: &mut NamesSeen, field: NameField) -> Result<Name, Refusal> {
    let name = name(field)?;
    match names.note(name) {
        true => Ok(name),
        false => Err(Refusal::RepeatedName),
    }
}

pub fn rto(code: u8) -> Result<Rto, Refusal> {
    match code {
        1 => Ok(Rto::Nyiso),
        2 => Ok(Rto::Pjm),
        _ => Err(Refusal::UnlistedCode),
    }
}

pub fn class(code: u8) -> Result<Class, Refusal> {
    match code {
        1 => Ok(Class::Common),
        2 => Ok(Class::NonCommon),
        _ => Err(Refusal::UnlistedCode),
    }
}

/// The number of one of so many zones.
pub fn zone_number(number: u8, zones: usize) -> Result<ZoneNumber, Refusal> {
    if number == 0 || usize::from(number) > zones {
        return Err(Refusal::UnlistedCode);
    }
    Ok(ZoneNumber(number))
}

pub fn within(range: RangeInclusive<i64>, value: i64) -> Result<i64, Refusal> {
    match range.contains(&value) {
        true => Ok(value),
        false => Err(Refusal::OutOfRange),
    }
}

pub fn power(value: i64, range: RangeInclusive<i64>) -> Result<Power, Refusal> {
    within(range, value).map(Power)
}

/// Row 11.
pub fn factor(value: i64) -> Result<Factor, Refusal> {
    match FACTORS.contains(&value) {
        true => Ok(Factor(value)),
        false => Err(Refusal::FactorOutOfRange),
    }
}

/// Row 28: all paths and the circulation, or neither.
pub fn whole_lake(paths: usize, circulations: usize) -> Result<(), Refusal> {
    let (none, whole) = ((0, 0), (MOST_PATHS, MOST_CIRCULATIONS));
    match [none, whole].contains(&(paths, circulations)) {
        true => Ok(()),
        false => Err(Refusal::LakeIncomplete),
    }
}
