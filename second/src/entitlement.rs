//! The entitlement list: rows 14 and 15.

use crate::layout::{ENTITLEMENT, ENTITLEMENT_RECORD, ENTITLEMENTS, Fields, MOST_ENTITLEMENTS};
use crate::names::{Name, NamesSeen};
use crate::refusal::Refusal;
use crate::units::Power;

/// The entitlement of the named flowgate.
pub fn entitlement(list: &[u8], flowgate: Name) -> Result<Power, Refusal> {
    let (records, rest) = list.as_chunks();
    if !rest.is_empty() || records.len() > MOST_ENTITLEMENTS {
        return Err(Refusal::FaultyList);
    }
    let mut found = Err(Refusal::NoEntitlement);
    let mut names = NamesSeen::expecting(records.len());
    for record in records {
        let (name, value) = entry(record).ok_or(Refusal::FaultyList)?;
        if !names.note(name) {
            return Err(Refusal::FaultyList);
        }
        if name == flowgate {
            found = Ok(value);
        }
    }
    found
}

/// Name and value of a record that is well formed by itself.
fn entry(record: &[u8; ENTITLEMENT_RECORD]) -> Option<(Name, Power)> {
    let mut fields = Fields::of(record);
    let kind = fields.byte();
    let name = Name::of(fields.bytes())?;
    let value = fields.signed_4();
    let sound = kind == ENTITLEMENT && ENTITLEMENTS.contains(&value);
    sound.then_some((name, Power(value)))
}
