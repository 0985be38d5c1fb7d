//! Which row refuses a sheet, and where.

use second::reader::{Refused, read};

pub fn refusal(records: &[Vec<u8>]) -> Option<(u8, usize)> {
    let bytes = records.concat();
    let refused = read(&bytes).err();
    refused.map(|Refused { refusal, place }| (refusal.number(), place))
}

pub fn place_of(records: &[Vec<u8>], record: usize) -> usize {
    records[..record].iter().map(Vec::len).sum()
}

/// The records with one replaced are refused by that record.
pub fn assert_refused(mut records: Vec<Vec<u8>>, number: u8, at: usize, record: Vec<u8>) {
    records[at] = record;
    assert_eq!(refusal(&records), Some((number, place_of(&records, at))));
}
