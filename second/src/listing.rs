//! The printed statement, and row 23.

use std::io::{self, Write};

use crate::names::bearing;
use crate::refusal::Refusal;
use crate::settle::{Statement, settle};

/// No listing is longer.
pub const LONGEST_LISTING: usize = 316;

/// Settles one interval and prints its listing at the front of the buffer: rows 1
/// to 23 and 28. The statement, and the listing's length. On a refusal the buffer stays as
/// before.
pub fn report(sheet: &[u8], list: &[u8], out: &mut [u8]) -> Result<(Statement, usize), Refusal> {
    let statement = settle(sheet, list)?;
    let mut room = [0; LONGEST_LISTING];
    let listing = print(&statement, &mut room);
    let front = out.get_mut(..listing.len());
    let front = front.ok_or(Refusal::BufferTooShort)?;
    front.copy_from_slice(listing);
    Ok((statement, listing.len()))
}

pub fn listing(statement: &Statement) -> Vec<u8> {
    print(statement, &mut [0; LONGEST_LISTING]).to_vec()
}

/// What the program prints: the listing, or the line of the refusal.
pub fn printed(answer: &Result<Statement, Refusal>) -> Vec<u8> {
    match answer {
        Ok(statement) => listing(statement),
        Err(refusal) => format!("{refusal}\n").into_bytes(),
    }
}

fn print<'a>(statement: &Statement, room: &'a mut [u8; LONGEST_LISTING]) -> &'a [u8] {
    let mut rest = &mut room[..];
    write_lines(statement, &mut rest).expect("a listing fits the longest one");
    let unused = rest.len();
    &room[..LONGEST_LISTING - unused]
}

fn write_lines(statement: &Statement, out: &mut impl Write) -> io::Result<()> {
    let Statement {
        name,
        flow,
        settled,
        has_paths,
        entitlement,
        payment,
    } = statement;
    write!(out, "flowgate ")?;
    for byte in bearing(&name.field()) {
        write!(out, "{byte:02x}")?;
    }
    let gtl = flow.generation_to_load;
    write!(
        out,
        "\ngtl {} {} {}\nparallel {}\nshadow {}\n",
        gtl.flow, gtl.first_remainder, gtl.second_remainder, flow.parallel, flow.shadow
    )?;
    write!(
        out,
        "common {}\nnoncommon {}\nmarket {}\n",
        flow.common_redirect, flow.non_common_redirect, flow.market
    )?;
    if *has_paths {
        writeln!(out, "settled {settled}")?;
    }
    write!(
        out,
        "entitlement {entitlement}\nprice {}\namount {}\nNYISO {}\nPJM {}\n",
        payment.price, payment.amount, payment.nyiso, payment.pjm
    )
}
