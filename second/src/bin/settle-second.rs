//! The second implementation as a program: reads sheet.bin and entitle.bin in the
//! working folder and prints the listing, or the line of the refusal.

use std::io::{self, Write};

use second::{printed, settle};

/// A file that can't be opened or read counts as empty.
fn file(path: &str) -> Vec<u8> {
    std::fs::read(path).unwrap_or_default()
}

fn main() -> io::Result<()> {
    let answer = settle(&file("sheet.bin"), &file("entitle.bin"));
    io::stdout().write_all(&printed(&answer))
}
