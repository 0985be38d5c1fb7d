//! A sheet damaged in every one of its bytes.

/// All beginnings of a sheet; each bit of it turned, each byte 0 and 255; a byte more.
pub fn every_one(sheet: &[u8]) -> impl Iterator<Item = Vec<u8>> {
    let cut = (0..sheet.len()).map(|length| sheet[..length].to_vec());
    let turned = (0..8 * sheet.len()).map(|bit| with(sheet, bit / 8, |it| it ^ (1 << (bit % 8))));
    let ends =
        (0..2 * sheet.len()).map(|k| with(sheet, k / 2, |_| if k % 2 == 0 { 0 } else { 255 }));
    let longer = (0..=u8::MAX).map(move |byte| [sheet, &[byte]].concat());
    cut.chain(turned).chain(ends).chain(longer)
}

fn with(sheet: &[u8], at: usize, byte: impl Fn(u8) -> u8) -> Vec<u8> {
    let mut sheet = sheet.to_vec();
    sheet[at] = byte(sheet[at]);
    sheet
}
