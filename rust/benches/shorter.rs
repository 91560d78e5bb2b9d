//! How much shorter a year of sheets gets in version 2: the sheets of 365 days, moved by the proved library, which moves them back.

#[path = "../tests/support/mod.rs"]
mod support;

use support::generate;
use support::proved::moved;

fn main() {
    let sheets = generate::year_of_sheets();
    let shorter: Vec<Vec<u8>> = sheets.iter().map(|sheet| moved(sheet)).collect();
    assert!(shorter.iter().map(|sheet| moved(sheet)).eq(sheets.iter().cloned()), "a sheet that is moved twice is another");
    let total = |sheets: &[Vec<u8>]| sheets.iter().map(Vec::len).sum::<usize>();
    let (first, second) = (total(&sheets), total(&shorter));
    let ratio = second as f64 / first as f64;
    println!("{} sheets: {first} bytes in version 1, {second} in version 2, {ratio:.3} of that", sheets.len());
}
