//! The library from Rust: the minus bar of a price, written in 1:3 over the edge of two chips.

use humtrellis::{Bus, Part, Refused};

fn main() -> Result<(), Refused> {
    let mut bus = Bus::new(Part::Pcf8532, [2, 0])?;
    // 1:3 with E, device 0, pointer 159, and two data bytes.
    let bytes = [
        0x70, 0x80, 0xCB, 0x80, 0xE0, 0x80, 0x09, 0x80, 0x4F, 0x40, 0x04, 0xA6,
    ];
    let answer = bus.transfer(&bytes)?;
    let shown = bus.picture(0, 0)?;
    assert_eq!(
        shown.columns[160], 4,
        "the minus bar is row 2 of column 160"
    );
    println!(
        "ok: {} bytes acknowledged, {} bits stored, the minus bar is lit, one of {} elements",
        answer.acknowledged, answer.stored, shown.lit
    );
    Ok(())
}
