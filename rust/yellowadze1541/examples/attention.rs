//! Pulls ATN at a drive, and prints what it does: `cargo run -p yellowadze1541 --example attention`.
use yellowadze1541::{Drive, Error, Format, Image, Lines, Settings};

fn main() -> Result<(), Error> {
    let image = Image::new(Format::D64, b"EXAMPLE", *b"EX")?;
    let mut drive = Drive::new(&image, Settings::default())?;
    drive.lines(1000, Lines { atn_low: true, ..Lines::FREE })?;
    for reaction in drive.reactions_until(5000) {
        println!("{} us: DATA {}", reaction.moment, if reaction.now.data_low { "low" } else { "high" });
    }
    Ok(())
}
