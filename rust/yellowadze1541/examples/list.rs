//! Lists the files of an image: `cargo run -p yellowadze1541 --example list hello.d64`.
use std::error::Error;
use yellowadze1541::Image;

fn main() -> Result<(), Box<dyn Error>> {
    let path = std::env::args().nth(1).ok_or("list IMAGE")?;
    let image = Image::from_bytes(std::fs::read(path)?)?;
    for entry in image.entries()? {
        let kind = entry.file_type().map_or("???", |it| std::str::from_utf8(it.text()).unwrap_or("???"));
        println!("{:5} {:18} {kind}", entry.blocks(), String::from_utf8_lossy(entry.name()));
    }
    println!("{} blocks free", image.free_blocks()?);
    Ok(())
}
