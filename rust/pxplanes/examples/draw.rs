//! Draws a scene in letters, a face each: cargo run --example draw SCENE
use std::error::Error;

fn main() -> Result<(), Box<dyn Error>> {
    let path = std::env::args().nth(1).ok_or("a scene's file is wanted")?;
    let picture = pxplanes::render(std::fs::read(path)?)?;
    for row in picture.faces.chunks(picture.width as usize) {
        let line: String = row.iter().map(|&face| if face == 0 { '.' } else { letter(face) }).collect();
        println!("{line}");
    }
    Ok(())
}

fn letter(face: u32) -> char {
    char::from(b'a' + ((face - 1) % 26) as u8)
}
