//! 10,000 calls by a seed with wrong texts, words and numbers: each gives a value or an error that says something; then 100,000 renders.
use pxplanes::State;
use std::hint::black_box;

const SCENE: &[u8] = b"pxscene 1\npicture 8 4\ndepth 4\nsolid ramp 200 100 50\nfront 1 0 0\nback 0 0 9\nshow ramp\nend\n";
const WORDS: [&str; 10] = ["tidy", "tile 9 9", "refine 2", "list", "plan", "play", "sample 2", "", "debug", "shadow"];
const ENDS: [u64; 8] = [0, 1, 7, 300, 4095, 1 << 31, 1 << 63, u64::MAX];
/// More clocks than these are not made.
const MOST: u64 = 100_000;

/// Numbers by a seed (xorshift of 64 bits).
struct Lot(u64);

impl Lot {
    fn below(&mut self, end: u64) -> u64 {
        self.0 ^= self.0 << 13;
        self.0 ^= self.0 >> 7;
        self.0 ^= self.0 << 17;
        self.0 % end
    }

    fn number(&mut self) -> u64 {
        if self.below(3) == 0 { ENDS[self.below(8) as usize] } else { self.below(12) }
    }

    /// A text with some bytes changed, or cut off.
    fn changed(&mut self, text: &[u8]) -> Vec<u8> {
        let len = if self.below(4) == 0 { self.below(text.len() as u64 + 1) as usize } else { text.len() };
        let mut text = text[..len].to_vec();
        for _ in 0..self.below(3).min(len as u64) {
            let place = self.below(len as u64) as usize;
            text[place] = if self.below(2) == 0 { self.below(256) as u8 } else { b"0 9-\n(#"[self.below(7) as usize] };
        }
        text
    }
}

/// Makes one call; whether it was answered.
fn call(lot: &mut Lot, start: &State) -> pxplanes::Result<bool> {
    let (text, word) = (lot.changed(SCENE), WORDS[lot.below(10) as usize].as_bytes());
    if pxplanes::check(&text)?.clocks > MOST {
        return Ok(false);
    }
    let (a, b, c, d) = (lot.number(), lot.number(), lot.number(), lot.number());
    match lot.below(11) {
        0 => drop(pxplanes::render(&text)?),
        1 => drop(pxplanes::colour(&text)?),
        2 => drop(pxplanes::window(&text, a as u32, b as u32, c as u32, d as u32)?),
        3 => drop(pxplanes::products(&text)?),
        4 => drop(pxplanes::face(&text, a as u32)?),
        5 => drop(black_box(State::after(&text, a)?.bit(b as u32, c as u32, d as u32))),
        6 => drop(pxplanes::micros(&text, a, b as usize)?),
        7 => drop(pxplanes::course(&text, a, b as usize)?),
        8 => drop(pxplanes::run(&text, lot.changed(word))?),
        9 => drop(black_box(pxplanes::render(&text)?.at(a as u32, b as u32))),
        _ => start.clone().clock(&[a << 32, b << 32 | c, d])?,
    }
    Ok(true)
}

/// The most memory that the process had so far, in KiB.
fn peak() -> u64 {
    let status = std::fs::read_to_string("/proc/self/status").expect("Linux");
    let line = status.lines().find(|line| line.starts_with("VmHWM")).expect("a peak");
    line.split_whitespace().nth(1).and_then(|number| number.parse().ok()).expect("a number")
}

fn main() -> pxplanes::Result<()> {
    let (mut lot, start, due) = (Lot(83), State::after(SCENE, 0)?, pxplanes::render(SCENE)?);
    let (mut answered, mut refused, mut unnamed) = (0, 0, 0);
    for _ in 0..10_000 {
        match call(&mut lot, &start) {
            Ok(done) => answered += u32::from(done),
            Err(error) => {
                refused += 1;
                unnamed += u32::from(error.to_string().is_empty());
            }
        }
    }
    let is_same = start == State::after(SCENE, 0)? && due == pxplanes::render(SCENE)?;
    println!("many answered: {}, many refused: {}, without a name: {unnamed}, as before: {is_same}", answered > 1000, refused > 1000);
    let mut before = 0;
    for at in 0..100_000 {
        drop(black_box(pxplanes::render(SCENE)?));
        drop(black_box(pxplanes::run(SCENE, "tidy")?));
        if at == 1000 {
            before = peak();
        }
    }
    println!("100,000 renders: {}", if peak() - before < 1024 { "flat" } else { "growing" });
    Ok(())
}
