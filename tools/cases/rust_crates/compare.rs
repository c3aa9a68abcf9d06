//! Answers texts by the crates as the program does: of each FILE the maps, the colours and the products, or the note.
use pxplanes::{Error, State};
use pxplanes_sys::{Face, Found, Moment, Operation};
use std::fs;
use std::io::{stdin, BufRead};
use std::mem::{offset_of, size_of};

macro_rules! layout {
    ($name:literal, $type:ty, $($field:ident)*) => {
        println!("{} {}", $name, size_of::<$type>());
        $(println!("{} {}", stringify!($field), offset_of!($type, $field));)*
    };
}

/// The sizes of the structs, and where each field is.
fn print_layouts() {
    layout!("pxplanes_found", Found, width height faces line cause kind number operations clocks room);
    layout!("pxplanes_moment", Moment, grid_width grid_height words_per_row bits levels clock clocks operation operation_clock next_micro);
    layout!("pxplanes_numbered_face", Face, solid kind plane line red green blue);
    layout!("pxplanes_operation", Operation, clock pass literal kind numbers_count role solid face other);
}

fn map(width: u32, height: u32, values: &[u32]) -> Vec<u8> {
    let mut bytes = format!("P6\n{width} {height}\n255\n").into_bytes();
    bytes.extend(values.iter().flat_map(|value| value.to_be_bytes()[1..].to_vec()));
    bytes
}

fn maps(text: &[u8]) -> pxplanes::Result<Vec<u8>> {
    let picture = pxplanes::render(text)?;
    let mut bytes = map(picture.width, picture.height, &picture.depths);
    bytes.extend(map(picture.width, picture.height, &picture.faces));
    Ok(bytes)
}

fn colours(text: &[u8]) -> pxplanes::Result<Vec<u8>> {
    let found = pxplanes::colour(text)?;
    let mut bytes = format!("P6\n{} {}\n255\n", found.width, found.height).into_bytes();
    bytes.extend(found.rgb);
    Ok(bytes)
}

fn cost(text: &[u8]) -> pxplanes::Result<Vec<u8>> {
    let cost = pxplanes::check(text)?;
    Ok(format!("{} {}\n", cost.operations, cost.clocks).into_bytes())
}

fn count(text: &[u8]) -> pxplanes::Result<Vec<u8>> {
    Ok(format!("{}\n", pxplanes::products(text)?.len()).into_bytes())
}

/// The status and the note of the program.
fn note(error: &Error) -> Vec<u8> {
    match error {
        Error::Malformed { .. } => format!("3 {error}\n"),
        Error::Limit { .. } => format!("4 {error}\n"),
        Error::NoCommand => "2 usage\n".to_string(),
        other => format!("{other}\n"),
    }
    .into_bytes()
}

/// The state after some clocks is that of the text there, and one after a bad microinstruction is as it was.
fn clocks_agree(text: &[u8]) -> pxplanes::Result<bool> {
    let last = pxplanes::check(text)?.clocks;
    let (first, count) = (last / 3, last.min(40));
    let mut state = State::after(text, first)?;
    let micros = pxplanes::micros(text, first, count as usize)?;
    let next = state.moment.next_micro;
    state.clock(&micros)?;
    let due = State::after(text, first + count)?;
    let kept = state.words().to_vec();
    let bad = state.clock(&[micros[0], 0]) == Err(Error::NoMicro { index: 1 }) && state.words() == kept;
    let past = pxplanes::micros(text, last, 1) == Err(Error::NoClock { clocks: last })
        && pxplanes::micros(text, u64::MAX, usize::MAX) == Err(Error::NoClock { clocks: last })
        && State::after(text, last + 1) == Err(Error::NoClock { clocks: last });
    Ok(state.words() == due.words() && next == micros[0] && bad && past)
}

/// As many operations as the scene has, which take its clocks, the later half by itself as in all; and none after the last.
fn courses_agree(text: &[u8]) -> pxplanes::Result<bool> {
    let cost = pxplanes::check(text)?;
    let (all, half) = (cost.operations as usize, cost.operations / 2);
    let course = pxplanes::course(text, 0, all)?;
    let last = State::after(text, course[all - 1].clock)?.moment;
    let past = pxplanes::course(text, half, all) == Err(Error::NoOperation { operations: cost.operations });
    Ok(course[half as usize..] == pxplanes::course(text, half, all - half as usize)? && past
        && (last.operation, last.operation_clock) == (cost.operations - 1, 0) && course[0].role == 1 && course[all - 1].role == 11)
}

/// The key of the picture is in the memory of the last state: its depth is that of `render`, pixel by pixel.
fn key_agrees(text: &[u8], depth_from: u32, depth_bits: u32) -> pxplanes::Result<bool> {
    let picture = pxplanes::render(text)?;
    let state = State::after(text, pxplanes::check(text)?.clocks)?;
    let depth = |x, y| (0..depth_bits).map(|bit| u32::from(state.bit(depth_from + bit, x, y) == Some(true)) << bit).sum::<u32>();
    let pixels = (0..picture.height).flat_map(|y| (0..picture.width).map(move |x| (x, y)));
    Ok(pixels.into_iter().all(|(x, y)| picture.at(x, y).map(|(found, _)| found) == Some(depth(x, y))))
}

/// Windows of a picture have its pixels, by one and by eight; and none is past the widest.
fn windows_agree(text: &[u8]) -> pxplanes::Result<bool> {
    let picture = pxplanes::render(text)?;
    let is_part = |x, y, width, height| {
        let part = pxplanes::window(text, x, y, width, height)?;
        let pixels = (0..height).flat_map(|j| (0..width).map(move |i| (i, j)));
        Ok(pixels.into_iter().all(|(i, j)| part.at(i, j) == picture.at(x + i, y + j)))
    };
    let past = pxplanes::window(text, 4095, 0, 2, 1) == Err(Error::NoWindow) && pxplanes::window(text, 0, 0, 513, 0) == Err(Error::NoWindow);
    Ok(past && is_part(23, 16, 1, 1)? && is_part(20, 9, 8, 8)? && is_part(0, 31, 48, 1)?)
}

/// Two rows of two pixels in rows of another length, from the top and from the bottom.
fn placed() -> (Vec<u8>, Vec<f32>) {
    let (mut bytes, mut floats) = (vec![99; 17], vec![99.0; 5]);
    pxplanes::place(&[1, 2, 3, 4, 5, 6, 7, 8, 9, 10, 11, 12], 2, &mut bytes, 9, true, |&[r, g, b]: &[u8; 3]| [r, g, b, 255]);
    pxplanes::place(&[1, 2, 3, (1 << 24) - 1], 2, &mut floats, 3, false, |&[depth]: &[u32; 1]| [depth as f32]);
    (bytes, floats)
}

/// The pages that the process has in memory.
fn pages() -> u64 {
    let text = fs::read_to_string("/proc/self/statm").unwrap();
    text.split(' ').nth(1).unwrap().parse().unwrap()
}

/// Whether 100,000 renders leave the process as large as it was, and an answer keeps no more room than it has bytes for.
fn is_flat() -> bool {
    let small = "pxscene 1\npicture 8 4\ndepth 4\nsolid ramp 200 100 50\nfront 1 0 0\nback 0 0 9\nshow ramp\nend\n";
    let render = |count| (0..count).all(|_| pxplanes::render(small).is_ok());
    let (first, before) = (render(100), pages());
    first && render(100_000) && pages() < before + 256 && pxplanes::run(small, "tidy").is_ok_and(|text| text.capacity() < 4096)
}

/// The words of commands, of which the last name none.
const RUN: [&str; 6] = ["tidy", "list", "refine 2", "tile 70 50", "play", "tidy up"];

fn main() {
    let words: Vec<String> = std::env::args().skip(1).collect();
    if words.first().is_some_and(|word| word == "layouts") {
        return print_layouts();
    }
    let (mut agree, mut compared) = (0, 0);
    for path in stdin().lock().lines().map(Result::unwrap) {
        let text = fs::read(&path).unwrap();
        for (word, answer) in [("render", maps(&text)), ("colour", colours(&text)), ("cost", cost(&text)), ("plan", count(&text))] {
            fs::write(format!("{path}.{word}.rust"), answer.unwrap_or_else(|error| note(&error))).unwrap();
        }
        for words in RUN {
            let name = words.replace(' ', "_");
            fs::write(format!("{path}.{name}.run"), pxplanes::run(&text, words).unwrap_or_else(|error| note(&error))).unwrap();
        }
        if let Ok(same) = clocks_agree(&text).and_then(|same| Ok(same && courses_agree(&text)?)) {
            compared += 1;
            agree += u32::from(same);
        }
    }
    println!("clocks: {}", if compared < 50 { "too few" } else if agree == compared { "all as by state, and the operations" } else { "they differ" });
    let text = fs::read("docs/scenes/first.scene").unwrap();
    println!("keys: {:?}, {:?}", key_agrees(&text, 4, 9), pxplanes::render(&text).map(|picture| picture.at(24, 16)));
    println!("outside: {:?}", pxplanes::render(&text).map(|picture| (picture.at(48, 0), picture.at(0, 32))));
    println!("face: {:?}, {:?}", pxplanes::face(&text, 3), pxplanes::face(&text, 11));
    println!("windows: {:?}, {:?}", windows_agree(&text), placed());
    println!("flat: {}", is_flat());
    println!("version {}", pxplanes::version());
}
