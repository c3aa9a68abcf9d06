use crate::error::{ended, filled, Error, Result};
use pxplanes_sys as sys;

/// The machine after some clocks of a scene or of a listing: a value, to keep and to clone. Going back is a clone that was kept.
///
/// Two are equal if their grids have one size and all bits are alike, whatever clock of which text either is at.
#[derive(Clone, Debug)]
pub struct State {
    /// Where the machine was when it was asked for; clocks made since do not change it.
    pub moment: sys::Moment,
    words: Vec<u64>,
}

impl PartialEq for State {
    fn eq(&self, other: &State) -> bool {
        let size = |state: &State| (state.moment.grid_width, state.moment.grid_height);
        size(self) == size(other) && self.words == other.words
    }
}

impl Eq for State {}

impl State {
    /// The machine after the first `clock` clocks of a text.
    pub fn after(text: impl AsRef<[u8]>, clock: u64) -> Result<State> {
        let text = text.as_ref();
        let mut moment = sys::Moment::default();
        let (_, [words]) = filled(|[words], found| unsafe {
            sys::pxplanes_state(text.as_ptr(), text.len(), clock, words.as_mut_ptr(), words.len(), &mut moment, found)
        })?;
        Ok(State { moment, words })
    }

    /// Its bits, as include/pxplanes.h lays them out.
    pub fn words(&self) -> &[u64] {
        &self.words
    }

    /// Memory bit `bit` of pixel (x, y), and from [`sys::BITS`] on enable, carry, latch and leaf; `None` where there is none.
    pub fn bit(&self, bit: u32, x: u32, y: u32) -> Option<bool> {
        let moment = &self.moment;
        if bit >= moment.bits + 4 || x >= moment.grid_width || y >= moment.grid_height {
            return None;
        }
        let row = bit as usize * moment.grid_height as usize + y as usize;
        let word = self.words[row * moment.words_per_row as usize + x as usize / 64];
        Some(word >> (x % 64) & 1 == 1)
    }

    /// Makes a clock for each of these microinstructions, packed as [`micros`] gives them. After an error nothing has changed.
    pub fn clock(&mut self, micros: &[u64]) -> Result<()> {
        let mut found = sys::Found::default();
        let (len, words, sys::Moment { grid_width, grid_height, .. }) =
            (self.words.len(), self.words.as_mut_ptr(), self.moment);
        let (micros, count) = (micros.as_ptr(), micros.len());
        let status = unsafe { sys::pxplanes_clocks(words, len, grid_width, grid_height, micros, count, &mut found) };
        ended(status, &found)
    }
}

/// `count` elements of a text from one on. It is asked without a buffer first, so that a count past the end takes no memory; `past`
/// gives how many there are, and the error of that.
fn stretch<T: Clone + Default>(
    first: u64, count: usize, past: impl Fn(&sys::Found) -> (u64, Error),
    call: impl Fn(u64, *mut T, usize, &mut sys::Found) -> u32,
) -> Result<Vec<T>> {
    let mut found = sys::Found::default();
    ended(call(0, std::ptr::null_mut(), 0, &mut found), &found)?;
    let (all, error) = past(&found);
    if first.checked_add(count as u64).map_or(true, |end| end > all) {
        return Err(error);
    }
    let mut elements = vec![T::default(); count];
    ended(call(first, elements.as_mut_ptr(), count, &mut found), &found)?;
    Ok(elements)
}

/// What is broadcast in `count` clocks from clock `first` on, a packed microinstruction each.
pub fn micros(text: impl AsRef<[u8]>, first: u64, count: usize) -> Result<Vec<u64>> {
    let text = text.as_ref();
    let past = |&sys::Found { clocks, .. }: &sys::Found| (clocks, Error::NoClock { clocks });
    stretch(first, count, past, |first, to, len, found| unsafe {
        sys::pxplanes_micros(text.as_ptr(), text.len(), first, to, len, found)
    })
}

/// `count` operations from operation `first` on, each with what it is for: its step, literal, face and other literal.
pub fn course(text: impl AsRef<[u8]>, first: u64, count: usize) -> Result<Vec<sys::Operation>> {
    let text = text.as_ref();
    let past = |&sys::Found { operations, .. }: &sys::Found| (operations, Error::NoOperation { operations });
    stretch(first, count, past, |first, to, len, found| unsafe {
        sys::pxplanes_course(text.as_ptr(), text.len(), first, to, len, found)
    })
}
