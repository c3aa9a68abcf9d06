use crate::error::{ended, filled, Result};
use pxplanes_sys as sys;

/// What a picture takes: its size, its greatest face number, and the passes that draw it.
#[derive(Clone, Copy, Debug, PartialEq, Eq)]
pub struct Cost {
    /// Columns, 1 to 512.
    pub width: u32,
    /// Rows, 1 to 512.
    pub height: u32,
    /// The greatest face number.
    pub faces: u32,
    /// Broadcast operations.
    pub operations: u64,
    /// Clocks that they take the machine.
    pub clocks: u64,
}

/// A picture: pixel (x, y) is element `y * width + x` of both maps, rows from the top.
#[derive(Clone, Debug, PartialEq, Eq)]
pub struct Picture {
    /// Columns.
    pub width: u32,
    /// Rows.
    pub height: u32,
    /// The depth of the first cell of the expression, and the far limit where there is none.
    pub depths: Vec<u32>,
    /// The number of the face that shows, and 0 for the background.
    pub faces: Vec<u32>,
}

impl Picture {
    /// The depth and the face at a pixel; `None` outside the picture.
    pub fn at(&self, x: u32, y: u32) -> Option<(u32, u32)> {
        let place = (y as usize) * (self.width as usize) + x as usize;
        (x < self.width && y < self.height).then(|| (self.depths[place], self.faces[place]))
    }
}

/// A picture in its colours: three bytes a pixel, rows from the top.
#[derive(Clone, Debug, PartialEq, Eq)]
pub struct Colours {
    /// Columns.
    pub width: u32,
    /// Rows.
    pub height: u32,
    /// Red, green and blue of each pixel.
    pub rgb: Vec<u8>,
}

/// Copies `height` rows to a buffer of your own, whose rows begin `stride` elements apart, from its last row on if `is_from_bottom`.
/// `make` gives the elements of a pixel, as `|&[r, g, b]| [r, g, b, 255]` of colours or `|&[depth]| [depth as f32]` of depths.
///
/// # Panics
///
/// If a row does not fit, or `height` is 0.
pub fn place<T: Copy, U: Copy, const FROM: usize, const TO: usize>(
    pixels: &[T], height: u32, to: &mut [U], stride: usize, is_from_bottom: bool, make: impl Fn(&[T; FROM]) -> [U; TO],
) {
    let (height, row) = (height as usize, pixels.len() / height as usize);
    for (y, pixels) in pixels.chunks_exact(row).enumerate() {
        let at = stride * if is_from_bottom { height - 1 - y } else { y };
        let to = &mut to[at..at + row / FROM * TO];
        for (pixel, to) in pixels.chunks_exact(FROM).zip(to.chunks_exact_mut(TO)) {
            to.copy_from_slice(&make(pixel.try_into().expect("a pixel")));
        }
    }
}

/// Judges a text, and draws nothing.
pub fn check(text: impl AsRef<[u8]>) -> Result<Cost> {
    let text = text.as_ref();
    let mut found = sys::Found::default();
    let status = unsafe { sys::pxplanes_check(text.as_ptr(), text.len(), &mut found) };
    ended(status, &found)?;
    let sys::Found { width, height, faces, operations, clocks, .. } = found;
    Ok(Cost { width, height, faces, operations, clocks })
}

/// Draws the depths and the faces of a scene.
pub fn render(text: impl AsRef<[u8]>) -> Result<Picture> {
    let text = text.as_ref();
    let (found, [depths, faces]) = filled(|[depths, faces], found| unsafe {
        let (room, depths, faces) = (depths.len(), depths.as_mut_ptr(), faces.as_mut_ptr());
        sys::pxplanes_render(text.as_ptr(), text.len(), depths, room, faces, room, found)
    })?;
    Ok(Picture { width: found.width, height: found.height, depths, faces })
}

/// Draws a part of a picture, `width` by `height` pixels (1 to 512) from column `x` and row `y` on, in the time of a picture of its
/// size. It may lie in what the program's `tile` draws.
pub fn window(text: impl AsRef<[u8]>, x: u32, y: u32, width: u32, height: u32) -> Result<Picture> {
    let text = text.as_ref();
    let (_, [depths, faces]) = filled(|[depths, faces], found| unsafe {
        let (room, depths, faces) = (depths.len(), depths.as_mut_ptr(), faces.as_mut_ptr());
        sys::pxplanes_window(text.as_ptr(), text.len(), x, y, width, height, depths, room, faces, room, found)
    })?;
    Ok(Picture { width, height, depths, faces })
}

/// Which of its solid's faces a face is.
#[derive(Clone, Copy, Debug, PartialEq, Eq)]
pub enum FaceKind {
    /// The near face, where the eye is inside of all fronts.
    Near,
    /// One of its fronts.
    Front,
    /// One of its backs.
    Back,
}

/// What a face number means.
#[derive(Clone, Debug, PartialEq, Eq)]
pub struct Face {
    /// Its solid, from 1 in the order of the text.
    pub solid: u32,
    /// The solid's name.
    pub name: String,
    /// Which of the solid's faces it is.
    pub kind: FaceKind,
    /// Which front or back of the solid it is, from 1; 0 for the near face.
    pub plane: u32,
    /// The line of the text that gives it its number, from 1.
    pub line: u32,
    /// Red, green and blue.
    pub colour: [u8; 3],
}

/// What a face number of a scene's picture means.
pub fn face(text: impl AsRef<[u8]>, number: u32) -> Result<Face> {
    let text = text.as_ref();
    let (mut found, mut face, mut name) = (sys::Found::default(), sys::Face::default(), [0; sys::MAX_NAME]);
    ended(
        unsafe {
            sys::pxplanes_face(text.as_ptr(), text.len(), number, name.as_mut_ptr(), name.len(), &mut face, &mut found)
        },
        &found,
    )?;
    let len = name.iter().position(|&byte| byte == 0).unwrap_or(name.len());
    let kind = match face.kind {
        sys::FACE_NEAR => FaceKind::Near,
        sys::FACE_FRONT => FaceKind::Front,
        _ => FaceKind::Back,
    };
    let sys::Face { solid, plane, line, red, green, blue, .. } = face;
    let name = String::from_utf8_lossy(&name[..len]).into_owned();
    Ok(Face { solid, name, kind, plane, line, colour: [red as u8, green as u8, blue as u8] })
}

/// Draws a scene in its colours.
pub fn colour(text: impl AsRef<[u8]>) -> Result<Colours> {
    let text = text.as_ref();
    let (found, [rgb]) = filled(|[rgb], found| unsafe {
        sys::pxplanes_colour(text.as_ptr(), text.len(), rgb.as_mut_ptr(), rgb.len(), found)
    })?;
    Ok(Colours { width: found.width, height: found.height, rgb })
}

/// The products that can show anything: solid numbers from 1 on, below 0 where a solid is taken away.
pub fn products(text: impl AsRef<[u8]>) -> Result<Vec<Vec<i32>>> {
    let text = text.as_ref();
    let (_, [literals]) = filled(|[literals], found| unsafe {
        sys::pxplanes_products(text.as_ptr(), text.len(), literals.as_mut_ptr(), literals.len(), found)
    })?;
    let mut rows: Vec<Vec<i32>> = literals.split(|&literal| literal == 0).map(<[i32]>::to_vec).collect();
    rows.pop();
    Ok(rows)
}
