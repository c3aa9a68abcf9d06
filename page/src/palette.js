// The colours of numbers and bits.

export const ON = [255, 255, 255];
export const OFF = [24, 30, 40];
const NOTHING = [0, 0, 0];

// A colour for each number from 1 on, far from those of its neighbours; 0 is black.
export function hue(number) {
  if (!number) return NOTHING;
  const turn = number * 0.381966 % 1 * 6, part = 1 - Math.abs(turn % 2 - 1);
  const rgb = [[1, part, 0], [part, 1, 0], [0, 1, part], [0, part, 1], [part, 0, 1], [1, 0, part]][Math.floor(turn)];
  return rgb.map(value => Math.round(60 + 195 * value));
}

// Grey between the nearest and the farthest depth that are there, near is light; the far limit is black.
export function greys(depths, far) {
  let least = far, most = 0;
  for (const depth of depths) if (depth !== far) { least = Math.min(least, depth); most = Math.max(most, depth); }
  return depth => {
    if (depth === far) return NOTHING;
    const grey = Math.round(235 - 175 * (depth - least) / Math.max(1, most - least));
    return [grey, grey, grey];
  };
}

// Red, green and blue of each face by its number, of faces as `draw` answers them; 0 is the background.
export function coloursOf(faces) {
  const colours = [NOTHING];
  for (const [number, , , colour] of faces) colours[number] = colour;
  return colours;
}

// A colour as a word of an image: red is its lowest byte.
export const packed = ([red, green, blue]) => (0xff000000 | blue << 16 | green << 8 | red) >>> 0;

export const css = rgb => `rgb(${rgb.join(" ")})`;
