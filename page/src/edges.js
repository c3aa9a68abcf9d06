// Along the edges of the array, the numbers whose sums the tree makes: A*x + C of each column above it and B*y of each row next to it, in
// binary, the lowest bit next to the array. They run in bit by bit: the leaf of a pixel is the bit of their sum that is marked. Bits that
// are as the highest one, the sign, are left out; the highest one is marked for all of them.
import {packed} from "./palette.js";
import {made, put, set} from "./show.js";

const ROOM = 120, LEAST = 2, MOST = 9;
// Of a bit that has run in, the one that the leaves show, and one to come: its colours as 0 and as 1.
const [DONE, NOW, TO_COME] = [[[24, 30, 40], [255, 255, 255]], [[110, 60, 10], [255, 160, 40]], [[28, 30, 34], [92, 98, 108]]]
  .map(pair => pair.map(packed));

const bitOf = (number, bit) => Math.abs(Math.floor(number / 2 ** bit) % 2);

// How many bits the numbers and their sums have, with the sign, of those that are wanted.
export function needed({form: [a, b, c], bits, width, height}) {
  const [x, y] = [width - 1, height - 1], most = Math.max(...[c, a * x + c, b * y, b * y + c, a * x + b * y + c].map(Math.abs));
  return Math.min(bits, Math.floor(Math.log2(Math.max(most, .5))) + 2);
}

export class Edges {
  constructor(screen) {
    Object.assign(this, {screen, isOn: false, wanted: null});
    this.canvases = ["columns", "rows"].map(name => screen.stage.appendChild(made("canvas", "edge " + name)));
    this.canvases.forEach(each => { each.hidden = true; });
    screen.whenPlaced.push(() => this.place());
  }

  // After they are turned on or off they must be shown again.
  turn(isOn = !this.isOn) {
    this.isOn = isOn;
    this.screen.margins = isOn ? [ROOM, ROOM] : [0, 0];
    this.screen.place();
  }

  // `wanted` has the form, its bits, the size of the array, and the bit that the leaves show now, below 0 before the first; or is null.
  show(wanted) {
    this.wanted = wanted && {...wanted, bits: needed(wanted)};
    for (const each of this.canvases) set(each, "hidden", !this.isOn || !wanted);
    if (!this.isOn || !wanted) return;
    const {form: [a, b, c], bits, width, height, now} = this.wanted, [columns, rows] = this.canvases, last = Math.min(now, bits - 1);
    fill(columns, width, bits, (x, row) => [a * x + c, bits - 1 - row], last);
    fill(rows, bits, height, (column, y) => [b * y, bits - 1 - column], last);
    this.place();
  }

  place() {
    if (!this.isOn || !this.wanted) return;
    const {screen} = this, {bits, width, height} = this.wanted, size = Math.max(LEAST, Math.min(MOST, Math.floor((ROOM - 6) / bits)));
    const [columns, rows] = this.canvases, thick = bits * size / screen.scale;
    screen.lay(columns, 0, -thick - 4 / screen.scale, width, thick);
    screen.lay(rows, -thick - 4 / screen.scale, 0, thick, height);
  }
}

// Draws an image of bits: `place(x, y)` is a number and which of its bits is there.
function fill(canvas, width, height, place, now) {
  Object.assign(canvas, {width, height});
  const pixels = new Uint32Array(width * height);
  for (let at = 0; at < pixels.length; at++) {
    const [number, bit] = place(at % width, Math.floor(at / width));
    pixels[at] = (bit < now ? DONE : bit === now ? NOW : TO_COME)[bitOf(number, bit)];
  }
  put(canvas, pixels);
}

// A number in binary, as so many bits have it.
export const binary = (number, bits) => Array.from({length: bits}, (_, at) => bitOf(number, bits - 1 - at)).join("");

// The two numbers of a pixel, their sum, and the bit that its leaf shows, in words.
export function saidOf({form: [a, b, c], bits, now}, [x, y]) {
  const column = a * x + c, row = b * y, sum = column + row, shown = Math.min(bits, Math.max(0, now + 1));
  const own = shown ? `; ${shown === 1 ? "its lowest bit has" : `its lowest ${shown} bits have`} run in: ${binary(sum, shown)}` : "; no bit has run in yet";
  return `${a}*${x} + ${c} = ${column} above, ${b}*${y} = ${row} at the left: the sum is ${sum}${own}`.replaceAll("+ -", "- ");
}
