// What there is to show of a state of the array: its fields, and images of its planes and of numbers made of them.
import {REGISTERS, State} from "../library/pxplanes.mjs";
import {ON, OFF, greys, hue, packed} from "./palette.js";

// What is made of something, kept for what came last.
export function kept(make) {
  let known = null;
  return of => known?.of === of ? known.value : (known = {of, value: make(of)}).value;
}

// How many bits of a word are 1.
function onesIn(word) {
  const pairs = word - (word >>> 1 & 0x55555555), fours = (pairs & 0x33333333) + (pairs >>> 2 & 0x33333333);
  return Math.imul(fours + (fours >>> 4) & 0x0f0f0f0f, 0x01010101) >>> 24;
}

// How many bits of a plane are 1.
export function onesOf({words, perPlane}, plane) {
  let count = 0;
  for (let at = plane * perPlane; at < (plane + 1) * perPlane; at++) count += onesIn(words[at]);
  return count;
}

// Of each plane 1 where a word of it is another one than in the state before, which has the same size; null without one. `mayDiffer` says
// of a plane whether it is looked at.
export function changedPlanes(before, {words, perPlane}, mayDiffer) {
  if (!before) return null;
  const isOther = plane => mayDiffer(plane) && !isAlike(words, before.words, plane * perPlane, Math.min(words.length, (plane + 1) * perPlane));
  return Uint8Array.from({length: Math.ceil(words.length / perPlane)}, (_, plane) => Number(isOther(plane)));
}

function isAlike(words, old, from, end) {
  let at = from;
  while (at < end && words[at] === old[at]) at += 1;
  return at === end;
}

// The words of the planes that changed, one plane after the other; and the words of a state with these in their places.
export function planesIn(words, perPlane, changed) {
  const parts = [...changed.keys()].filter(plane => changed[plane]).map(plane => words.subarray(plane * perPlane, (plane + 1) * perPlane));
  const out = new Uint32Array(parts.reduce((sum, {length}) => sum + length, 0));
  parts.reduce((at, part) => { out.set(part, at); return at + part.length; }, 0);
  return out;
}

export function putPlanes(words, perPlane, changed, planes) {
  let from = 0;
  for (let plane = 0; plane < changed.length; plane++) {
    if (!changed[plane]) continue;
    const end = Math.min(words.length, (plane + 1) * perPlane);
    words.set(planes.subarray(from, from += end - plane * perPlane), plane * perPlane);
  }
  return words;
}

// Whether one of some planes changed, from one on and before another.
export const isAnyOf = (changed, [first, end]) => !changed || changed.subarray(first, end).includes(1);

// Where the parts of a pixel's memory are (docs/PASSES.md, "Layout"): names, first bits and lengths.
export function fieldsOf(layout) {
  if (!layout) return [];
  const {depth, fraction, face} = layout, key = depth + fraction + face, found = [];
  for (const [name, at] of [["best", 0], ["candidate", key]]) {
    found.push({name: name + " face", at, length: face});
    if (fraction) found.push({name: name + " fraction", at: at + face, length: fraction});
    found.push({name: name + " depth", at: at + face + fraction, length: depth});
  }
  return [...found, {name: "alive", at: 2 * key, length: 1}, {name: "par", at: 2 * key + 1, length: 1}];
}

// What there is to show of the array: each has a name, a label, a group, the planes that it is made of, `fill(state, pixels)`, which gives
// each pixel its colour, row by row, as an image holds them, and `fillSmall(state, place, before)`, which draws it on a larger image, where
// `gridIn` says, with the state that is drawn there, or null; one of bits has its plane. `layout` is null for a listing, and `faces` has the colour of each face of a scene.
export function viewsOf(layout, bits, faces) {
  const fields = fieldsOf(layout);
  const registers = REGISTERS.map((name, number) => bitView(name, name, "registers", bits + number));
  const memory = Array.from({length: bits}, (_, at) => {
    const own = fields.find(each => at >= each.at && at < each.at + each.length), single = own?.length === 1;
    const label = !own ? `bit ${at}` : single ? `bit ${at}: ${own.name}` : `bit ${at}: ${own.name.replace("best", "B").replace("candidate", "T")} ${at - own.at}`;
    return bitView(single ? own.name : String(at), label, "memory", at, own?.name);
  });
  const keys = layout ? [["best", "key B"], ["candidate", "key T"]] : [];
  return [...registers, ...keys.flatMap(([key, label]) => keyViews(fields, key, label, faces)), ...memory];
}

function bitView(name, label, group, plane, field = "") {
  return {name, label, group, plane, planes: [plane, plane + 1], field, fill: (state, pixels) => fillBits(state, plane, pixels),
    fillSmall: (state, place, before) => fillShares(state, plane, place, before)};
}

const [ONE, ZERO] = [ON, OFF].map(packed), FULL = 255;
// The colours of places of which no bit is 1, a 255th part, and so on.
const SHARES = Uint32Array.from({length: FULL + 1}, (_, share) => packed(OFF.map((off, part) => Math.round(off + (ON[part] - off) * share / FULL))));

// The columns or rows that each of so many places along a side of the array shows: where they begin, how many there are, one at least
// (and no more than a word has bits), and as many bits.
function parted(side, count) {
  const first = Uint16Array.from({length: count}, (_, at) => at * side / count), many = first.map((from, at) => Math.max(1, (first[at + 1] ?? side) - from));
  return {first, many, masks: Uint32Array.from(many, each => 2 ** each - 1)};
}

// Where the array is drawn in small on an image: `pixels` has so many columns in a row, and the array begins at a place of it.
export const gridIn = (pixels, wide, [left, top, columns, rows], {width, height}) =>
  ({pixels, wide, start: top * wide + left, x: parted(width, columns), y: parted(height, rows), counts: new Uint16Array(columns)});

// A plane in small: a place is as light as many of its bits are 1. Rows that are as in the state that was drawn there before stay.
function fillShares({words, perRow, perPlane}, plane, {pixels, wide, start, x, y, counts}, before) {
  for (let row = 0; row < y.first.length; row++) {
    const top = plane * perPlane + y.first[row] * perRow, bottom = top + y.many[row] * perRow;
    if (before && isAlike(words, before.words, top, bottom)) continue;
    counts.fill(0);
    for (let from = top; from < bottom; from += perRow) {
      for (let column = 0; column < counts.length; column++) {
        const bit = x.first[column], many = x.many[column], at = from + (bit >> 5), shift = bit & 31;
        const own = words[at] >>> shift | (shift + many > 32 ? words[at + 1] << 32 - shift : 0);
        counts[column] += onesIn(own & x.masks[column]);
      }
    }
    for (let column = 0, to = start + row * wide; column < counts.length; column++, to++)
      pixels[to] = SHARES[Math.floor(FULL * counts[column] / (x.many[column] * y.many[row]))];
  }
}

// An image of a plane.
export function fillBits({words, width, height, perRow, perPlane}, plane, pixels) {
  for (let y = 0, to = 0; y < height; y++) {
    for (let x = 0; x < width; x += 32) {
      let word = words[plane * perPlane + y * perRow + (x >> 5)];
      for (const end = Math.min(to + 32, (y + 1) * width); to < end; to++, word >>>= 1) pixels[to] = word & 1 ? ONE : ZERO;
    }
  }
}

// Some rows of a field's planes, as a state of these alone.
function rowsOf({words, perRow, perPlane, width, wordsPerRow}, {at, length}, rows) {
  const out = new Uint32Array(length * rows.length * perRow);
  for (let bit = 0, to = 0; bit < length; bit++) for (const row of rows) {
    const from = (at + bit) * perPlane + row * perRow;
    out.set(words.subarray(from, from + perRow), to);
    to += perRow;
  }
  return new State({width, height: rows.length, wordsPerRow, bits: length}, out);
}

// The least and the greatest number in a field, of the pixels where not all of its bits are 1: from the highest bit on, those stay that may have it.
function endsOf({words, width, perRow, perPlane}, {at, length}) {
  const others = new Uint32Array(perPlane);
  for (let place = 0; place < perPlane; place++) {
    const columns = width - 32 * (place % perRow);
    let all = -1;
    for (let bit = at; bit < at + length; bit++) all &= words[bit * perPlane + place];
    others[place] = (columns < 32 ? 2 ** Math.max(0, columns) - 1 : -1) & ~all;
  }
  return [-1, 0].map(turn => {
    const found = others.slice();
    let number = 0;
    for (let bit = at + length - 1; bit >= at; bit--) {
      let some = 0;
      for (let place = 0, from = bit * perPlane; place < perPlane; place++) some |= found[place] & (words[from + place] ^ turn);
      if (some) for (let place = 0, from = bit * perPlane; place < perPlane; place++) found[place] &= words[from + place] ^ turn;
      number = 2 * number + Number((some === 0) === (turn !== 0));
    }
    return number;
  });
}

function keyViews(fields, key, label, faces) {
  const view = (what, part, colour) => {
    const field = fields.find(({name}) => name === `${key} ${part}`), {at, length} = field;
    // (`all` gives numbers that have the least and the greatest of all pixels)
    const coloured = (numbers, all = () => numbers) => {
      const of = colour(all, 2 ** length - 1), known = new Map();
      let [number, last] = [null, 0];
      return place => numbers[place] === number ? last : last = known.get(number = numbers[place]) ?? known.set(number, packed(of(number))).get(number);
    };
    return {name: `${key} ${what}`, label: `${label} ${what}`, group: "numbers", planes: [at, at + length], field: field.name,
      fill: (state, pixels) => { for (let to = 0, of = coloured(state.numbers(at, length)); to < pixels.length; to++) pixels[to] = of(to); },
      fillSmall: (state, place) => fillFirsts(state.width, place, coloured(rowsOf(state, field, place.y.first).numbers(0, length), () => endsOf(state, field)))};
  };
  return [view("colours", "face", () => number => faces[number] ?? OFF), view("depth", "depth", (all, far) => greys(all(), far)), view("face", "face", () => hue)];
}

// Numbers in small, of the rows that it shows: a place has the colour of the first of its pixels.
function fillFirsts(width, {pixels, wide, start, x, y}, colour) {
  for (let row = 0; row < y.first.length; row++)
    for (let column = 0, to = start + row * wide; column < x.first.length; column++, to++) pixels[to] = colour(row * width + x.first[column]);
}
