// A waveform: what a pixel holds before each clock of an operation, with what that clock broadcasts, and a cursor at the clock that is shown.
import {drawn, unit} from "./show.js";

// What a clock broadcasts, as short as may be.
function said({tree, act}) {
  if (act === "nop") return tree === "hold" ? "nop" : tree;
  return tree === "clear" ? `clear, ${act}` : act;
}

// How large things are, in a picture of a width with so many clocks.
class Sizes {
  constructor(width, count, rows) {
    this.letters = unit();
    this.label = 62 * this.letters;
    this.high = 19 * this.letters;
    this.tall = 12 * this.letters;
    this.top = 22 * this.letters;
    this.wide = Math.min(44 * this.letters, (width - this.label - 4) / count);
    this.foot = this.top + rows * this.high;
    this.width = this.label + count * this.wide + 4;
    // (acts are written below all clocks, or below the cursor alone)
    this.isRoomy = this.wide >= 12 * this.letters;
    this.height = this.foot + (this.isRoomy ? 112 : 24) * this.letters;
  }

  // The level of a line as a path; `levels` has a bit for each clock, null where the line brings none.
  path(levels, top) {
    let out = "", last = null;
    levels.forEach((level, at) => {
      const x = this.label + at * this.wide, y = level === null ? null : top + (level ? 0 : this.tall);
      if (y !== null) out += (last === null ? `M${x} ${y}` : `L${x} ${y}`) + `H${x + this.wide}`;
      last = y;
    });
    return out;
  }
}

// The name, the bits and the kind of each line.
function linesOf({micros, pixels}, bits) {
  const before = pixels.slice(0, -1), line = at => micros.map(micro => micro.tree === "feed" ? micro.lines[at] : null);
  return [["line c", line(2), "line"], ["line a", line(0), "line"], ["line b", line(1), "line"],
    ["leaf", before.map(pixel => pixel.leaf), "register"], ["carry", before.map(pixel => pixel.carry), "register"],
    ["latch", before.map(pixel => pixel.latch), "register"], ["enable", before.map(pixel => pixel.enable), "register"],
    ...bits.map(([name, at]) => [name, before.map(pixel => Number(pixel.memory[at])), "memory"])];
}

// What is shown at a clock: a stripe, its number where there is room, and what it broadcasts; a click goes there.
function clockOf(sizes, clock, x, micro, isNow, go) {
  const {letters, wide, top, foot} = sizes, middle = x + wide / 2, every = Math.ceil((7 * String(clock).length + 6) * letters / wide);
  const own = drawn("g", {class: "clocks"}, drawn("rect", {x, y: top - 5, width: wide, height: foot - top + 5, class: isNow ? "cursor" : clock % 2 ? "gap" : "stripe"}));
  own.addEventListener("click", () => go(clock));
  if (clock % every === 0) own.append(drawn("text", {x: middle, y: 12 * letters, class: "clock"}, String(clock)));
  if (sizes.isRoomy) own.append(drawn("text", {transform: `translate(${middle - 4 * letters} ${foot + 5}) rotate(90)`, class: "act"}, said(micro)));
  else if (isNow) own.append(drawn("text", {x: sizes.label, y: foot + 16 * letters, class: "act"}, `next: ${said(micro)}`));
  return own;
}

// `head` is the answer to `wave`; `bits` are memory bits to show next to the registers, with their names; `now` is the clock that is shown.
export function waveform(head, width, bits, now, go) {
  const {micros, first, last} = head, lines = linesOf(head, bits), sizes = new Sizes(width, micros.length, lines.length), {label, high, tall, top, wide} = sizes;
  const picture = drawn("svg", {viewBox: `0 0 ${sizes.width} ${sizes.height}`, width: sizes.width, height: sizes.height, class: "wave",
    role: "img", "aria-label": `the clocks ${first} to ${last - 1}, at ${now}; ${lines.map(([name, levels]) =>
      `${name} ${levels.map(level => level ?? "-").join("")}`).join(", ")}`});
  picture.append(...micros.map((micro, at) => clockOf(sizes, first + at, label + at * wide, micro, first + at === now, go)));
  lines.forEach(([name, levels, kind], at) => {
    const y = top + at * high;
    picture.append(drawn("text", {x: label - 8, y: y + tall - 1, class: "name"}, name),
      drawn("path", {d: sizes.path(levels, y), class: "level " + kind}));
  });
  return picture;
}
