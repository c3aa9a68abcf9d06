// The way through the multiplier tree to one pixel of any grid: a row for each node, with what it adds, the sum so far in decimal and in binary, and the bits of
// A, B and C that march down to them (docs/MACHINE.md, "The multiplier tree").
import {binary, needed} from "./edges.js";
import {made} from "./show.js";

// A number in binary: the bits to come, the one that is there now, and those that have gone by.
function bitsOf(number, bits, now) {
  if (!bits) return [];
  const letters = binary(number, bits), place = bits - 1 - Math.min(now, bits - 1);
  if (now < 0) return [made("span", "to-come", letters)];
  return [made("span", "to-come", letters.slice(0, place)), made("b", "now", letters[place]), made("span", "", letters.slice(place + 1))];
}

const cells = (kind, name, line, node, adds, sum, bits) => made("tr", kind, "", Object.assign(made("th", "", name), {scope: "row"}),
  ...[line, node, adds, sum].map(text => made("td", "", String(text))), made("td", "bits", "", ...bits));

// `found` has A, B and C of the operation under way, as its `form`, and how many bits its value has; null if it has none.
export function wayOf(state, found, [x, y]) {
  const {form, bits} = found ?? {}, {width, height, levels, next} = state, nx = Math.log2(width), leaf = x * height + y, feeds = state.operationClock - 1, isFed = next?.tree === "feed";
  const [a, b, c] = form ?? [0, 0, 0], own = form && needed({form, bits, width, height}), known = (...shown) => form ? shown : ["", []];
  const titles = ["level", "line", "node", "adds", "sum", "bits"].map(name => Object.assign(made("th", "", name), {scope: "col"})), rows = [made("tr", "", "", ...titles)];
  // A number whose lowest bit is on its line in the feed after so many.
  const line = (name, number, at, from) => rows.push(cells("line", name, isFed ? next.lines[at] : "", "", "", ...known(number, bitsOf(number, own, isFed ? feeds - from : -1))));
  let sum = c;
  line("C", c, 2, 0);
  for (let level = 1; level <= levels; level++) {
    if (level === 1) line("A", a, 0, nx - 1);
    if (level === nx + 1) line("B", b, 1, levels - 1);
    const isColumn = level <= nx, index = leaf >> levels - level, [out, carry] = state.node(level, index), weight = 2 ** ((isColumn ? nx : levels) - level);
    const added = index % 2 * weight * (isColumn ? a : b), name = `${weight === 1 ? "" : weight}${isColumn ? "A" : "B"}`;
    sum += added;
    rows.push(cells(index % 2 ? "right" : "", level, "", carry ? `${out} \u2022` : out, index % 2 ? form ? `${name} = ${added}` : name : "passes on",
      ...known(sum, bitsOf(sum, own, feeds - level))));
  }
  return made("table", "way", "", ...rows);
}
