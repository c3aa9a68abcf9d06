// The multiplier tree as levels of nodes, for grids up to 16 by 16: each node's output, its carry as a dot, and the way to a
// pixel.
import {drawn, unit} from "./show.js";

const MOST = 16;

export const isShown = state => state.width <= MOST && state.height <= MOST;

// Where the nodes are in a picture of a width.
class Places {
  constructor(levels, width) {
    this.letters = unit();
    this.high = (levels > 6 ? 25 : 31) * this.letters;
    this.size = Math.min(20 * this.letters, this.high - 9);
    this.left = 78 * this.letters;
    this.room = width - this.left - 6;
    this.height = (levels + 1) * this.high + 6;
  }

  x(level, index) { return this.left + this.room * (index + 0.5) / 2 ** level; }

  y(level) { return level * this.high + this.high / 2 + 2; }

  wide(level) { return Math.max(1.2, Math.min(this.size, this.room / 2 ** level - 1)); }
}

export function treeOf(state, pixel, width) {
  const {levels} = state, nx = Math.log2(state.width), ny = Math.log2(state.height), places = new Places(levels, width);
  const leaf = pixel ? pixel[0] * 2 ** ny + pixel[1] : -1;
  const isOnWay = (level, index) => leaf >= 0 && leaf >> levels - level === index;
  const picture = drawn("svg", {viewBox: `0 0 ${width} ${places.height}`, width, height: places.height, class: "nodes", role: "img",
    "aria-label": `the outputs of the tree's nodes: ${Array.from({length: levels}, (_, at) => `level ${at + 1} ${
      Array.from({length: 2 ** (at + 1)}, (_, index) => state.node(at + 1, index)[0]).join("")}`).join(", ")}`});
  const name = (level, text) => picture.append(drawn("text", {x: 0, y: places.y(level) + 5, class: "name"}, text));
  const each = call => {
    for (let level = 1; level <= levels; level++) for (let index = 0; index < 2 ** level; index++) picture.append(call(level, index));
  };
  name(0, "root, c");
  for (let level = 1; level <= levels; level++) name(level, `${level}, line ${level <= nx ? "a" : "b"}`);
  each((level, index) => drawn("line", {
    x1: places.x(level - 1, index >> 1), y1: places.y(level - 1), x2: places.x(level, index), y2: places.y(level),
    class: (isOnWay(level, index) ? "way" : "edge") + (index % 2 ? " right" : "")}));
  picture.append(drawn("circle", {cx: places.x(0, 0), cy: places.y(0), r: 4, class: "root"}));
  each((level, index) => nodeOf(places, level, index, state.node(level, index), isOnWay(level, index)));
  return picture;
}

function nodeOf(places, level, index, [out, carry], isOnWay) {
  const {size, letters} = places, x = places.x(level, index), y = places.y(level), wide = places.wide(level);
  const kinds = ["node", out && "on", isOnWay && "way", wide < 6 && "thin"].filter(Boolean).join(" ");
  const node = drawn("g", {class: kinds},
    drawn("rect", {x: x - wide / 2, y: y - size / 2, width: wide, height: size, rx: wide > 8 ? 3 : 0}),
    drawn("title", {}, `level ${level}, node ${index}: output ${out}, carry ${carry}`));
  if (wide > 13 * letters) node.append(drawn("text", {x, y: y + 4 * letters, class: "bit"}, String(out)));
  if (carry) {
    const right = wide > 10 ? wide / 2 : 0;
    node.append(drawn("circle", {cx: x + right, cy: y - size / 2, r: wide > 8 ? 3.5 : 2, class: "carry"}));
  }
  return node;
}
