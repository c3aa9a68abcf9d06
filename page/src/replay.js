// The whole life of one pixel by one replay of the library: on an array of two by two, whose first pixel is made to be that one. A pixel
// sees nothing of the others, and of the tree only the bits of A*x + B*y + C; so a listing of the same operations, each form with that sum
// for its C and no slope, makes of the first pixel what the scene makes of the one at x, y (docs/MACHINE.md). Its tree has two levels, and
// the acts of an operation are as far before its end as in any array.
import {formOf} from "./passes.js";

const WORDS = 3, MANY = 1 << 16, HEAD = "pxlist 1\ngrid 1 1\n";

export class Life {
  // `operations` are rows of a course.
  constructor(px, operations, x, y) {
    const lines = operations.map(([, line]) => moved(line, x, y)), text = HEAD + lines.join("\n") + "\nend\n";
    this.px = px;
    this.first = px.state(text, 0);
    const course = px.course(text), endOf = at => course[at + 1]?.clock ?? this.first.clocks;
    this.counts = course.map(({clock}, at) => endOf(at) - clock);
    this.packed = px.packed(text, 0, this.first.clocks);
    this.replayed();
  }

  // Enable after each operation, and the memory in words of 32 bits, the lowest bits first; at place 0 what was there before all.
  replayed() {
    const count = this.counts.length;
    this.enable = new Uint8Array(count + 1);
    this.memory = new Uint32Array(WORDS * (count + 1));
    this.places = new Uint32Array(count + 1);
    let state = this.first;
    this.note(state, 0);
    this.counts.forEach((clocks, operation) => {
      const from = this.places[operation];
      this.places[operation + 1] = from + clocks;
      state = this.on(state, from, clocks);
      this.note(state, operation + 1);
    });
  }

  on({words, width, height}, from, clocks) {
    return {words: this.px.clocks({words, width, height}, this.packed.subarray(from, from + clocks)), width, height};
  }

  bit({words}, plane) { return words[plane * this.first.perPlane] & 1; }

  note(state, place) {
    this.enable[place] = this.bit(state, this.first.bits);
    for (let plane = 0; plane < this.first.bits; plane++) this.memory[WORDS * place + (plane >> 5)] |= this.bit(state, plane) << (plane & 31);
  }

  // Whether an operation changed enable, or any of the bits of the memory from one on.
  isChanged(operation, what) {
    if (what === "enable") return this.enable[operation] !== this.enable[operation + 1];
    const [first, length] = what;
    for (let bit = first; bit < first + length; bit++) if (this.at(operation, bit) !== this.at(operation + 1, bit)) return true;
    return false;
  }

  at(place, bit) { return this.memory[WORDS * place + (bit >> 5)] >>> (bit & 31) & 1; }

  // The clock after which an operation has changed all of that, in the array of the scene, in which the operation ends at `end`.
  clockOf(operation, what, end) {
    const clocks = this.counts[operation], from = this.places[operation], planes = what === "enable" ? [this.first.bits] : Array.from({length: what[1]}, (_, at) => what[0] + at);
    let state = this.stateAt(operation), last = null;
    for (let clock = 0; clock < clocks; clock++) {
      const next = this.on(state, from + clock, 1), before = state;
      if (planes.some(plane => this.bit(before, plane) !== this.bit(next, plane))) last = clock;
      state = next;
    }
    return end - (clocks - 1 - last);
  }

  // The state of the small array before an operation.
  stateAt(operation) {
    let state = this.first;
    for (let from = 0; from < this.places[operation]; from += MANY)
      state = this.on(state, from, Math.min(MANY, this.places[operation] - from));
    return state;
  }
}

// A line of a listing with its form at x, y.
function moved(line, x, y) {
  const found = formOf(line), [name, ...words] = line.split(" ");
  if (!found) return line;
  const [a, b, c] = found.form;
  return [name, 0, 0, a * x + b * y + c, ...words.slice(3)].join(" ");
}
