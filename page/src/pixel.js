// What a pixel holds: its registers, its keys as numbers, and the bits of its memory in rows.
import {Lines, made, set, write} from "./show.js";
import {REGISTERS} from "../library/pxplanes.mjs";

const BITS_IN_ROW = 24, KEYS = [["best", "key B"], ["candidate", "key T"]];

// How many bits of the memory a text uses; all if they have no fields.
export const usedBits = (state, fields) => fields.length ? fields[fields.length - 1].at + 1 : state.bits;

// The elements are made once for the fields of a text; of each state only what is another one is written.
export class Bits {
  constructor() {
    Object.assign(this, {fields: null, bits: 0, used: 0, cells: [], keys: [], parts: []});
    this.canvas = made("canvas", "quick-words");
    this.lines = new Lines(this.canvas);
  }

  // The elements, as a state has them. `before` is the state that was shown before, or null; `fields` says what the bits are for, and has none
  // for a listing. Where it is quick they are words on an image.
  of(state, before, fields, x, y, isQuick) {
    if (fields !== this.fields || state.bits !== this.bits) this.make(state, fields);
    if (isQuick) this.lines.write(this.inWords(state, x, y)); else this.fill(state, before, x, y);
    return this.parts;
  }

  inWords(state, x, y) {
    const {memory, ...registers} = state.pixel(x, y), rows = [];
    for (let first = 0; first < this.used; first += BITS_IN_ROW) rows.push(`${first}: ${memory.slice(first, Math.min(this.used, first + BITS_IN_ROW))}`);
    return [Object.entries(registers).map(each => each.join(" ")).join("   "), ...this.keys.map(key => `${key.label}: ${numbersOf(key, state, x, y)}`), ...rows];
  }

  fill(state, before, x, y) {
    const isAlike = before?.width === state.width && before.height === state.height && before.clock !== state.clock;
    const next = state.next?.hasPlace ? state.next.place : -1;
    for (const {which, element, words, kind} of this.cells) {
      const bit = state.bit(which, x, y), isChanged = isAlike && before.bit(which, x, y) !== bit;
      set(element, "className", kinds(kind, bit && "on", isChanged && "changed", which === next && "next"));
      write(words, String(bit));
    }
    for (const key of this.keys) write(key.words, numbersOf(key, state, x, y));
  }

  make(state, fields) {
    Object.assign(this, {fields, bits: state.bits, used: usedBits(state, fields), cells: []});
    const registers = REGISTERS.map(name => {
      const words = made("b");
      return this.cell(name, "register", made("span", "", name, words), words);
    });
    this.keys = !fields.length ? [] : KEYS.map(([key, label]) => {
      const words = made("b");
      return {label, words, element: made("span", "key " + key, label, words), own: fields.filter(field => field.name.startsWith(key + " ")).reverse()};
    });
    const unused = made("div", "quiet small", `The bits ${this.used} to ${state.bits - 1} are not used by this scene.`);
    this.parts = [made("div", "pixel-bits", "", made("div", "registers", "", ...registers, ...this.keys.map(({element}) => element)), this.memory(), this.canvas),
      ...this.used < state.bits ? [unused] : []];
  }

  cell(which, kind, element, words = element) {
    this.cells.push({which, kind, element, words});
    return element;
  }

  memory() {
    const {fields, used} = this, table = made("table", "memory");
    for (let first = 0; first < used; first += BITS_IN_ROW) {
      const row = made("tr", "", "", made("th", "", String(first)));
      for (let bit = first; bit < Math.min(used, first + BITS_IN_ROW); bit++) {
        const own = fields.find(field => bit >= field.at && bit < field.at + field.length), cell = made("td");
        cell.title = `bit ${bit}` + (own ? `: ${own.name}` + (own.length > 1 ? `, bit ${bit - own.at}` : "") : "");
        row.append(this.cell(bit, own ? own.name : fields.length ? "free" : "", cell));
      }
      table.append(row);
    }
    return table;
  }
}

// A key's numbers in words.
const numbersOf = ({own}, state, x, y) => own.map(({name, at, length}) => `${name.split(" ")[1]} ${state.number(at, length, x, y)}`).join(", ");

const kinds = (...names) => names.filter(Boolean).join(" ");
