// The proved library of pxplanes in JavaScript: pictures of scenes, and the state of the machine that draws them.
//
//     import {load} from "./pxplanes.mjs";
//     const px = await load();
//     px.render(text).depths                  // a number a pixel, rows from the top
//
// A text is a string or bytes. A text that the library does not accept is thrown as `Refused`, an argument of a wrong kind as `TypeError`,
// and one out of its range as `RangeError`. docs/LIBRARY.md has each call.

const STATUS = {ok: 0, usage: 2, malformed: 3, limit: 4, memory: 7, room: 8, clock: 9, grid: 10, micro: 11, operation: 12, window: 13, face: 14};
const FOUND = 56, FACE = 28, NAME = 32, STATE = 64, WORD = 16, MICRO = 8, OPERATION = 88, ROOM = 1 << 21, MOST_SIDE = 512, MOST_BITS = 53, MOST_WORD = 2 ** 32 - 1, MOST_WORDS = 2 ** 20;
// A module with one instruction on vectors of 128 bits.
const VECTORS = Uint8Array.of(0, 97, 115, 109, 1, 0, 0, 0, 1, 5, 1, 96, 0, 1, 123, 3, 2, 1, 0, 10, 10, 1, 8, 0, 65, 0, 253, 15, 253, 98, 11);
const ACTS = ["", "nop", "enable-all", "enable-carry", "enable-tree", "enable-bit", "set-carry", "fetch", "store-tree", "store-latch",
  "store-const", "toggle", "carry-tree", "carry-latch", "add-tree"];
const HAVE_A_PLACE = new Set([5, 7, 8, 9, 10, 11, 12, 13, 14]), HAVE_A_VALUE = new Set([3, 4, 5, 6, 10]), TREES = ["hold", "clear", "feed"];
const KINDS = ["all", "keep-sign", "keep-bit", "load-linear", "keep-at-most", "add-linear", "load-const", "set-bit", "toggle", "copy",
  "keep-less"];
const FACES = ["near", "front", "back"];
const ROLES = [null, "start", "open", "candidate", "drop", "clear", "front", "confirm", "begin", "turn", "close", "merge"];
// A machine keeps so many states, and goes on from one that is so many clocks before at most; farther, a state of the text is faster. It
// makes so many states ready to go back to.
const LATEST = 1000, KEPT_BYTES = 1 << 25, NEAR = 128, READY = 24, STRETCH = 4096;

// Why a text is refused, or a call not answered: `status` is the program's, `line` the first bad line, `cause` or `kind` the word of
// why, `number` what was found there, and `clocks` or `operations` how many there are, where one past the last was asked.
// A number is a BigInt if a Number cannot hold it exactly.
export class Refused extends Error {
  constructor(message, status, {line = 0, cause = "", kind = "", number = 0, clocks = 0, operations = 0} = {}) {
    super(message);
    Object.assign(this, {name: "Refused", status, line, cause, kind, number, clocks, operations});
  }
}

// What an engine lacks to run the library, in words; null where it lacks nothing.
export function lacking() {
  if (typeof WebAssembly !== "object") return "There is no WebAssembly here";
  return WebAssembly.validate(VECTORS) ? null
    : "WebAssembly has no SIMD here; Safari 16.4, Chromium 91, Firefox 90 and Node 16.4, or newer, have it";
}

// The library, of the bytes of pxplanes.wasm, a module compiled of them, a response with them, their address, or a promise of one of
// these; without it, of the file pxplanes.wasm next to this one.
export async function load(source = new URL("./pxplanes.wasm", import.meta.url)) {
  const why = lacking();
  if (why) throw new Error(why);
  const {exports} = await WebAssembly.instantiate(await moduleOf(await source), {});
  if (!exports.pxplanes_render) throw new TypeError("the module is not the library of pxplanes");
  return new Library(exports);
}

async function moduleOf(source) {
  if (source instanceof WebAssembly.Module) return source;
  if (isBuffer(source) || ArrayBuffer.isView(source)) return WebAssembly.compile(source);
  const isAddress = typeof source === "string" || source instanceof URL;
  if (!isAddress && typeof source?.arrayBuffer !== "function")
    throw new TypeError(`the source is ${kindOf(source)}; the bytes of pxplanes.wasm, a module, a response or an address is expected`);
  const answer = isAddress ? await fetch(source) : source;
  if (answer.ok === false) throw new Error(`there is no ${answer.url || source}`);
  return WebAssembly.compile(await answer.arrayBuffer());
}

// What a value is, in words.
function kindOf(value) {
  if (["number", "bigint", "boolean", "undefined"].includes(typeof value) || value === null) return String(value);
  return `of type ${arrayKind(value) ?? (typeof value === "object" ? Object.prototype.toString.call(value).slice(8, -1) : typeof value)}`;
}

// What a typed array is, whatever it says of itself: the name of its kind, or undefined for another value, and where its elements are.
const [ARRAY_KIND, BUFFER, OFFSET, LENGTH] = [Symbol.toStringTag, "buffer", "byteOffset", "length"].map(name =>
  Object.getOwnPropertyDescriptor(Object.getPrototypeOf(Uint8Array.prototype), name).get);
const arrayKind = value => ARRAY_KIND.call(value);

const isBuffer = value => ["[object ArrayBuffer]", "[object SharedArrayBuffer]"].includes(Object.prototype.toString.call(value));

// The bytes of a text, as they are now.
function bytesOf(text, name = "text") {
  if (typeof text === "string") return new TextEncoder().encode(text);
  if (isBuffer(text)) return new Uint8Array(text).slice();
  if (["Uint8Array", "Uint8ClampedArray", "Int8Array"].includes(arrayKind(text))) return new Uint8Array(text);
  throw new TypeError(`${name} is ${kindOf(text)}; a string, an ArrayBuffer or a Uint8Array is expected`);
}

// The elements of an array of a kind, where they are.
function elementsOf(Kind, value, name) {
  if (arrayKind(value) !== Kind.name) throw new TypeError(`${name} is ${kindOf(value)}; a ${Kind.name} is expected`);
  return new Kind(BUFFER.call(value), OFFSET.call(value), LENGTH.call(value));
}

// A whole number from 0 to `most`, given as a Number or a BigInt.
function whole(value, name, most = Number.MAX_SAFE_INTEGER) {
  if (typeof value !== "number" && typeof value !== "bigint") throw new TypeError(`${name} is ${kindOf(value)}; a whole number is expected`);
  const number = Number(value);
  if (!Number.isSafeInteger(number) || number < 0 || number > most)
    throw new RangeError(`${name} is ${value}; a whole number from 0 to ${most} is expected`);
  return number;
}

// A Number, or a BigInt where that alone is exact.
const exact = number => Number.isSafeInteger(Number(number)) ? Number(number) : number;

export class Library {
  #calls;

  constructor(calls) { this.#calls = calls; }

  get Refused() { return Refused; }

  // Whether the module makes clocks of a state by itself.
  get hasClocks() { return "pxplanes_clocks" in this.#calls; }

  get bytes() { return this.#calls.memory.buffer.byteLength; }

  version() {
    return this.#with([WORD], ([word]) => {
      const length = Number(this.#calls.pxplanes_version(BigInt(word), BigInt(WORD)));
      return this.#letters(word, length);
    });
  }

  // The size of a scene's picture, its greatest face number, its operations and clocks.
  check(text) {
    return this.#ask("check", text, [], found => found);
  }

  // The depth and the face number of each pixel.
  render(text, form) {
    const bytes = bytesOf(text), {width, height} = this.check(bytes);
    return this.#drawn("render", bytes, width, height, [], form);
  }

  // The same of a part of the picture, or of what `tile` draws.
  window(text, x, y, width, height, form) {
    const place = [whole(x, "x", MOST_WORD), whole(y, "y", MOST_WORD)], size = [whole(width, "width", MOST_SIDE), whole(height, "height", MOST_SIDE)];
    return this.#drawn("window", text, ...size, [...place, ...size], form);
  }

  // What a face number means: its solid, with the name, which of the solid's faces it is, the line of the text, and the colour.
  face(text, number) {
    const asked = whole(number, "number", MOST_WORD);
    return this.#with([FACE, NAME], ([place, name]) => {
      this.#put(name, new Uint8Array(NAME));
      return this.#ask("face", text, [], () => {
        const [solid, kind, plane, line, ...colour] = this.#copy(Uint32Array, place, FACE);
        const letters = this.#letters(name, NAME).replace(/\0+$/, "");
        return {solid, name: letters, kind: FACES[kind - 1], plane, line, colour};
      }, [asked, BigInt(name), BigInt(NAME)], [place]);
    });
  }

  // Red, green and blue of each pixel.
  colour(text) {
    const bytes = bytesOf(text), {width, height} = this.check(bytes), size = 3 * width * height;
    return this.#ask("colour", bytes, [[size, 1]], (found, [rgb]) => ({width, height, rgb: this.#copy(Uint8Array, rgb, size)}));
  }

  // The same as an ImageData, or where there is none as an object of its form: red, green, blue and 255.
  imageData(text) {
    const {width, height, rgb} = this.colour(text), data = new Uint8ClampedArray(4 * width * height);
    for (let from = 0, to = 0; to < data.length; from += 3, to += 4) {
      data.set(rgb.subarray(from, from + 3), to);
      data[to + 3] = 255;
    }
    return typeof ImageData === "function" ? new ImageData(data, width) : {width, height, data, colorSpace: "srgb"};
  }

  // The products that are drawn, each a list of solid numbers from 1 on, below 0 where a solid is taken away.
  products(text) {
    return this.#roomy(0, count => this.#ask("products", text, [[4 * count, 4]], (found, [room]) => {
      const rows = [[]];
      for (const number of this.#copy(Int32Array, room, 4 * count)) if (number) rows[rows.length - 1].push(number); else rows.push([]);
      return rows.slice(0, -1);
    }));
  }

  // The machine after so many clocks of a scene or of a listing. With room for the state's words of 64 bits the text is read once, and without it twice.
  state(text, clock, room = 0) {
    const made = whole(clock, "clock"), known = whole(room, "room", MOST_WORDS);
    return this.#roomy(known, count => this.#with([STATE], ([state]) => this.#ask("state", text, [[8 * count, 8]], (found, [place]) => {
      const fields = this.#fields(state), {wordsPerRow, height, bits, levels} = fields;
      const size = (bits + REGISTERS.length) * height * wordsPerRow + 2 * Math.ceil(2 ** (levels + 1) / 64);
      return new State(fields, this.#copy(Uint32Array, place, 8 * size));
    }, [BigInt(made)], [state])));
  }

  // The microinstructions of so many clocks, from `first` on, as the library packs them.
  packed(text, first, count) {
    const begin = whole(first, "first"), size = MICRO * whole(count, "count", Number.MAX_SAFE_INTEGER / MICRO);
    this.#needs("micros", text, begin, size / MICRO);
    return this.#ask("micros", text, [[size, MICRO]], (found, [room]) => this.#copy(BigUint64Array, room, size), [BigInt(begin)]);
  }

  micros(text, first, count) { return Array.from(this.packed(text, first, count), word => new Micro(word)); }

  // How many clocks a scene or a listing has, and how many operations.
  counts(text) { return this.#ask("micros", text, [[0, MICRO]], ({operations, clocks}) => ({operations, clocks}), [0n]); }

  // The operations of a scene or of a listing, so many from `first` on, or all from there; each with what it is for.
  course(text, first = 0, count = null) {
    const begin = whole(first, "first"), all = count === null ? Math.max(0, this.counts(text).operations - begin) : whole(count, "count", Number.MAX_SAFE_INTEGER / OPERATION);
    this.#needs("course", text, begin, all);
    return this.#ask("course", text, [[OPERATION * all, OPERATION]], (found, [room]) => {
      const view = new DataView(this.#calls.memory.buffer, room, OPERATION * all);
      return Array.from({length: all}, (_, at) => new Operation(view, OPERATION * at));
    }, [BigInt(begin)]);
  }

  // Refuses what lies past the end of a text, before memory is asked for a long stretch of it.
  #needs(name, text, first, count) {
    if (count > STRETCH) this.#ask(name, text, [[0, 1]], () => null, [BigInt(first) + BigInt(count)]);
  }

  // The bytes that the program writes for a command's words, as "tile 600 400", with the text as its standard input. If an image is longer
  // than the first room, that is answered before it is drawn; a longer text is made twice.
  run(text, words = "render") {
    const bytes = bytesOf(text), asked = bytesOf(words, "words");
    for (let room = ROOM; ;) {
      const {status, details, output} = this.#with([bytes.length, asked.length, room, FOUND], ([text, words, out, found]) => {
        this.#put(text, bytes);
        this.#put(words, asked);
        const status = this.#calls.pxplanes_run(...[text, bytes.length, words, asked.length, out, room, found].map(BigInt));
        const details = this.#found(found);
        return {status, details, output: status === STATUS.ok ? this.#copy(Uint8Array, out, details.room) : null};
      });
      if (output) return output;
      if (status !== STATUS.room) throw this.#refusal(status, details);
      room = details.room;
    }
  }

  // The words of the state after some packed microinstructions, of a state or of what has its words, width and height: new ones, or written
  // over those of `into`.
  clocks(state, packed, into = null) {
    if (state === null || typeof state !== "object") throw new TypeError(`state is ${kindOf(state)}; a State is expected`);
    const {pxplanes_clocks: call} = this.#calls;
    const width = whole(state.width, "state.width", MOST_SIDE), height = whole(state.height, "state.height", MOST_SIDE);
    // (nothing of the caller's runs between these and the call)
    const words = elementsOf(Uint32Array, state.words, "state.words"), half = Math.floor(words.length / 2), given = elementsOf(BigUint64Array, packed, "packed");
    const out = into === null ? null : elementsOf(Uint32Array, into, "into");
    if (out && out.length !== words.length) throw new RangeError(`into has ${out.length} words; ${words.length} are expected`);
    if (!call) throw new Error("this module makes no clocks of a state");
    return this.#with([words.byteLength, given.byteLength, FOUND], ([room, micros, found]) => {
      this.#put(room, words);
      this.#put(micros, given);
      const status = call(BigInt(room), BigInt(half), width, height, BigInt(micros), BigInt(given.length), BigInt(found));
      if (status !== STATUS.ok) throw this.#refusal(status, this.#found(found));
      if (!out) return this.#copy(Uint32Array, room, words.byteLength);
      out.set(new Uint32Array(this.#calls.memory.buffer, room, words.length));
      return into;
    });
  }

  // A machine over a text, which keeps states to go on from and back to.
  machine(text, starts = null) { return new Machine(this, bytesOf(text), starts); }

  // Two maps of so many pixels, by a call that takes these numbers.
  #drawn(name, text, width, height, numbers, form = {}) {
    if (form === null || typeof form !== "object") throw new TypeError(`form is ${kindOf(form)}; an object is expected`);
    const {isFloat = false, isFromBottom = false} = form, size = 4 * width * height;
    const map = (Kind, place) => {
      const rows = Kind.from(this.#copy(Uint32Array, place, size));
      return isFromBottom ? rows.map((_, at) => rows[(height - 1 - Math.floor(at / width)) * width + at % width]) : rows;
    };
    return this.#ask(name, text, [[size, 4], [size, 4]], ({operations, clocks}, [depths, faces]) =>
      ({width, height, depths: map(isFloat ? Float32Array : Uint32Array, depths), faces: map(Uint32Array, faces), operations, clocks}), numbers);
  }

  // Makes a call with a buffer of so many elements, or as many as the library says that it needs.
  #roomy(known, call) {
    try {
      return call(known);
    } catch (error) {
      if (error.status !== STATUS.room) throw error;
      return call(error.number);
    }
  }

  // Makes a call with a text, numbers as WebAssembly takes them, buffers of sizes in bytes and in elements, what else it writes, and what
  // it found; gives what is made of that.
  #ask(name, text, buffers, answer, numbers = [], written = []) {
    const bytes = bytesOf(text), whole = each => each.map(BigInt);
    return this.#with([bytes.length, FOUND, ...buffers.map(([size]) => size)], ([place, found, ...places]) => {
      this.#put(place, bytes);
      const given = places.flatMap((each, at) => [each, buffers[at][0] / buffers[at][1]]);
      const status = this.#calls["pxplanes_" + name](...whole([place, bytes.length]), ...numbers, ...whole([...given, ...written, found]));
      const details = this.#found(found);
      if (status !== STATUS.ok) throw this.#refusal(status, details);
      return answer(details, places);
    });
  }

  // Calls with buffers of so many bytes, and gives them back.
  #with(sizes, call) {
    const places = [];
    try {
      for (const size of sizes) {
        const place = this.#calls.px_malloc(BigInt(size));
        if (!place) throw this.#refusal(STATUS.memory, {});
        places.push(Number(place));
      }
      return call(places);
    } finally {
      for (const place of places) this.#calls.px_free(BigInt(place));
    }
  }

  #put(place, numbers) {
    new Uint8Array(this.#calls.memory.buffer, place, numbers.byteLength)
      .set(new Uint8Array(numbers.buffer, numbers.byteOffset, numbers.byteLength));
  }

  #copy(Kind, place, size) { return new Kind(this.#calls.memory.buffer.slice(place, place + size)); }

  #letters(place, length) { return String.fromCharCode(...new Uint8Array(this.#calls.memory.buffer, place, length)); }

  #found(place) {
    const view = new DataView(this.#calls.memory.buffer, place, FOUND), word = at => view.getUint32(at, true);
    const long = at => Number(view.getBigUint64(at, true));
    return {width: word(0), height: word(4), faces: word(8), line: word(12), cause: word(16), kind: word(20),
      number: exact(view.getBigInt64(24, true)), operations: long(32), clocks: long(40), room: long(48)};
  }

  #fields(place) {
    const view = new DataView(this.#calls.memory.buffer, place, STATE), word = at => view.getUint32(at, true);
    const long = at => Number(view.getBigUint64(at, true)), next = view.getBigUint64(56, true);
    return {width: word(0), height: word(4), wordsPerRow: word(8), bits: word(12), levels: word(16), clock: long(24), clocks: long(32),
      operation: long(40), operationClock: long(48), next: next ? new Micro(next) : null};
  }

  #refusal(status, {line, cause: why, kind: which, number, operations, clocks, room, faces}) {
    const word = (call, at) => this.#with([WORD], ([place]) => this.#letters(place, Number(call(at, BigInt(place), BigInt(WORD)))));
    const cause = status === STATUS.malformed ? word(this.#calls.pxplanes_cause_name, why) : "";
    const kind = status === STATUS.limit ? word(this.#calls.pxplanes_kind_name, which) : "";
    const notes = {
      [STATUS.usage]: "the words name no command", [STATUS.malformed]: `malformed line ${line}: ${cause}`,
      [STATUS.limit]: `limit line ${line}: ${kind} ${number}`, [STATUS.memory]: "out of memory", [STATUS.room]: `${room} elements are needed`,
      [STATUS.clock]: `there are ${clocks} clocks`, [STATUS.grid]: "a grid has not so many columns or rows",
      [STATUS.micro]: `element ${number} is no microinstruction`, [STATUS.operation]: `there are ${operations} operations`,
      [STATUS.window]: "a window has not so many columns or rows", [STATUS.face]: `faces are numbered from 1 to ${faces}`};
    const found = status === STATUS.room ? {number: room} : {line, cause, kind, number, clocks, operations};
    return new Refused(notes[status] ?? `status ${status}`, status, found);
  }
}

// A microinstruction: the act of every pixel, the place in its memory and the bit that it names (0 where it names none), what the
// tree does, and the bits of the lines a, b, c. `String` of it is as the debugger's trace writes it.
export class Micro {
  constructor(word) {
    if (typeof word !== "bigint") throw new TypeError(`the word of a microinstruction is ${kindOf(word)}; a BigInt is expected`);
    const low = Number(word & 0xffffffffn), high = Number(word >> 32n), act = high & 255, lines = high >> 24;
    if (!ACTS[act] || word >> 64n) throw new RangeError(`${word} is the word of no microinstruction`);
    Object.assign(this, {act: ACTS[act], place: low, value: high >> 8 & 1, tree: TREES[high >> 16 & 3],
      lines: [lines & 1, lines >> 1 & 1, lines >> 2 & 1], hasPlace: HAVE_A_PLACE.has(act), hasValue: HAVE_A_VALUE.has(act)});
  }

  toString() {
    const {act, place, value, tree, lines, hasPlace, hasValue} = this;
    return [tree, ...tree === "feed" ? [lines.join("")] : [], act, ...hasPlace ? [place] : [], ...hasValue ? [value] : []].join(" ");
  }
}

// An operation and what it is for, as include/pxplanes.h has it, with the words of its kind and of its role, which is null in a listing.
// `String` of it is its line in a listing.
export class Operation {
  constructor(view, at) {
    const long = place => exact(view.getBigInt64(at + place, true)), word = place => view.getUint32(at + place, true);
    Object.assign(this, {kind: KINDS[word(64) - 1], numbers: Array.from({length: word(68)}, (_, which) => long(8 * which)),
      clock: long(40), pass: long(48), literal: long(56), role: ROLES[word(72)], solid: word(76), face: word(80), other: word(84)});
  }

  toString() { return [this.kind, ...this.numbers].join(" "); }
}

export const REGISTERS = ["enable", "carry", "latch", "leaf"];

// The machine after `clock` of `clocks` clocks: `words` are those of include/pxplanes.h, each in two halves of 32 bits, the lower
// first. `next` is the microinstruction that comes, null at the end.
export class State {
  constructor(fields, words) {
    Object.assign(this, fields, {words});
    this.perRow = 2 * this.wordsPerRow;
    this.perPlane = this.perRow * this.height;
  }

  // The plane of a memory bit, or of a register: by its name, or as the bit after those of the memory.
  planeOf(which) {
    if (REGISTERS.includes(which)) return this.bits + REGISTERS.indexOf(which);
    return whole(which, "the plane", this.bits + REGISTERS.length - 1);
  }

  #needPixel(x, y) {
    const {width, height} = this, column = whole(x, "x"), row = whole(y, "y");
    if (column >= width || row >= height) throw new RangeError(`pixel ${x}, ${y} is outside of ${width} by ${height}`);
    return [column, row];
  }

  #needField(at, length) {
    const first = whole(at, "the first bit"), count = whole(length, "the length", MOST_BITS);
    if (first + count > this.bits) throw new RangeError(`the bits ${first} to ${first + count - 1} are outside of 0 to ${this.bits - 1}`);
    return [first, count];
  }

  #bit(plane, x, y) { return this.words[plane * this.perPlane + y * this.perRow + (x >> 5)] >>> (x & 31) & 1; }

  bit(which, x, y) { return this.#bit(this.planeOf(which), ...this.#needPixel(x, y)); }

  // All that a pixel holds.
  pixel(x, y) {
    const pixel = this.#needPixel(x, y), [enable, carry, latch, leaf] = REGISTERS.map(name => this.#bit(this.planeOf(name), ...pixel));
    return {memory: Array.from({length: this.bits}, (_, at) => this.#bit(at, ...pixel)).join(""), enable, carry, latch, leaf};
  }

  // The number in a field of the pixel at x, y: so many bits from one on, the lowest first.
  number(at, length, x, y) {
    const [first, count] = this.#needField(at, length), pixel = this.#needPixel(x, y);
    let number = 0;
    for (let bit = count - 1; bit >= 0; bit--) number = 2 * number + this.#bit(first + bit, ...pixel);
    return number;
  }

  // The numbers in a field of all pixels, row by row.
  numbers(at, length) {
    const {width, height, perRow, perPlane, words} = this, [first, count] = this.#needField(at, length), found = new Float64Array(width * height);
    for (let bit = 0; bit < count; bit++) {
      const weight = 2 ** bit, plane = (first + bit) * perPlane;
      for (let y = 0; y < height; y++) {
        for (let column = 0; column < width; column += 32) {
          let word = words[plane + y * perRow + (column >> 5)];
          for (let to = y * width + column; word; word >>>= 1, to++) if (word & 1) found[to] += weight;
        }
      }
    }
    return found;
  }

  // Output and carry of a node of the tree: levels from 1 on, a level's nodes from 0 on.
  node(level, index) {
    const depth = whole(level, "level", this.levels);
    if (!depth) throw new RangeError("level is 0; the first level of the tree is 1");
    const place = 2 ** depth + whole(index, "index", 2 ** depth - 1), wide = 2 * Math.ceil(2 ** (this.levels + 1) / 64), first = this.words.length - 2 * wide;
    return [0, 1].map(row => this.words[first + row * wide + (place >> 5)] >>> (place & 31) & 1);
  }
}

// A machine over a text: any of its states. The last ones that it came by are kept, to go back to. Where `starts` has the first clock
// of each operation, and the library makes clocks of a state, a state is made of one that is kept a few clocks before it.
export class Machine {
  constructor(library, text, starts = null) {
    const isRising = Array.isArray(starts) && starts.every((clock, at) => Number.isSafeInteger(clock) && (at ? clock > starts[at - 1] : clock === 0));
    if (starts !== null && !isRising) throw new TypeError("starts is no array of the clocks at which the operations begin, from 0 on and rising");
    Object.assign(this, {library, text, starts, kept: new Map(), packed: [0, new BigUint64Array(0)]});
    this.first = library.state(text, 0);
    this.clocks = this.first.clocks;
    const operations = starts === null ? null : library.counts(text).operations;
    if (starts !== null && (starts.length !== operations || starts[operations - 1] >= this.clocks))
      throw new RangeError(`starts has ${starts.length} clocks; one below ${this.clocks} is expected for each of ${operations} operations`);
    this.most = Math.max(2 * READY, Math.min(LATEST, Math.floor(KEPT_BYTES / this.first.words.byteLength)));
    this.canStep = library.hasClocks && starts !== null;
    this.#keep(this.first);
  }

  state(clock) {
    const made = whole(clock, "clock");
    return this.#keep(this.kept.get(made) ?? this.#found(made));
  }

  // The microinstructions of so many clocks, from `first` on.
  micros(first, count) { return Array.from(this.#broadcast(first, count), word => new Micro(word)); }

  // What is broadcast in so many clocks from one on, packed; the last stretch is kept.
  #broadcast(begin, length) {
    const [from, words] = this.packed, first = whole(begin, "first"), count = whole(length, "count");
    if (first + count > this.clocks) throw new RangeError(`there are ${this.clocks} clocks, and none from ${first} to ${first + count - 1}`);
    if (first < from || first + count > from + words.length) {
      const start = Math.max(0, first - STRETCH), stretch = Math.min(this.clocks - start, first - start + Math.max(STRETCH, count));
      this.packed = [start, this.library.packed(this.text, start, stretch)];
    }
    return this.packed[1].subarray(first - this.packed[0], first - this.packed[0] + count);
  }

  // Makes the states before a clock, as many as are near, so that going back finds them.
  prepare(clock) {
    const made = whole(clock, "clock", this.clocks);
    if (!this.canStep || made < READY || this.kept.has(made - 1)) return;
    let known = this.#keep(this.#ofText(made - READY));
    while (known.clock + 1 < made) known = this.#keep(this.after(known, known.clock + 1));
  }

  // Goes on from a state that is near.
  #found(clock) {
    if (this.canStep && clock <= this.clocks)
      for (let near = clock - 1; near >= Math.max(0, clock - NEAR); near--)
        if (this.kept.has(near)) return this.after(this.kept.get(near), clock);
    return this.#ofText(clock);
  }

  #ofText(clock) { return this.library.state(this.text, clock, this.first.words.length / 2); }

  // The state after a clock, made of one before it; it is not kept. Its words are new ones, or written over those of `into`.
  after(known, clock, into = null) {
    if (!(known instanceof State)) throw new TypeError(`known is ${kindOf(known)}; a State is expected`);
    if (["width", "height", "bits"].some(name => known[name] !== this.first[name])) throw new RangeError("known is a state of another array");
    if (!this.canStep) throw new TypeError("this machine has no starts, or its module makes no clocks of a state");
    const made = whole(clock, "clock", this.clocks), words = this.library.clocks(known, this.#broadcast(known.clock, made - known.clock), into), isEnd = made === this.clocks;
    let {operation} = known;
    while (this.starts[operation] <= made) operation += 1;
    operation -= isEnd ? 0 : 1;
    return new State({...this.first, clock: made, operation, operationClock: isEnd ? 0 : made - this.starts[operation],
      next: isEnd ? null : this.micros(made, 1)[0]}, words);
  }

  // Keeps a state, and forgets the one that was used longest ago.
  #keep(state) {
    this.kept.delete(state.clock);
    this.kept.set(state.clock, state);
    if (this.kept.size > this.most) this.kept.delete(this.kept.keys().next().value);
    return state;
  }
}
