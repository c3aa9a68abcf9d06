// Calls the library thousands of times, each time with one wrong argument, drawn by a seed, and then the same calls again. In between the
// right answers must stay, and the second time no more memory is taken. Use: node hostile.mjs PXPLANES.WASM SCENE SEED COUNT. Prints as
// JSON how many calls had each outcome, and what went wrong.
import {readFileSync} from "node:fs";
import {load} from "../library/node.mjs";

const [wasm, scene, seed, count] = process.argv.slice(2);
const text = readFileSync(scene, "utf8"), px = await load(readFileSync(wasm)), EVERY = 50;

// A generator of numbers from 0 on and below 1 (xorshift of 32 bits).
let drawn = 0;
function share() {
  drawn ^= drawn << 13;
  drawn ^= drawn >>> 17;
  drawn ^= drawn << 5;
  return (drawn >>> 0) / 2 ** 32;
}
const some = list => list[Math.floor(share() * list.length)], below = most => Math.floor(share() * most);

// An array of a kind, of some bytes, often in the midst of a larger buffer.
function arrayOf(Kind) {
  const size = Kind.BYTES_PER_ELEMENT ?? 1, buffer = new ArrayBuffer(size * 400), first = size * below(9);
  new Uint8Array(buffer).forEach((_, at, bytes) => { bytes[at] = below(256); });
  return new Kind(buffer, first, below(390));
}

function detached() {
  const array = new Uint8Array(64);
  structuredClone(array.buffer, {transfer: [array.buffer]});
  return array;
}

// An array that says that it is of another kind, and longer than it is.
const lying = () => Object.defineProperties(arrayOf(Uint8Array), {[Symbol.toStringTag]: {value: "Uint32Array"}, byteLength: {value: 1 << 20}, length: {value: 1 << 20}});

const KINDS = [Int8Array, Uint8Array, Uint8ClampedArray, Int16Array, Uint16Array, Int32Array, Uint32Array, Float32Array, Float64Array, BigInt64Array, BigUint64Array, DataView];
const WRONG = [
  () => undefined, () => null, () => true, () => NaN, () => -1, () => 1.5, () => 2 ** 53, () => 1e300, () => Infinity, () => -5n, () => 10n ** 30n, () => 2n ** 64n,
  () => "", () => "7", () => "pxscene 1\n", () => "\ud800", () => "\0".repeat(70), () => Symbol("s"), () => ({}), () => [], () => [1, 2], () => () => 0, () => new Date(0),
  () => new Proxy([], {}), () => new Map(), () => ({toString() { throw new Error("no text"); }}), () => ({valueOf: () => 3}), () => ({length: -1}), () => new ArrayBuffer(9),
  () => new SharedArrayBuffer(9), detached, lying, () => below(1e6), () => BigInt(below(1e9)), () => BigInt(below(9)), () => [0, below(9)], () => text.slice(0, below(text.length)),
  () => text.replace(/\d/g, digit => share() < 0.1 ? String(below(10)) : digit), ...KINDS.map(Kind => () => arrayOf(Kind))];

const state = px.state(text, 3000), machine = px.machine(text, px.course(text).map(({clock}) => clock)), packed = px.packed(text, 3000, 5);
const CALLS = {
  check: [text], render: [text, {isFloat: true}], window: [text, 1, 2, 3, 4, {isFromBottom: true}], colour: [text], imageData: [text], products: [text], counts: [text], state: [text, 9, 0], micros: [text, 4, 3], packed: [text, 4, 3], course: [text, 2, 3],
  run: [text, "cost"], clocks: [state, packed, null], machine: [text, null]};
const OTHERS = [[state, "bit", ["enable", 3, 4]], [state, "pixel", [3, 4]], [state, "number", [3, 9, 3, 4]], [state, "numbers", [3, 9]], [state, "node", [2, 1]],
  [state, "planeOf", [7]], [machine, "state", [9]], [machine, "micros", [4, 3]], [machine, "prepare", [900]], [machine, "after", [state, 3005, null]]];
const calls = [...Object.entries(CALLS).map(([name, words]) => [px, name, words]), ...OTHERS];
const FIELDS = ["words", "width", "height"];
// What an engine says where nothing looked at an argument.
const BY_ACCIDENT = /Cannot mix|Cannot convert|Cannot read|can't convert|not a function|not iterable|undefined \(/;

// The bytes of an answer, as a text to compare.
const shownAs = value => JSON.stringify(value, (_, own) => typeof own === "bigint" ? String(own) : ArrayBuffer.isView(own) ? Array.from(own, String).join() : own);
const RIGHT = [() => px.render(text), () => px.window(text, 20, 9, 8, 8), () => px.colour(text), () => px.state(text, 3000).words, () => px.clocks(state, packed), () => px.products(text), () => px.run(text, "cost"),
  () => machine.state(2999).words, () => machine.after(state, 3005).words, () => px.counts(text)];
const right = RIGHT.map(call => shownAs(call())), outcomes = {}, failures = [];

function all() {
  drawn = Number(seed);
  for (let at = 0; at < Number(count); at++) one(at);
  return px.bytes;
}

function one(at) {
  const [own, name, words] = some(calls), place = below(words.length), given = [...words], wrong = some(WRONG)();
  given[place] = name === "clocks" && place === 0 && share() < 0.7 ? {words: state.words, width: state.width, height: state.height, [some(FIELDS)]: wrong} : wrong;
  let outcome = "answered";
  try {
    own[name](...given);
  } catch (error) {
    outcome = error?.name;
    if (!["TypeError", "RangeError", "Refused"].includes(outcome) || !error.message || BY_ACCIDENT.test(error.message)) failures.push(`${name}, argument ${place}: ${error?.stack}`);
  }
  outcomes[outcome] = (outcomes[outcome] ?? 0) + 1;
  if (at % EVERY === 0 && RIGHT.some((call, which) => shownAs(call()) !== right[which])) failures.push(`${name}, argument ${place}: another answer after it`);
}

const [first, second] = [all(), all()];
if (first !== second) failures.push(`the memory grew from ${first} to ${second}`);
console.log(JSON.stringify({outcomes, failures: failures.slice(0, 9)}));
