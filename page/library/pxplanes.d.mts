/// <reference lib="dom" />

/** A scene or a listing: a string, or the bytes of one. Another kind of array is refused as a TypeError. */
export type Text = string | Uint8Array | Uint8ClampedArray | Int8Array | ((ArrayBuffer | SharedArrayBuffer) & { BYTES_PER_ELEMENT?: undefined });

/** A whole number from 0 on; another one is refused as a RangeError, which names it. */
export type Whole = number | bigint;

/** Why a text is refused, or a call not answered; the message is the program's note. */
export class Refused extends Error {
  /** As the program ends: 2 words that name no command, 3 no scene or listing, 4 past a limit, 7 no memory; 9 a clock past the last, 10 no such grid, 11 no microinstruction, 12 an operation past the last, 13 no such window. */
  readonly status: number;
  /** The first bad line, counted from 1; 0 where the refusal is of no line. */
  readonly line: number;
  /** With status 3 why it is bad, as "unexpected" (docs/SCENES.md, "Refusals"). */
  readonly cause: string;
  /** With status 4 which limit is passed, as "solids" (docs/SCENES.md, "Limits"). */
  readonly kind: string;
  /** With status 4 what was found there, with 11 the index of the element; a bigint if a number cannot hold it exactly. */
  readonly number: number | bigint;
  /** With status 9 how many clocks there are. */
  readonly clocks: number;
  /** With status 12 how many operations there are. */
  readonly operations: number;
}

export interface Cost {
  width: number;
  height: number;
  /** The greatest face number of the scene. */
  faces: number;
  operations: number;
  clocks: number;
}

/** How maps are given: depths as floats, which are exact, and rows from the bottom, as a texture has them. */
export interface Form<IsFloat = false> {
  isFloat?: IsFloat;
  isFromBottom?: boolean;
}

export interface Picture<Depths = Uint32Array> {
  width: number;
  height: number;
  /** The depth of pixel (x, y) is element y * width + x; where nothing shows, the scene's far limit. */
  depths: Depths;
  /** The number of the face that shows; 0 for the background. */
  faces: Uint32Array;
  operations: number;
  clocks: number;
}

export interface Colours {
  width: number;
  height: number;
  /** Red, green and blue of pixel (x, y) are the elements from 3 * (y * width + x) on. */
  rgb: Uint8Array;
}

/** A microinstruction; `String` of it is as the debugger's trace writes it. */
export class Micro {
  readonly act: string;
  readonly place: number;
  readonly value: number;
  readonly tree: "hold" | "clear" | "feed";
  readonly lines: [number, number, number];
}

export type Role = "start" | "open" | "candidate" | "drop" | "clear" | "front" | "confirm" | "begin" | "turn" | "close" | "merge";

/** An operation, and what it is for (docs/PASSES.md, "Steps"); `String` of it is its line in a listing. */
export class Operation {
  /** The word of its line, and the numbers after it (docs/LISTINGS.md, "Operations"). */
  readonly kind: string;
  readonly numbers: (number | bigint)[];
  /** The clock at which it begins. */
  readonly clock: number;
  /** Its step among all steps of a scene, from 0 on, and the step's kind; null in a listing. */
  readonly pass: number;
  readonly role: Role | null;
  /** The literal that the step is of, from 1 on, among those of all products; 0 for the start. */
  readonly literal: number;
  /** The solid of the face that the step is of, from 1 on, and the face's number, 0 for the far limit; both 0 where it is of none. */
  readonly solid: number;
  readonly face: number;
  /** Which of the product's literals of other solids the step asks, from 1 on; 0 where it asks none. */
  readonly other: number;
}

export type Register = "enable" | "carry" | "latch" | "leaf";

export const REGISTERS: readonly Register[];

/** The machine after `clock` of `clocks` clocks. */
export class State {
  readonly width: number;
  readonly height: number;
  readonly wordsPerRow: number;
  readonly bits: number;
  readonly levels: number;
  readonly clock: number;
  readonly clocks: number;
  /** The operation that comes next or is under way, from 0 on, and which of its clocks comes next. */
  readonly operation: number;
  readonly operationClock: number;
  readonly next: Micro | null;
  /** The words of include/pxplanes.h, each in two halves, the lower first. */
  readonly words: Uint32Array;
  planeOf(which: Whole | Register): number;
  /** A pixel outside of the grid is refused as a RangeError, as is a bit that there is not; so in all calls below. */
  bit(which: Whole | Register, x: Whole, y: Whole): number;
  pixel(x: Whole, y: Whole): { memory: string } & Record<Register, number>;
  /** The number in so many bits from one on, at most 53. */
  number(at: Whole, length: Whole, x: Whole, y: Whole): number;
  numbers(at: Whole, length: Whole): Float64Array;
  /** Output and carry of a node: levels from 1 on, a level's nodes from 0 on. */
  node(level: Whole, index: Whole): [number, number];
}

/** A machine over a text, which keeps states to go on from and back to. */
export class Machine {
  readonly clocks: number;
  readonly first: State;
  state(clock: Whole): State;
  /** Makes the states before a clock, so that going back finds them. */
  prepare(clock: Whole): void;
  micros(first: Whole, count: Whole): Micro[];
  /** The state after a clock, made of one before it and not kept; its words are new ones, or written over those of `into`. */
  after(known: State, clock: Whole, into?: Uint32Array | null): State;
}

/** A face: its solid and line, from 1 on; which front or back of the solid it is, from 1 on; red, green and blue. */
export interface Face {
  readonly solid: number;
  readonly name: string;
  readonly kind: "near" | "front" | "back";
  readonly plane: number;
  readonly line: number;
  readonly colour: [number, number, number];
}

export class Library {
  readonly Refused: typeof Refused;
  /** How large the memory of the module is. */
  readonly bytes: number;
  readonly hasClocks: boolean;
  version(): string;
  check(text: Text): Cost;
  render(text: Text, form?: Form): Picture;
  render(text: Text, form: Form<true>): Picture<Float32Array>;
  /** A part of a picture, 1 to 512 pixels wide and high, or of what `tile` draws: strips show progress, and workers draw one each. */
  window(text: Text, x: Whole, y: Whole, width: Whole, height: Whole, form?: Form): Picture;
  window(text: Text, x: Whole, y: Whole, width: Whole, height: Whole, form: Form<true>): Picture<Float32Array>;
  /** What a face number means; `plane` is 0 for the near face. A number that no face has is thrown as Refused, with status 14. */
  face(text: Text, number: Whole): Face;
  colour(text: Text): Colours;
  /** The picture in colour for a canvas; where there is no ImageData, an object of its form. */
  imageData(text: Text): ImageData;
  products(text: Text): number[][];
  counts(text: Text): { operations: number; clocks: number };
  /** The operations, so many from `first` on, or all from there. */
  course(text: Text, first?: Whole, count?: Whole | null): Operation[];
  state(text: Text, clock: Whole, room?: Whole): State;
  micros(text: Text, first: Whole, count: Whole): Micro[];
  packed(text: Text, first: Whole, count: Whole): BigUint64Array;
  /** What the program writes for a command's words, as "tidy" or "tile 600 400", with the text as its standard input. */
  run(text: Text, words?: Text): Uint8Array;
  /** The words of the state after some microinstructions, as `packed` gives them or your own. */
  clocks(state: Pick<State, "words" | "width" | "height">, packed: BigUint64Array, into?: Uint32Array | null): Uint32Array;
  /** `starts` are the clocks of all of `course`; with them a machine makes clocks of the states that it keeps. */
  machine(text: Text, starts?: readonly number[] | null): Machine;
}

/** What an engine lacks to run the library, in words; null where it lacks nothing. */
export function lacking(): string | null;

/**
 * The library, of the bytes of pxplanes.wasm, a module compiled of them, a response with them, their address, or a promise of one of these;
 * without it, of the file pxplanes.wasm next to this module.
 */
type Source = BufferSource | WebAssembly.Module | Response | Blob | URL | string;
export function load(source?: Source | Promise<Source>): Promise<Library>;
