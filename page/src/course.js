// The course of a scene's broadcasts: its operations and passes, at which clock each begins, and where a move leads.
import {placesOf} from "./passes.js";

// The kinds of passes, and what the legend says of each.
export const KINDS = {start: "the background", candidate: "a candidate", against: "it is counted against other faces", merge: "the nearer stays",
  open: "a solid begins"};
const NONE = {said: "", kind: "open", face: 0, literal: 0, solid: null}, LEAST = 32;

// The last of some clocks, which rise, that is there or before; -1 if none is.
function lastUntil(clocks, clock) {
  let [place, end] = [-1, clocks.length];
  while (end - place > 1) {
    const middle = place + end >> 1;
    if (clocks[middle] <= clock) place = middle; else end = middle;
  }
  return place;
}

export class Course {
  // The answer to `program`: of each operation its pass, line, words and first clock; and the words of each pass.
  constructor({operations, passes, clocks}) {
    Object.assign(this, {operations, passes, clocks, passStarts: [], starts: operations.map(([, , , clock]) => clock)});
    for (const [pass, , , clock] of operations) if (this.passStarts.length === pass) this.passStarts.push(clock);
    // The stretch of clocks that the time line shows.
    this.view = [0, clocks];
  }

  // Shows so many times as many clocks, with a clock where it was.
  zoom(clock, times) {
    const [from, to] = this.view, wide = Math.min(this.clocks, Math.max(LEAST, (to - from) * times));
    this.turn(clock - (clock - from) * wide / Math.max(1, to - from), wide);
  }

  turn(from, wide) {
    const first = Math.max(0, Math.min(this.clocks - wide, from));
    this.view = [first, first + wide];
  }

  // Turns the time line to a clock that it does not show.
  reveal(clock) {
    const [from, to] = this.view;
    if (clock < from || clock > to) this.turn(clock - (to - from) / 2, to - from);
  }

  // The operation under way after so many clocks: the last that begins there or before.
  operationAt(clock) { return lastUntil(this.starts, clock); }

  pass(number) { return this.passes[number] ?? NONE; }

  passAt(clock) { return lastUntil(this.passStarts, clock); }

  startOf(operation) { return this.starts[operation] ?? this.clocks; }

  startOfPass(pass) { return this.passStarts[pass] ?? this.clocks; }

  // The places in memory that the operations name, each a first bit and a length.
  bitsNamed() { return this.operations.flatMap(([, line]) => placesOf(line)); }

  // Where an operation of a name begins next, or began last before a clock; null where none does.
  named(name, now, way) {
    const begin = this.operations.filter(([, line]) => line.split(" ")[0] === name).map(([, , , clock]) => clock);
    return (way > 0 ? begin.find(clock => clock > now) : begin.findLast(clock => clock < now)) ?? null;
  }

  // The clock to which a move leads from another.
  moved(move, now) {
    const operation = this.operationAt(now), pass = this.passAt(now);
    const back = (start, place) => start(place) < now ? start(place) : start(Math.max(0, place - 1));
    const moves = {
      "start": () => 0, "run": () => this.clocks, "clock-on": () => now + 1, "clock-back": () => now - 1,
      "operation-on": () => this.startOf(operation + 1),
      "operation-back": () => back(place => this.startOf(place), operation),
      "pass-on": () => this.startOfPass(pass + 1),
      "pass-back": () => back(place => this.startOfPass(place), pass)};
    return Math.max(0, Math.min(this.clocks, moves[move]()));
  }
}
