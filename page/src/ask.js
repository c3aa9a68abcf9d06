// Questions to the library, which workers answer: each has a name, words and a text. The newest text wins: what waits for another one
// is dropped, and what is being answered for another one has a moment to end, or its worker is replaced.
import {lacking} from "../library/pxplanes.mjs";
import {code, library} from "./given.js";

const PATIENCE = 200, LANE = {draw: "draw", compare: "slow", thumb: "small", small: "list", run: "slow", life: "life", stop: "life", enabled: "enabled"};

export class Trouble extends Error {}

// Nobody needs the answer any more.
export class Dropped extends Error {}

class Lane {
  constructor() { Object.assign(this, {worker: null, running: null, waiting: [], timer: null}); }

  ask(question) {
    this.newest(question.text);
    this.waiting.push(question);
    this.next();
  }

  // Drops what belongs to another text.
  newest(text) {
    const others = this.waiting.filter(each => each.text !== text);
    this.waiting = this.waiting.filter(each => each.text === text);
    for (const each of others) each.reject(new Dropped());
    const isOther = this.running && this.running.text !== text;
    if (isOther && !this.timer) this.timer = setTimeout(() => this.replace(new Dropped()), PATIENCE);
    if (!isOther) this.wait();
  }

  wait() {
    clearTimeout(this.timer);
    this.timer = null;
  }

  async next() {
    if (this.running || !this.waiting.length) return;
    const {name, words, text} = this.running = this.waiting.shift(), module = await compiled;
    if (!this.worker) this.begin(module);
    // (a worker has the text that it was asked about last)
    this.worker.postMessage({name, words, ...text === this.sent ? {} : {text}});
    this.sent = text;
  }

  begin(module) {
    this.worker = new Worker(started ??= URL.createObjectURL(new Blob([code()], {type: "text/javascript"})));
    this.worker.postMessage({module});
    this.sent = null;
    this.worker.onmessage = ({data}) => this.end(question => data.failed ? question.reject(new Error(data.failed)) : question.resolve(data));
    this.worker.onerror = event => this.replace(new Error(event.message ?? "the library ended"));
  }

  replace(why) {
    this.worker?.terminate();
    this.worker = null;
    this.end(question => question.reject(why));
  }

  end(how) {
    const question = this.running;
    this.wait();
    this.running = null;
    if (question) how(question);
    this.next();
  }
}

let compiled = null, started = null;
const lanes = {};

const laneOf = name => lanes[LANE[name] ?? "look"] ??= new Lane();

// Makes the library ready; throws where the browser lacks something for it.
export async function begin() {
  const why = lacking();
  if (why) throw new Error(why);
  compiled = library().then(bytes => WebAssembly.compile(bytes));
  await compiled;
}

// The answer to a question.
export function ask(name, words, text) {
  return new Promise((resolve, reject) => laneOf(name).ask({name, words, text, resolve, reject}));
}

// The text is this one now: nobody waits for answers about another.
export function newest(text) { for (const [name, lane] of Object.entries(lanes)) if (name !== "list") lane.newest(text); }

// Calls that come faster than their answers: the last one asked is the next one made, and those between are left out.
export function latest(call) {
  let busy = false, waiting = null;
  async function next(args) {
    busy = true;
    try {
      await call(...args);
    } finally {
      busy = false;
      if (waiting) {
        const then = waiting;
        waiting = null;
        next(then);
      }
    }
  }
  return (...args) => { if (busy) waiting = args; else next(args); };
}
