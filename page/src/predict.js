// A prediction that marks itself: which pixels will be enabled when the operation under way has ended. They are painted on the array, the machine goes
// on, and what differs is said and marked.
import {at, made, set} from "./show.js";

const MOST = 256;

export class Predict {
  // `machine` shows the array, and `screen` is its image.
  constructor(machine, screen) {
    Object.assign(this, {machine, screen, painted: null, due: null});
    this.sheet = screen.stage.appendChild(made("div", "predicted"));
    at("predict").addEventListener("click", () => { if (this.painted) this.stop(); else this.begin(); });
    at("predict-done").addEventListener("click", () => this.mark().catch(machine.tell));
    screen.whenPlaced.push(() => this.draw());
    screen.canvas.addEventListener("click", event => this.paint(screen.under(event)));
    screen.canvas.addEventListener("keydown", event => { if (event.key === "Enter") this.paint(screen.kept); });
  }

  // Whether an array is small enough to be painted pixel by pixel.
  offer(state) {
    set(at("predict"), "hidden", state.width * state.height > MOST || state.clock === state.clocks);
    if (this.due !== null && this.due !== state.clock) this.stop();
  }

  begin() {
    const {state, course} = this.machine;
    this.painted = new Set();
    this.due = state.clock;
    this.end = course.startOf(course.operationAt(state.clock) + 1);
    this.say(`Click the pixels that will be enabled at clock ${this.end}, when this operation has ended (or go to them by the arrows, and press Enter). Then press Done.`);
    at("predict-done").hidden = false;
    at("predict").setAttribute("aria-pressed", "true");
    this.machine.choose("enable", false);
    this.draw();
  }

  paint(pixel) {
    if (!pixel || !this.painted) return;
    const key = pixel.join(" ");
    if (!this.painted.delete(key)) this.painted.add(key);
    this.say(`Enabled at clock ${this.end}: ${this.painted.size} painted.`);
    this.draw();
  }

  // Compares what was painted with the machine at the end of the operation, and goes there.
  async mark() {
    const {machine, painted, end} = this;
    this.due = end;
    const state = await machine.stateAt(end), wrong = [];
    for (let y = 0; y < state.height; y++)
      for (let x = 0; x < state.width; x++)
        if (painted.has(`${x} ${y}`) !== Boolean(state.bit("enable", x, y))) wrong.push([x, y]);
    machine.go(end);
    this.painted = null;
    this.wrong = wrong;
    at("predict-done").hidden = true;
    at("predict").setAttribute("aria-pressed", "false");
    const named = wrong.slice(0, 8).map(([x, y]) => `${x}, ${y}`).join("; ");
    this.say(wrong.length ? `${wrong.length} of ${state.width * state.height} pixels are otherwise, framed in red: ${named}${wrong.length > 8 ? " .." : ""}.`
      : "All pixels are as you said.");
    this.draw();
    document.body.dataset.predicted = wrong.length;
  }

  stop() {
    Object.assign(this, {painted: null, wrong: null, due: null});
    at("predict-done").hidden = true;
    at("predict").setAttribute("aria-pressed", "false");
    this.say("");
    this.draw();
  }

  say(words) {
    at("predict-says").textContent = words;
    at("predict-says").hidden = !words;
  }

  draw() {
    const pixels = this.painted ? [...this.painted].map(key => key.split(" ").map(Number)) : this.wrong ?? [];
    this.sheet.replaceChildren(...pixels.map(([x, y]) => {
      const own = made("i", this.painted ? "" : "wrong-pixel"), {scale} = this.screen;
      Object.assign(own.style, {left: x * scale + "px", top: y * scale + "px", width: scale + "px", height: scale + "px"});
      return own;
    }));
    if (this.screen.scale) this.screen.lay(this.sheet, 0, 0, this.screen.canvas.width, this.screen.canvas.height);
  }
}
