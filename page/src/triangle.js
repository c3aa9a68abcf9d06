// A triangle to drag on the array: the library makes enable of its three edges at each move, and it can become a scene.
import {ask, latest} from "./ask.js";
import {STEPS, at, drawn, follow, made} from "./show.js";

const PLACES = [[.2, .8], [.45, .15], [.85, .7]];

export class Triangle {
  // `machine` shows the array in `screen`; `open` is called with the text of a scene.
  constructor(machine, screen, open) {
    Object.assign(this, {machine, screen, open, isOn: false, corners: []});
    this.lines = screen.stage.appendChild(drawn("svg", {class: "handles triangle"}));
    this.handles = PLACES.map((_, corner) => this.handle(corner));
    this.fetch = latest(() => this.take().catch(machine.tell));
    screen.whenPlaced.push(() => this.place());
    at("triangle").addEventListener("click", () => this.turn());
    at("triangle-scene").addEventListener("click", () => {
      machine.paint();
      open(this.scene());
    });
    this.show(false);
  }

  handle(corner) {
    const own = this.screen.stage.appendChild(made("button", "corner"));
    own.addEventListener("pointerdown", event => follow(own, event, moved => this.move(corner, this.screen.near(moved))));
    own.addEventListener("keydown", event => {
      const [x, y] = this.corners[corner], [right, down] = STEPS[event.key] ?? [0, 0];
      if (!STEPS[event.key]) return;
      event.preventDefault();
      event.stopPropagation();
      this.move(corner, [x + right, y + down]);
    });
    return own;
  }

  // The machine paints its own state where the triangle ends.
  turn() {
    const {machine, screen: {canvas: {width, height}}} = this, size = `${width} ${height}`;
    if (this.isOn) return machine.paint();
    if (size !== this.of) this.corners = PLACES.map(([x, y]) => [Math.round(x * (width - 1)), Math.round(y * (height - 1))]);
    this.of = size;
    machine.stop();
    this.show(true);
    this.fetch();
  }

  show(isOn) {
    this.isOn = isOn;
    at("triangle").setAttribute("aria-pressed", String(isOn));
    for (const part of [at("triangle-part"), this.lines, ...this.handles]) part.toggleAttribute("hidden", !isOn);
    this.place();
  }

  move(corner, [x, y]) {
    const {width, height} = this.screen.canvas, inside = (number, side) => Math.max(0, Math.min(side - 1, number));
    this.corners[corner] = [inside(x, width), inside(y, height)];
    this.place();
    this.fetch();
  }

  // Of each edge A, B and C: the form is 0 on the line through two corners, and not negative at the third.
  edges() {
    const {corners} = this, [first, second, third] = corners, value = ([a, b, c], [x, y]) => a * x + b * y + c;
    const way = value(through(first, second), third) < 0 ? -1 : 1;
    return corners.map((corner, at) => through(corner, corners[(at + 1) % 3]).map(number => number * way || 0));
  }

  place() {
    const {screen, corners, lines, isOn} = this, {width, height} = screen.canvas;
    if (!isOn || !screen.scale) return;
    screen.lay(lines, 0, 0, width, height);
    lines.setAttribute("viewBox", `0 0 ${width} ${height}`);
    lines.replaceChildren(drawn("polygon", {points: corners.map(([x, y]) => `${x + .5},${y + .5}`).join(" "), class: "seen", "vector-effect": "non-scaling-stroke"}));
    this.handles.forEach((handle, number) => {
      const [x, y] = corners[number];
      screen.lay(handle, x + .5, y + .5, 0, 0);
      handle.setAttribute("aria-label", `corner ${number + 1} at ${x}, ${y}; arrow keys move it`);
    });
  }

  // Enable, as three edges of a listing leave it.
  async take() {
    const {width, height} = this.screen.canvas, edges = this.edges(), rows = ["pxlist 1", `grid ${Math.log2(width)} ${Math.log2(height)}`, "all",
      ...edges.map(edge => `keep-sign ${edge.join(" ")}`), "end", ""];
    const {pixels, count, trouble} = await ask("enabled", {}, rows.join("\n"));
    if (!this.isOn || trouble) return;
    const said = `${count.toLocaleString("en")} of ${(width * height).toLocaleString("en")} pixels are enabled`;
    this.screen.draw(width, height, own => own.set(pixels), this.screen.inner);
    this.screen.canvas.setAttribute("aria-label", `the array, and the triangle: ${said}`);
    at("count").textContent = "";
    at("edges-said").replaceChildren(...edges.map((edge, number) => made("code", "", `edge ${number + 1}: ${edge.join(" ")}`)),
      made("span", "", said));
    document.body.dataset.triangle = `${this.corners.join(" ")} ${count}`;
  }

  scene() {
    const {width, height} = this.screen.canvas;
    return ["pxscene 1", `picture ${width} ${height}`, "depth 9", "solid triangle 232 93 48", ...this.edges().map(edge => `side ${edge.join(" ")}`), "front 0 0 100",
      "back 0 0 400", "show triangle", "end", ""].join("\n");
  }
}

// The form that is 0 on the line through two places.
const through = ([x, y], [toX, toY]) => [y - toY, toX - x, x * toY - toX * y];
