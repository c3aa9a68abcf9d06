// Numbers of the text that are dragged: by a grip next to the one under the pointer, or with Alt and the arrows the one at the cursor; and
// the lines of a solid over the picture. The text changes when the one before is drawn, so that the picture follows.
import {drawn, follow, made} from "./show.js";

const PIXELS = 4, TEN = 10, NUMBER = /-?\d+/g, PLANES = /^(side|front|back)\s+(-?\d+)\s+(-?\d+)\s+(-?\d+)/;
// Words whose numbers are changed: not the first line's.
const CHANGED = /^\s*(picture|depth|solid|front|back|side|grid|all|keep-|set-|toggle|load-|add-|copy)/;

// The number of a line at a column or right before it, that is no part of a name: where it begins and ends; null where there is none.
export function numberAt(line, column) {
  const code = line.split("#")[0];
  if (!CHANGED.test(code)) return null;
  const found = [...code.matchAll(NUMBER)].find(({0: word, index}) => index <= column && column <= index + word.length && !/\w/.test(code[index - 1] ?? " ")
    && !/\w/.test(code[index + word.length] ?? " "));
  return found ? [found.index, found.index + found[0].length] : null;
}

export class Drag {
  // `isFree` says whether the text is drawn or refused; `screen` is the image that the lines of a solid lie over.
  constructor(editor, screen, isFree) {
    Object.assign(this, {editor, screen, isFree, place: null, wanted: null, lines: drawn("svg", {class: "handles"})});
    this.grip = editor.root.appendChild(made("div", "grip", "\u2194"));
    this.grip.hidden = true;
    screen.stage.append(this.lines);
    screen.whenPlaced.push(() => this.handles());
    editor.root.addEventListener("mousemove", event => { if (event.target !== this.grip) this.over(event); });
    editor.root.addEventListener("mouseleave", () => { if (!this.isHeld) this.grip.hidden = true; });
    editor.code.on("scroll", () => { if (!this.isHeld) this.grip.hidden = true; });
    this.grip.addEventListener("pointerdown", event => this.grasp(event));
    const more = way => () => this.more(way);
    editor.code.addKeyMap({"Alt-Up": more(1), "Alt-Down": more(-1), "Shift-Alt-Up": more(TEN), "Shift-Alt-Down": more(-TEN)});
    editor.onCursor = () => this.handlesSoon();
  }

  // Once before the next frame, however often the cursor moves until then.
  handlesSoon() {
    this.soon ??= requestAnimationFrame(() => {
      this.soon = null;
      this.handles();
    });
  }

  // Puts the grip after the number under the pointer, and never under the pointer itself.
  over(event) {
    const {code} = this.editor, {line: row, ch, outside} = this.editor.placeOf(event), found = outside ? null : numberAt(code.getLine(row), ch);
    const isOn = found !== null && ch < found[1];
    this.place = isOn ? {row, found} : null;
    this.grip.hidden = !isOn;
    if (!isOn) return;
    const {left, top} = code.charCoords({line: row, ch: found[1]}, "window"), box = this.editor.root.getBoundingClientRect();
    this.grip.style.left = left - box.left + "px";
    this.grip.style.top = top - box.top + "px";
  }

  grasp(event) {
    event.preventDefault();
    const {row, found} = this.place, from = event.clientX, first = Number(this.editor.code.getLine(row).slice(...found));
    this.follow(this.grip, event, moved => this.want(row, found[0], first + Math.round((moved.clientX - from) / PIXELS)));
  }

  follow(element, event, moved) {
    this.isHeld = true;
    follow(element, event, moved, () => { this.isHeld = false; });
  }

  // A number that begins at a column of a row is to be another one: at once, or when the text is drawn.
  want(row, column, number) {
    const isWaiting = this.wanted !== null;
    this.wanted = {row, column, number};
    if (!isWaiting) this.turn();
  }

  turn() {
    if (!this.isFree()) return requestAnimationFrame(() => this.turn());
    const {row, column, number} = this.wanted;
    this.wanted = null;
    this.write(row, column, number);
  }

  write(row, column, number) {
    const line = this.editor.code.getLine(row) ?? "", found = numberAt(line, column);
    if (!found || line.slice(...found) === String(number)) return;
    this.editor.write(row, found, String(number), `*drag ${row} ${column}`);
    document.body.dataset.dragged = `${row + 1} ${number}`;
    this.handlesSoon();
  }

  // The number at the cursor, by so much more.
  more(way) {
    const {line: row, ch} = this.editor.code.getCursor(), line = this.editor.code.getLine(row), found = numberAt(line, ch);
    if (found) this.write(row, found[0], Number(line.slice(...found)) + way);
  }

  // The lines of the solid at the cursor: its sides, and where the face at the cursor meets the others.
  planes() {
    const {rows} = this.editor, now = this.editor.code.getCursor().line;
    let first = now;
    while (first >= 0 && !/^\s*solid\b/.test(rows[first])) first -= 1;
    const found = [];
    for (let row = first + 1; first >= 0 && PLANES.test(rows[row]?.trim() ?? ""); row++) {
      const [, kind, ...form] = PLANES.exec(rows[row].trim());
      found.push({row, kind, form: form.map(Number)});
    }
    const own = found.find(each => each.row === now && each.kind !== "side");
    const others = own ? found.filter(each => each !== own && each.kind !== "side") : [];
    return [...found.filter(each => each.kind === "side").map(each => ({row: each.row, own: each.form, other: [0, 0, 0]})),
      ...others.map(each => ({row: now, own: own.form, other: each.form}))];
  }

  handles() {
    const {screen, lines} = this, {width, height} = screen.canvas;
    if (lines.hidden || !screen.scale) return;
    screen.lay(lines, 0, 0, width, height);
    lines.setAttribute("viewBox", `0 0 ${width} ${height}`);
    const made = this.planes().flatMap(plane => {
      const ends = endsOf(plane.own.map((each, at) => each - plane.other[at]), width, height);
      return ends ? [this.handle(plane, ends)] : [];
    });
    lines.replaceChildren(...made);
  }

  handle(plane, [x1, y1, x2, y2]) {
    const place = {x1, y1, x2, y2, "vector-effect": "non-scaling-stroke"};
    const held = drawn("g", {}, drawn("line", {...place, class: "seen"}), drawn("line", {...place, class: "held"}));
    held.addEventListener("pointerdown", event => {
      event.preventDefault();
      // (the handle itself is drawn again as it moves)
      this.follow(this.lines, event, moved => this.move(plane, moved));
    });
    return held;
  }

  // Has a plane's line go through the pointer.
  move({row, own: [a, b], other}, {clientX, clientY}) {
    const {left, top} = this.screen.inside(), [x, y] = [clientX - left, clientY - top].map(each => each / this.screen.scale - .5);
    const number = Math.round((other[0] - a) * x + (other[1] - b) * y + other[2]), words = this.editor.code.getLine(row).match(/^\s*\w+\s+-?\d+\s+-?\d+\s+/)[0];
    this.want(row, words.length, number);
  }
}

// Where the line on which a form is 0 enters and leaves a picture; its pixels have their middles at whole numbers. Null where it does not.
function endsOf([a, b, c], width, height) {
  const from = -.5, points = [];
  const add = (x, y) => { if (x >= from - 1e-9 && x <= width + from + 1e-9 && y >= from - 1e-9 && y <= height + from + 1e-9) points.push([x + .5, y + .5]); };
  for (const x of [from, width + from]) if (b) add(x, -(a * x + c) / b);
  for (const y of [from, height + from]) if (a) add(-(b * y + c) / a, y);
  if (points.length < 2) return null;
  const far = points.reduce((best, each) => Math.hypot(each[0] - points[0][0], each[1] - points[0][1]) > Math.hypot(best[0] - points[0][0], best[1] - points[0][1]) ? each : best);
  return far === points[0] ? null : [...points[0], ...far];
}
