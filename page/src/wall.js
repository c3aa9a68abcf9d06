// The wall: every plane of the array at once, each as a small image, and both keys as colours, depths and faces. What the last move
// changed is framed, and only that is drawn again. All images are parts of one canvas, as a browser takes long to lay many over each other.
import {rove} from "./rove.js";
import {made} from "./show.js";
import {gridIn, isAnyOf} from "./state.js";

const CAPTION = 13, LEAST = 33, GAP = 4, FRAME = 2, FRAMED = "#f0883e";
// The groups of planes, each with a heading; a caption below a plane says only what the heading does not.
const GROUPS = ["", "key B", "key T", "rest"];

export class Wall {
  // `onChoose` is called with the name of a view, and whether it is shown next to the large one.
  constructor(root, onChoose) {
    Object.assign(this, {root, onChoose, tiles: [], framed: [], of: null, shown: null, sheet: made("canvas", "sheet")});
    this.sheet.setAttribute("aria-hidden", "true");
    this.pen = this.sheet.getContext("2d");
    root.addEventListener("keydown", event => this.key(event));
    rove(root, ".tile");
    new ResizeObserver(() => this.fit()).observe(root);
  }

  // Takes the views of another text: the registers, the keys, and the bits of the memory that it uses.
  load(views, used) {
    this.tiles = views.filter(view => view.group !== "memory" || used.has(view.plane)).map(view => this.tile(view));
    this.order();
    Object.assign(this, {framed: [], of: null, shown: null, laid: null, image: null});
    this.root.replaceChildren(this.sheet, ...GROUPS.flatMap((heading, group) => {
      const own = this.tiles.filter(tile => groupOf(tile.view) === group).map(tile => tile.button);
      return heading && own.length ? [made("b", "heading", heading), ...own] : own;
    }));
  }

  // The registers first; then key B and key T, the numbers of each before its bits, the highest bit first; and the bits of no key.
  order() {
    const place = ({view}) => groupOf(view) * 1000 + (view.group === "memory" ? 500 - view.plane : 0);
    this.tiles.sort((one, other) => place(one) - place(other));
  }

  tile(view) {
    const place = made("i"), button = made("button", "tile " + (view.field ?? "").split(" ")[0], "", place, made("span", "", view.name.split(" ").pop()));
    button.title = view.label;
    button.setAttribute("aria-label", view.label);
    button.addEventListener("click", event => this.onChoose(view.name, event.shiftKey));
    return {view, place, button};
  }

  // Shows a state, in which some planes changed, null for all of them. Gives how many words were read.
  show(state, changed) {
    if (this.of !== `${state.width} ${state.height}`) this.size(state);
    const drawn = this.tiles.filter(({view: {planes}}) => isAnyOf(changed, planes)), {framed, shown} = this;
    this.shown = state;
    this.framed = changed ? drawn : [];
    this.draw(drawn, framed, changed && shown);
    return drawn.reduce((read, {view: {planes: [first, end]}}) => read + (end - first) * state.perPlane, changed ? state.words.length : 0);
  }

  size({width, height}) {
    this.of = `${width} ${height}`;
    this.root.style.setProperty("--shape", `${width} / ${height}`);
    this.fit();
  }

  // Draws some tiles on the sheet, which has another state until now, and takes away what framed some others. A frame is a part of the sheet
  // too, as a browser takes long to style and paint a tile again.
  draw(tiles, framed = [], before = null) {
    const {pen} = this, wide = Math.ceil(FRAME * devicePixelRatio);
    if (!this.image) return;
    for (const {view, grid} of tiles) view.fillSmall(this.shown, grid, before);
    for (const {box: [x, y, columns, rows]} of new Set([...tiles, ...framed])) pen.putImageData(this.image, 0, 0, x - wide, y - wide, columns + 2 * wide, rows + 2 * wide);
    Object.assign(pen, {strokeStyle: FRAMED, lineWidth: wide});
    for (const {box: [x, y, columns, rows]} of this.framed) pen.strokeRect(x - wide / 2, y - wide / 2, columns + wide, rows + wide);
  }

  // Gives the sheet the size of the wall, and draws all of it.
  lay() {
    const {sheet, tiles} = this, times = devicePixelRatio, [width, height] = this.of.split(" ").map(Number);
    // (the sheet itself must not be what makes the wall as wide and high as it was)
    Object.assign(sheet.style, {width: 0, height: 0});
    for (const tile of tiles) {
      const {offsetLeft, offsetTop, offsetWidth, offsetHeight} = tile.place;
      tile.box = [offsetLeft, offsetTop, offsetWidth, offsetHeight].map(each => Math.round(each * times));
    }
    const ends = [0, 1].map(way => Math.max(1, ...tiles.map(({box}) => Math.ceil(box[way] + box[way + 2] + FRAME * times))));
    ends[0] = Math.max(1, Math.min(ends[0], Math.floor(this.root.clientWidth * times)));
    Object.assign(sheet, {width: ends[0], height: ends[1]});
    Object.assign(sheet.style, {width: ends[0] / times + "px", height: ends[1] / times + "px"});
    this.image = new ImageData(...ends);
    const pixels = new Uint32Array(this.image.data.buffer);
    for (const tile of tiles) tile.grid = gridIn(pixels, ends[0], tile.box, {width, height});
    if (this.shown) this.draw(tiles);
  }

  // Marks the tiles that are shown large.
  mark(names) {
    for (const {view, button} of this.tiles) button.setAttribute("aria-pressed", String(names.includes(view.name)));
  }

  // As large as all of them have room at once.
  fit() {
    const {clientWidth: wide, clientHeight: high} = this.root, count = this.root.children.length - 1;
    if (!wide || !high || count < 1 || !this.of) return;
    const [width, height] = this.of.split(" ").map(Number), letters = parseFloat(getComputedStyle(this.root).fontSize) / 16;
    let columns = 1;
    const tall = many => Math.ceil(count / many) * ((wide / many - GAP) * height / width + CAPTION * letters + GAP);
    while (tall(columns) > high && wide / (columns + 1) >= LEAST * letters + GAP) columns += 1;
    const laid = `${wide} ${columns} ${letters} ${this.of} ${count} ${devicePixelRatio}`;
    if (this.laid === laid) return;
    this.laid = laid;
    this.root.style.setProperty("--columns", columns);
    this.lay();
  }

  // To the tile above or below the one that has the focus.
  key(event) {
    const way = {ArrowUp: -1, ArrowDown: 1}[event.key];
    if (way === undefined || event.ctrlKey || event.altKey || event.metaKey) return;
    event.preventDefault();
    event.stopPropagation();
    const {left, top} = document.activeElement.getBoundingClientRect();
    this.tiles.find(({button}) => {
      const box = button.getBoundingClientRect();
      return Math.abs(box.left - left) < 2 && Math.abs(box.top - top - way * (box.height + GAP)) < box.height / 2;
    })?.button.focus();
  }
}

function groupOf({group, field = ""}) { return group === "registers" ? 0 : field.startsWith("best") ? 1 : field.startsWith("candidate") ? 2 : 3; }
