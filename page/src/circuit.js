// The circuit of one pixel at a clock: what is broadcast, its memory, enable, carry and latch, the adder, and the wires that the act under way
// uses, lit by the bits that are on them (docs/MACHINE.md, "The fourteen acts").
import {drawn, made, unit} from "./show.js";

const WIDE = 440, HIGH = 232, ASKS = "value>same same>enable", ADDS = "stored>adder operand>adder carry>adder majority>carry";

// The wires that each act uses, by the bit that is on them and where they lead.
const ACTS = {
  "nop": "", "enable-all": "one>enable", "enable-carry": `carry>same ${ASKS}`, "enable-tree": `leaf>same ${ASKS}`, "enable-bit": `stored>same ${ASKS}`,
  "set-carry": "value>carry", "fetch": "stored>latch", "store-tree": "leaf>memory enable>gate", "store-latch": "latch>memory enable>gate",
  "store-const": "value>memory enable>gate", "toggle": "stored>turned turned>memory enable>gate", "carry-tree": `leaf>operand ${ADDS}`,
  "carry-latch": `latch>operand ${ADDS}`, "add-tree": `leaf>operand ${ADDS} sum>memory enable>gate`};
const wiresOf = act => ACTS[act].split(" ").filter(Boolean);

// Where each wire runs, if the act names the cell at `x`; what is written goes through the gate that enable opens.
function paths(x) {
  const read = `M${x - 2} 52V64`, written = `V92H310V76H${x + 2}V52`;
  return {
    "stored>latch": `${read}H44V104`, "stored>adder": `${read}H192V112`, "stored>same": `${read}H266V104`, "stored>turned": `${read}H392V76`,
    "leaf>operand": "M74 176H112V152H124", "latch>operand": "M74 116H112V140H124", "leaf>same": "M74 176H90V206H258V128",
    "carry>same": "M312 150V143H282V128", "operand>adder": "M138 146H176", "carry>adder": "M300 158H236", "majority>carry": "M236 170H248V190H330V174",
    "value>same": "M428 24V136H270V128", "value>carry": "M428 24V162H360", "one>enable": "M388 116H360", "same>enable": "M288 116H300",
    "enable>gate": "M344 104V84H316", "leaf>memory": `M74 176H86${written}`, "latch>memory": `M74 116H98${written}`, "sum>memory": `M220 112${written}`,
    "value>memory": `M428 24${written}`, "turned>memory": `M392 84${written}`};
}

// Where the bit on a wire is written; those of the registers are in their boxes.
const PINS = {operand: [158, 146], sum: [220, 101], majority: [248, 190], same: [296, 116], value: [428, 60], turned: [392, 92], one: [388, 116]};
const BOXES = [["latch", 14, 104], ["leaf", 14, 164], ["enable", 300, 104], ["carry", 300, 150]];

// The bits on the wires of a microinstruction in a pixel, and what the pixel holds after it.
export function bitsOn({act, place, value, hasPlace}, {memory, enable, carry, latch, leaf}) {
  const wires = wiresOf(act), stored = hasPlace ? Number(memory[place]) : 0, bits = {value, enable, carry, latch, leaf, stored, one: 1, turned: 1 - stored};
  const into = to => bits[wires.find(wire => wire.endsWith(">" + to))?.split(">")[0]];
  // (a comparison adds the bit turned: docs/MACHINE.md, "Microprograms")
  bits.operand = Number(act.startsWith("carry")) ^ into("operand");
  const sum = bits.operand + stored + carry;
  Object.assign(bits, {sum: sum & 1, majority: sum >> 1, same: Number(into("same") === value)});
  const kept = {"one>enable": 1, "same>enable": enable & bits.same}[wires.find(wire => wire.endsWith(">enable"))] ?? enable;
  return {bits, after: {enable: kept, carry: into("carry") ?? carry, latch: into("latch") ?? latch, stored: enable ? into("memory") ?? stored : stored}};
}

const word = (x, y, text, kind = "name") => drawn("text", {x, y, class: kind}, text);

// `micro` is the next microinstruction, null at the end; `pixel` is what the pixel holds, `used` how many bits of its memory are used, and `room` the width and
// height that there is for it.
export function circuitOf(micro, pixel, used, room) {
  if (!micro) return made("p", "quiet", "All clocks are made: no act comes.");
  const {act, place, value, tree, lines, hasPlace, hasValue} = micro, {bits, after} = bitsOn(micro, pixel), wires = wiresOf(act), wide = 404 / Math.max(used, place + 1);
  const cell = 10 + (place + .5) * wide, all = paths(hasPlace ? cell : 220), scale = Math.min(room[0] / WIDE, Math.max(unit(), room[1] / HIGH), 1.6 * unit());
  const picture = drawn("svg", {viewBox: `0 0 ${WIDE} ${HIGH}`, width: WIDE * scale, height: HIGH * scale, class: "circuit", role: "img", "aria-label":
    `${act}: ${wires.map(wire => `${wire.replace(">", " to ")} ${bits[wire.split(">")[0]]}`).join(", ") || "no wire is used"}; then ${
      Object.entries(after).map(([name, bit]) => `${name === "stored" ? hasPlace ? `bit ${place}` : "" : name} ${name === "stored" && !hasPlace ? "" : bit}`).join(" ").trim()}`});
  picture.append(drawn("path", {d: "M8 24H432", class: "rail"}), word(8, 16, "broadcast"), word(72, 16, act, "act"), hasPlace ? word(190, 16, `place ${place}`, "act") : "",
    hasValue ? word(432, 16, `bit ${value}`, "act end") : "", hasPlace ? drawn("path", {d: `M${cell} 24V34`, class: "rail"}) : "");
  for (const wire of Object.keys(all)) picture.append(drawn("path", {d: all[wire], class: "wire"}));
  for (const wire of wires) picture.append(drawn("path", {d: all[wire], class: `wire used ${bits[wire.split(">")[0]] ? "on" : "off"}`}));
  for (let bit = 0; bit < Math.max(used, place + 1); bit++)
    picture.append(drawn("rect", {x: 10 + bit * wide, y: 36, width: Math.max(1, wide - .8), height: 16, class: `cell${Number(pixel.memory[bit]) ? " on" : ""}`}));
  if (hasPlace) picture.append(drawn("rect", {x: cell - wide / 2 - 1, y: 35, width: wide + 1.2, height: 18, class: "named"}),
    word(cell + (cell > WIDE / 2 ? -8 : 8), 63, changed(bits.stored, after.stored), cell > WIDE / 2 ? "value end" : "value"));
  picture.append(word(8, 33, "memory", "name small"));
  const isOpen = wires.includes("enable>gate") && bits.enable;
  picture.append(drawn("path", {d: "M304 88H316L310 80Z", class: `part${isOpen ? " on" : ""}`}), drawn("rect", {x: 176, y: 112, width: 60, height: 68, rx: 6, class: "part"}),
    word(206, 152, "adder", "middle"), drawn("path", {d: "M124 128L138 136V156L124 164Z", class: "part"}), drawn("rect", {x: 252, y: 104, width: 36, height: 24, rx: 12, class: "part"}),
    word(270, 121, "=", "middle"), drawn("path", {d: "M386 72H398L392 82Z", class: "part"}));
  if (act.startsWith("carry")) picture.append(word(146, 134, "not", "middle small"));
  for (const [name, x, y] of BOXES)
    picture.append(drawn("rect", {x, y, width: 60, height: 24, rx: 4, class: `register${bits[name] ? " on" : ""}`}), word(x, y - 4, name, "name small"),
      word(x + 30, y + 17, changed(bits[name], after[name] ?? bits[name]), `middle value${bits[name] ? " on" : ""}`));
  for (const signal of new Set(wires.map(wire => wire.split(">")[0]))) {
    if (!PINS[signal]) continue;
    const [x, y] = PINS[signal], kind = bits[signal] ? " on" : "";
    picture.append(drawn("circle", {cx: x, cy: y, r: 7, class: "pin" + kind}), word(x, y + 4, String(bits[signal]), "middle value pinned" + kind));
  }
  picture.append(drawn("path", {d: "M44 188V198L30 214H58L44 198", class: "part"}), word(64, 224, tree === "feed" ? `the tree is fed c ${lines[2]}, a ${lines[0]}, b ${lines[1]}`
    : tree === "clear" ? "the tree is cleared" : "the tree holds"));
  return picture;
}

// A bit, and what it becomes.
const changed = (before, after) => before === after ? String(before) : `${before} \u2192 ${after}`;
