// What the page asks, answered in a worker by the library.
import "./older.js";
import {Refused, load} from "../library/pxplanes.mjs";
import {compared, fill, greatest, mapsOf, marksOf, pictureOf, wordsOf} from "./differences.js";
import {Bad, rastersOf} from "./maps.js";
import {coloursOf, packed} from "./palette.js";
import {operationsOf, operationsOfListing} from "./passes.js";
import {rayOf} from "./ray.js";
import {refusalOf} from "./refusals.js";
import {Life} from "./replay.js";
import {isListing, readScene} from "./scene.js";
import {changedPlanes, fillBits, kept, onesOf, planesIn} from "./state.js";

const MOST_CLOCKS = 100, MOST_SMALL = 256, MOST_GROUPS = 200, MALFORMED = 3, LIMIT = 4, NO_CLOCK = 9, IDLE = 200;
// `idle` makes ready what may be asked next, where nothing is asked for a moment; `lived` is the pixel whose life was asked last.
let px = null, idle = null, lived = null, moved = null;

// (`check` throws where the library refuses the text)
const sceneIn = kept(text => px.check(text) && readScene(text));
const courseIn = kept(courseOf);
const machineIn = kept(text => px.machine(text, courseIn(text).operations.map(([, , , clock]) => clock)));

function wholeNumber(words, name, most = Number.MAX_SAFE_INTEGER) {
  const number = words[name];
  if (!Number.isInteger(number) || number < 0 || number > most) throw new Bad(`${name} is no number from 0 to ${most}`);
  return number;
}

// Number, solid, kind and which, colour and line of each face.
const facesOf = scene => scene.faces.map(({number, solid, kind, colour, line}) => [number, solid, kind, colour, line]);

// The picture of a scene: its depths, faces and colours; of a listing what it is alone.
function draw(text) {
  if (isListing(text)) {
    const {width, height, clocks} = px.state(text, 0);
    return {kind: "listing", width, height, layout: null, clocks};
  }
  const drawn = px.render(text), scene = sceneIn(text), faces = facesOf(scene), rgb = new Uint8Array(3 * drawn.faces.length);
  const colours = coloursOf(faces);
  for (let place = 0, to = 0; place < drawn.faces.length; place++, to += 3) {
    const colour = colours[drawn.faces[place]];
    rgb[to] = colour[0]; rgb[to + 1] = colour[1]; rgb[to + 2] = colour[2];
  }
  return {kind: "scene", width: drawn.width, height: drawn.height, far: scene.far, operations: drawn.operations, clocks: drawn.clocks,
    layout: {depth: scene.depthBits, fraction: scene.fractionBits, face: scene.numberBits}, facesOf: faces,
    depths: drawn.depths, faces: drawn.faces, rgb};
}

// The ray of a pixel: what is seen, and where it is inside each solid.
function ray(text, words) {
  const scene = sceneIn(text);
  return rayOf(px, scene, wholeNumber(words, "x", scene.width - 1), wholeNumber(words, "y", scene.height - 1));
}

// The operations of a scene or a listing: of each its pass, its line, its words and its first clock; and the passes.
function courseOf(text) {
  const {clocks} = px.counts(text), course = px.course(text);
  const [operations, passes] = isListing(text) ? operationsOfListing(course) : operationsOf(sceneIn(text), px.products(text), course);
  return {operations, passes, clocks};
}

// The state after a clock: its words, and what comes next. If `from` is the clock of another state, the words of the planes alone that are
// others than there, and which these are.
function state(text, words) {
  const machine = machineIn(text), clock = wholeNumber(words, "clock"), [before, made] = movedTo(text, machine, clock, words);
  const {next, words: own, ...fields} = made, changed = changedPlanes(before, made, written(machine, words.from, clock));
  idle = setTimeout(() => machine.prepare(clock), IDLE);
  return {...fields, changed, words: changed ? planesIn(own, made.perPlane, changed) : own.slice(), next: next && {...next}, micro: next && String(next)};
}

// The state after the clock `from`, or null, and after another. Of a text that goes on, the words of the state before the last are written
// over: `moved` has the last state, and these words if the machine does not keep them.
function movedTo(text, machine, clock, words) {
  const {from} = words, isNear = moved?.text === text && moved.state.clock === from && clock > from && clock - from <= MOST_CLOCKS;
  const before = isNear ? moved.state : from === undefined ? null : machine.state(wholeNumber(words, "from"));
  const made = isNear ? machine.after(before, clock, moved.spare) : machine.state(clock);
  moved = {text, state: made, isOwn: isNear, spare: isNear && moved.isOwn ? before.words : null};
  return [before, made];
}

// Whether a plane may be written between two clocks: an act writes no bit of memory that it does not name. (To compare all of them takes long.)
function written(machine, from, clock) {
  if (!(clock >= from && clock - from <= MOST_CLOCKS)) return () => true;
  const named = new Set(machine.micros(from, clock - from).map(({place}) => place));
  return plane => plane >= machine.first.bits || named.has(plane);
}

// Enable after the last clock, as an image, and in how many pixels it is 1.
function enabled(text) {
  const last = px.state(text, px.counts(text).clocks), pixels = new Uint32Array(last.width * last.height), plane = last.planeOf("enable");
  fillBits(last, plane, pixels);
  return {pixels, count: onesOf(last, plane)};
}

// A small picture of key B after a clock: of some of its pixels the colours of their faces, at most so many in a row.
function thumb(text, words) {
  const scene = sceneIn(text), most = wholeNumber(words, "most", MOST_SMALL), own = px.state(text, wholeNumber(words, "clock"));
  const faces = own.numbers(0, scene.numberBits), colours = coloursOf(facesOf(scene));
  return sampled(scene, most, (x, y) => colours[faces[y * own.width + x]]);
}

// A picture of every so many pixels of one, at most so many a side, where `colour(x, y)` is red, green and blue.
function sampled({width, height}, most, colour) {
  const step = Math.ceil(Math.max(width, height) / Math.max(1, most)), [columns, rows] = [width, height].map(side => Math.ceil(side / step));
  const pixels = Uint32Array.from({length: columns * rows}, (_, place) =>
    packed(colour(place % columns * step, Math.floor(place / columns) * step)));
  return {width: columns, height: rows, pixels};
}

// The life of a pixel: enable after each operation, and the number in key B's face, 0 if the text is a listing.
function life(text, words) {
  const own = lifeIn(text, words), bits = isListing(text) ? 0 : sceneIn(text).numberBits, faces = new Uint16Array(own.enable.length);
  for (let place = 0; place < faces.length; place++) for (let bit = 0; bit < bits; bit++) faces[place] |= own.at(place, bit) << bit;
  return {enable: own.enable, faces};
}

function lifeIn(text, words) {
  const {width, height} = machineIn(text).first, x = wholeNumber(words, "x", width - 1), y = wholeNumber(words, "y", height - 1);
  if (lived?.text !== text || lived.x !== x || lived.y !== y) lived = {text, x, y, life: new Life(px, courseIn(text).operations, x, y)};
  return lived.life;
}

// The next clock, or the last one before, after which a pixel's enable, a bit of its memory or the face in its key B is another one.
function stop(text, words) {
  const own = lifeIn(text, words), {operations, clocks} = courseIn(text), now = wholeNumber(words, "clock", clocks), way = words.back ? -1 : 1;
  const what = {enable: () => "enable", bit: () => [wholeNumber(words, "bit", machineIn(text).first.bits - 1), 1],
    face: () => [0, isListing(text) ? 0 : sceneIn(text).numberBits]}[words.what]();
  const endOf = operation => operations[operation + 1]?.[3] ?? clocks;
  let operation = operations.findLastIndex(([, , , start]) => start <= now);
  for (; operation >= 0 && operation < operations.length; operation += way) {
    if (!own.isChanged(operation, what)) continue;
    const clock = own.clockOf(operation, what, endOf(operation));
    if (way * (clock - now) > 0) return {clock};
  }
  return {clock: null};
}

// What a pixel held after each of some clocks, and the microinstructions between them.
function wave(text, words) {
  const machine = machineIn(text), first = wholeNumber(words, "first"), last = wholeNumber(words, "last", machine.clocks);
  if (last < first || last - first >= MOST_CLOCKS) throw new Bad(`at most ${MOST_CLOCKS} clocks are shown at once`);
  const {width, height} = machine.first, x = wholeNumber(words, "x", width - 1), y = wholeNumber(words, "y", height - 1);
  const pixels = Array.from({length: last - first + 1}, (_, at) => machine.state(first + at).pixel(x, y));
  const micros = machine.micros(first, last - first).map(micro =>
    ({tree: micro.tree, lines: micro.lines, act: String(micro).split(" ").slice(micro.tree === "feed" ? 2 : 1).join(" ")}));
  return {first, last, pixels, micros};
}

// Another renderer's map compared with the picture, which the page has, or with a second map.
async function compare(text, words) {
  const read = async bytes => mapsOf(await rastersOf(bytes)), theirs = await read(words.map);
  const scene = words.second ? null : sceneIn(text), ours = scene ? words.picture ?? px.render(text) : await read(words.second);
  const far = scene?.far ?? 1 + Math.max(...[ours, theirs].map(greatest)), tolerance = wholeNumber(words, "tolerance", far);
  for (const maps of [ours, theirs]) fill(maps, far);
  const {lines, differences, kinds} = compared(ours, theirs, tolerance, scene?.faces ?? [], far);
  if (!differences) return {lines, groups: []};
  const groups = kinds.sorted.map(([kind, count]) => [count, kind]);
  return {lines, groups: groups.slice(0, MOST_GROUPS), width: ours.width, height: ours.height, rgb: pictureOf(ours, theirs, differences),
    marks: marksOf(differences.gaps.length, differences.at, kinds.kinds, kinds.sorted), depths: wordsOf(theirs.depths),
    faces: wordsOf(theirs.faces), ours: {depths: wordsOf(ours.depths), faces: wordsOf(ours.faces)}};
}

// The bytes that the program writes for a command.
const run = (text, {command}) => ({output: px.run(text, command)});

// A small picture of a scene, for the list of scenes.
function small(text, words) {
  const drawn = px.colour(text);
  return sampled(drawn, wholeNumber(words, "most", MOST_SMALL), (x, y) => drawn.rgb.subarray(3 * (y * drawn.width + x)));
}

// What of an answer is given to the page, and not copied.
const GIVEN = {draw: ["depths", "faces", "rgb"], state: ["words"]};
const QUESTIONS = {draw, ray, program: courseIn, state, wave, thumb, life, stop, enabled, compare, run, small};

// What the page says of a refusal; of a listing only the program's note.
const refused = (text, error) => isListing(text) ? {note: error.message, line: error.line, span: null, says: "", fix: null} : refusalOf(px, text, error);

async function answered({name, words, text}) {
  try {
    return await QUESTIONS[name](text, words);
  } catch (error) {
    if (error instanceof Refused && [MALFORMED, LIMIT].includes(error.status)) return {refused: refused(text, error)};
    if (error instanceof Refused && error.status === NO_CLOCK) return {trouble: `there is no such clock: ${error.message}`, clocks: error.clocks};
    if (error instanceof Bad || error instanceof Refused) return {trouble: error.message};
    throw error;
  }
}

// The first message has the module of the library, and each other one a question.
let ready = null, text = null;
globalThis.onmessage = async ({data}) => {
  clearTimeout(idle);
  if (data.module) {
    ready = load(data.module);
    return;
  }
  try {
    px = await ready;
    text = data.text ?? text;
    const answer = await answered({...data, text});
    postMessage(answer, (GIVEN[data.name] ?? []).flatMap(name => answer[name]?.buffer ?? []));
  } catch (error) {
    postMessage({failed: `${error.name}: ${error.message}`});
  }
};
