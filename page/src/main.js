// The page as a whole: what it opens and saves, which part of it is shown, and what is dropped on it.
import "./older.js";
import {load} from "../library/pxplanes.mjs";
import {Dropped, Trouble, ask, begin, newest} from "./ask.js";
import {Compare} from "./compare.js";
import {Drag} from "./drag.js";
import {stored} from "./drafts.js";
import {Editor} from "./editor.js";
import * as film from "./film.js";
import {library, offered, own, pageWith} from "./given.js";
import {listen} from "./keys.js";
import {Lesson} from "./lesson.js";
import {Light} from "./light.js";
import * as link from "./link.js";
import {BOX, List} from "./list.js";
import {Machine} from "./machine.js";
import {isPicture} from "./maps.js";
import {IMAGES, Picture} from "./picture.js";
import {rove} from "./rove.js";
import * as server from "./server.js";
import {Story} from "./story.js";
import * as take from "./take.js";
import {Texts} from "./texts.js";
import {at} from "./show.js";

const main = document.querySelector("main");
const TABS = ["write", "machine", "compare", "lesson"], PARTS = ["write", "machine", "compare"];
const MODELS = ["csg", "off", "stl"], TEXTS = ["scene", "listing"];
const LARGEST_DROP = 1 << 26, NOTICE_MS = 6000, SMALLEST = 12, LARGEST = 30, FIRST = "first", NOTHING = "none";
// What a page opens by itself, and how it is shown then: in the midst of being drawn, and going on.
const OPENING = "letters", SIGHT = {view: "best colours", beside: "", isPlayed: "pass", share: 0.55, pixel: [60, 180]};

// Where a text is opened at a clock, `pending` says it until the text is drawn; `stale` is what the machine has not taken.
// `drawn` is the text's tab that was drawn last.
const page = {tab: "write", pending: null, stale: null, drawn: null, asked: null, scenes: [], lesson: null, story: null};

function tell(error) {
  if (error instanceof Dropped) return;
  if (!(error instanceof Trouble)) console.error(error);
  note(error.message, true);
}

const editor = new Editor(at("editor")), texts = new Texts(editor, changed, tell);
const machine = new Machine(tell), compare = new Compare(tell), picture = new Picture(editor, tell, drawn, () => { page.pending = null; });
machine.isCurrent = () => machine.text === picture.text;
picture.onGo = line => {
  if (page.tab === "machine" && !main.classList.contains("with-text")) toggleText();
  editor.go(Math.max(1, line));
};

new Drag(editor, picture.screen, () => document.body.dataset.drawn !== "no");

// A face lights up in the text, on the time line and in both images.
const light = new Light(editor, machine.strip);
machine.screens.forEach(screen => light.add(screen, () => machine.faces()));
light.add(picture.screen, () => picture.maps?.faces ?? null);
machine.onPoint = pixel => light.on(pixel && machine.isShown && machine.head.layout ? machine.faceAt(...pixel) : 0);
machine.onShow = () => light.again(machine.screens);
machine.onScene = text => {
  open(untouched("triangle", text), text);
  choose("write");
};
picture.onPoint = pixel => light.on(pixel && picture.maps ? picture.maps.faces[pixel[1] * picture.head.width + pixel[0]] : 0);

// The text in the editor is another one: what is shown is not of it until it is drawn.
function changed(isOther) {
  const {now, text} = texts;
  if (isOther) {
    machine.stop();
    picture.screen.keep(null);
    document.title = `${now.name} - pxplanes`;
    at("save").title = `save ${now.file ?? now.name} (Ctrl+S)`;
  }
  // (two maps that are compared are of no text)
  for (const part of PARTS) at(part).classList.toggle("old", part !== "compare" || !compare.second);
  // (what is drawn of another text is no longer the machine's to take)
  if (page.stale?.text !== text) page.stale = null;
  newest(text);
  picture.changed(text, isOther);
  at("save").disabled = !texts.isChanged() && now.isServed;
}

function drawn(text, head, maps) {
  // (an edited text stays at the clock that is shown; another one begins at its own)
  const {now} = texts, place = page.pending?.of === text ? page.pending : now === page.drawn ? {clock: machine.wanted} : {clock: 0};
  page.drawn = now;
  page.stale = {text, head, ...place};
  light.load(head.facesOf);
  if (page.story.isOpen) page.story.tell(head);
  page.pending = null;
  freshen();
  if (maps) compare.load(text, head, maps);
  if (page.asked?.of === text) checkAsked(page.asked, head);
}

// Says which clock or pixel a link names that is not there.
function checkAsked({isMachine, clock = 0, pixel}, {width, height, clocks}) {
  page.asked = null;
  // (the array has a power of two of columns and rows)
  const [columns, rows] = [width, height].map(side => isMachine ? Math.max(2, 2 ** Math.ceil(Math.log2(side))) : side);
  if (clock > clocks) throw new Trouble(`There is no clock ${clock}: the last one, ${clocks}, is shown.`);
  if (pixel && (pixel[0] >= columns || pixel[1] >= rows)) throw new Trouble(`There is no pixel ${pixel.join(", ")} in ${columns} by ${rows}.`);
}

// Gives the machine the text in the editor, if the machine is shown.
function freshen() {
  if (page.tab !== "machine" || !page.stale) return;
  const {text, head, ...place} = page.stale;
  page.stale = null;
  machine.load(text, head, place).catch(tell);
}

function open(name, text, pending = null, more = {}) {
  page.pending = pending && {...pending, of: text};
  if (!pending) at("exercise").hidden = true;
  texts.add(name, text, more);
}

// Saves the text into its file: by the studio, which has one; by the browser's own dialog; or as a download.
async function save() {
  const {now, text} = texts;
  if (now.isServed) return saveThere(now, text);
  const name = now.name.replace(/ \d+$/, "") + ".scene";
  if (!globalThis.showSaveFilePicker) take.away(new Blob([text]), name);
  else if (!await saveHere(now, text, name)) return;
  texts.isSaved(now, text);
  document.body.dataset.saved = name;
}

async function saveThere(now, text) {
  const answer = await server.save(text, now.sum);
  now.sum = answer.sum;
  if (answer.changed !== undefined) return changedThere(now, now.file, answer.changed);
  texts.isSaved(now, text);
  if (texts.now === now) at("save").disabled = !texts.isChanged();
  document.body.dataset.saved = answer.saved;
}

// Another program wrote the file: what it has now opens in another tab, and this one stays.
function changedThere(now, file, text) {
  texts.addAside(`${now.name} on the disk`, text);
  throw new Trouble(`Another program changed ${file}, so nothing was written. Its text is open as "${now.name} on the disk". If you save again, yours takes its place.`);
}

// Whether the text was written to a file that is chosen; one that another program has changed since is not written.
async function saveHere(now, text, suggestedName) {
  try {
    if (now.handle) {
      const there = await (await now.handle.getFile()).text(), known = now.onDisk;
      now.onDisk = there;
      if (there !== known) return changedThere(now, now.handle.name, there);
    }
    now.handle ??= await showSaveFilePicker({suggestedName});
    const file = await now.handle.createWritable();
    await file.write(text);
    await file.close();
    now.onDisk = text;
    return true;
  } catch (error) {
    if (error instanceof Trouble) throw error;
    if (error.name === "AbortError") return false;
    throw new Trouble(`it was not saved: ${error.message}`);
  }
}

// A model becomes a scene, a text is opened, and everything that remains is taken for another renderer's map.
async function dropped(file) {
  const name = file.name.replace(/\.\w+$/, ""), kind = file.name.split(".").pop().toLowerCase();
  if (file.size > LARGEST_DROP) throw new Trouble(`${file.name} is larger than ${LARGEST_DROP >> 20} MiB`);
  if (MODELS.includes(kind)) {
    const {text} = await server.model(kind, file);
    open(name, text);
    return choose("write");
  }
  const bytes = new Uint8Array(await file.arrayBuffer());
  if (TEXTS.includes(kind) || !isPicture(bytes)) return open(name, readable(file.name, bytes));
  choose("compare");
  await compare.take(file);
}

function readable(name, bytes) {
  try {
    return new TextDecoder("utf-8", {fatal: true, ignoreBOM: true}).decode(bytes);
  } catch {
    throw new Trouble(`${name} is no text of UTF-8, and the page would change it`);
  }
}

// The text in the editor with what is shown of it.
function shown() {
  const place = page.tab === "machine" ? {clock: machine.wanted, view: machine.view, beside: machine.beside, pixel: machine.pixel} : {pixel: picture.screen.kept};
  return {name: texts.now.name, text: texts.text, tab: page.tab === "lesson" ? "write" : page.tab, image: picture.image, ...place};
}

// Opens such a text; a film has the machine alone, and plays. What a link or a page says wrongly is named, and left out.
function show(scene, more) {
  const wrong = [], own = Object.fromEntries(Object.entries(scene).filter(([name, value]) => {
    const isRight = RIGHT[name]?.(value) ?? false;
    if (!isRight) wrong.push(`${name} ${JSON.stringify(value)}`);
    return isRight;
  }));
  const {name = "scene", text, tab = "write", image, clock, view, beside, pixel, isFilm} = own, isMachine = tab === "machine";
  if (isFilm) document.body.classList.add("film");
  open(name, text, isMachine ? {clock, view, beside, pixel, isPlayed: isFilm && "operation"} : null, more);
  if (image) picture.choose(image);
  if (!isMachine && pixel) picture.screen.keep(pixel);
  choose(tab);
  page.asked = {of: text, isMachine, clock, pixel};
  if (wrong.length) throw new Trouble(`The link is wrong in ${wrong.join(", ")}. The rest of it is shown.`);
}

// What a scene in a link or in a page may say.
const isText = value => typeof value === "string", isClock = value => Number.isSafeInteger(value) && value >= 0;
const RIGHT = {
  name: isText, text: isText, tab: value => TABS.includes(value), image: value => IMAGES.includes(value), clock: isClock, view: isText,
  beside: isText, isFilm: value => typeof value === "boolean",
  pixel: value => value === null || Array.isArray(value) && value.length === 2 && value.every(isClock)};

// Shows what the address names after its #; whether it names anything.
async function followAddress() {
  const part = location.hash.slice(1), read = link.read(part);
  if (!part) return false;
  const step = /^story-(\d+)$/.exec(part);
  if (step && page.story.begin(Number(step[1]))) return true;
  const {scene: name, exercise, ...shown} = read ?? {};
  const found = name && page.scenes.find(([, each]) => each === name);
  const scene = read ? found && {name: untouched(name, found[2]), text: found[2], tab: "clock" in shown || "view" in shown ? "machine" : "write", ...shown}
    : await link.unpacked(part);
  if (exercise !== undefined && page.lesson.begin(exercise, shown.clock)) return true;
  if (!scene) throw new Trouble(read ? `This page has no ${name ? `scene ${name}` : `exercise ${exercise ?? ""}`}: the link is wrong.`
    : "The link is damaged or cut short: it holds no scene.");
  show(scene);
  return true;
}

// Copies a link to what is shown, or shows it where the browser does not let the page copy. The address of a studio is for its owner alone:
// then the link is one to the file of the page.
async function copyLink(isFrame) {
  const page = server.isServed() ? "pxplanes.html" : location.href.split(/[?#]/)[0], part = "#" + await link.packed(shown());
  const address = isFrame ? `<iframe src="${page}?embed${part}" width="960" height="600" title="pxplanes"></iframe>` : page + part;
  document.body.dataset.link = address;
  try {
    await navigator.clipboard.writeText(address);
  } catch {
    // (a page from plain http has no clipboard, and a browser may refuse)
    at("copy-link").value = address;
    at("copy").showModal();
    return at("copy-link").select();
  }
  note(server.isServed() ? "The link is copied. It begins with pxplanes.html: write the place of that file before it." : "The link is copied.");
}

// Only the text itself is taken away while what is shown is not of it.
async function takeAway(what) {
  const {name} = texts.now;
  if (what === "scene") return take.away(new Blob([texts.text]), name + ".scene");
  if (what === "link" || what === "embed") return copyLink(what === "embed");
  if (what === "page") return take.away(new Blob([pageWith(shown())], {type: "text/html"}), name + ".html");
  if (!picture.isFresh || PARTS.includes(page.tab) && at(page.tab).classList.contains("old"))
    throw new Trouble("what is shown is not of this text: it is refused, or not drawn yet");
  if (what === "film") return askForFilm();
  if (what === "png") {
    const compared = page.tab === "compare" && !at("differences").hidden;
    return take.away(await take.png(at(page.tab === "machine" ? "array" : compared ? "differences" : "picture")), name + ".png");
  }
  if (!picture.maps) throw new Trouble("there is no picture");
  const {output, trouble} = await ask("run", {command: {maps: "render", colours: "colour"}[what]}, texts.text);
  if (trouble) throw new Trouble(trouble);
  take.away(new Blob([output]), `${name}-${what}.ppm`);
}

// Asks which stretch is filmed, and how; the machine is on its way where it was not shown yet.
async function askForFilm() {
  choose("machine");
  if (!machine.course) throw new Trouble("the machine is not there yet: ask once more");
  machine.stop();
  at("film-first").value = machine.wanted === machine.course.clocks ? 0 : machine.wanted;
  at("film-last").value = machine.course.clocks;
  if (!film.webmForm()) throw new Trouble("this browser records no WebM, so it makes no film");
  at("film").returnValue = "";
  at("film").showModal();
}

async function takeFilm() {
  const [first, last, speed] = ["first", "last", "speed"].map(name => Number(at("film-" + name).value)), {clocks} = machine.course;
  if (![first, last].every(clock => Number.isInteger(clock) && clock >= 0 && clock <= clocks) || first > last)
    throw new Trouble(`a film goes from a clock to a later one, from 0 to ${clocks}`);
  if (!Number.isInteger(speed) || speed < 1 || speed > 60) throw new Trouble("a film has 1 to 60 pictures a second");
  const stops = film.stretch(machine.course, first, last, at("film-pace").value);
  const pictures = await machine.pictures(stops, count => note(`a film: ${count} of ${stops.length} pictures`));
  note("a film: the browser records it");
  const blob = await film.webm(pictures, speed);
  take.away(blob, `${texts.now.name}-film.webm`);
  note(`a film of ${stops.length} pictures, ${Math.ceil(blob.size / 1024)} KiB`);
}

// Says something; trouble is red, and is read aloud at once.
function note(words, isTrouble = false) {
  const notice = at("notice");
  notice.setAttribute("role", isTrouble ? "alert" : "status");
  notice.classList.toggle("bad", isTrouble);
  notice.textContent = words;
  notice.hidden = false;
  clearTimeout(note.timer);
  note.timer = setTimeout(() => { notice.hidden = true; }, NOTICE_MS);
}

function choose(tab) {
  page.tab = tab;
  main.dataset.tab = tab;
  for (const each of TABS) {
    at(each).hidden = each !== tab;
    at("tab-" + each).setAttribute("aria-selected", String(each === tab));
  }
  if (tab !== "machine") machine.stop();
  if (tab !== "machine") teach(false);
  freshen();
  machine.strip.drawPasses();
}

function letters(way) {
  const root = document.documentElement, now = parseFloat(getComputedStyle(root).fontSize);
  root.style.fontSize = Math.max(SMALLEST, Math.min(LARGEST, now + 2 * way)) + "px";
  remember({letters: root.style.fontSize});
  editor.code.refresh();
}

function theme() {
  showTheme(document.documentElement.dataset.theme === "dark" ? "light" : "dark");
  remember({theme: document.documentElement.dataset.theme});
}

// Shows a theme, or the system's.
function showTheme(name = isDark.matches ? "dark" : "light") {
  document.documentElement.dataset.theme = name;
  machine.strip.drawPasses();
}

// Theme and size of letters stay, where the browser keeps anything for the page.
const LOOK = "pxplanes look", isDark = matchMedia("(prefers-color-scheme: dark)");

const remembered = () => stored(store => JSON.parse(store.getItem(LOOK))) ?? {};

function remember(more) { stored(store => store.setItem(LOOK, JSON.stringify({...remembered(), ...more}))); }

function toggleText() { if (!own?.isFilm) at("show-text").setAttribute("aria-pressed", String(main.classList.toggle("with-text"))); }

function teach(isOn = !document.body.classList.contains("teaching")) { document.body.classList.toggle("teaching", isOn); }

function write() {
  if (own?.isFilm) return;
  if (page.tab === "machine" && !main.classList.contains("with-text")) toggleText();
  if (page.tab === "lesson") choose("write");
  editor.focus();
}

function nextImage(way) { page.tab === "machine" ? machine.nextView(way) : picture.nextImage(way); }

const nameOf = file => file.replace(/\.scene$/, "");

// Opens the first text: the studio's file, a scene in the address, the page's own, a draft, or a scene of the gallery that the machine
// is drawing.
async function opened(scenes) {
  const head = await server.begin(), named = name => scenes.find(each => each[1] === name);
  const served = head?.name && {isServed: true, file: head.name, sum: head.sum}, [, name, text] = named(OPENING);
  await texts.begin();
  // (a file that is not there begins as the first scene of the documents)
  if (served && head.sum === NOTHING) open(nameOf(head.name), named(FIRST)[2], null, {...served, saved: ""});
  else if (served) open(nameOf(head.name), head.text, null, served);
  texts.restore();
  const isDraft = texts.open.length > (served ? 1 : 0);
  if (own) show(own);
  const isLinked = await followAddress().catch(tell);
  if (own || isLinked) return;
  if (served && isDraft) texts.choose(texts.open[0]);
  if (served || isDraft) return;
  if (!remembered().hasSeenStory && page.story.begin(1)) return;
  open(name, text, SIGHT);
  choose("machine");
}

// The name for a text of the page that is shown as the page has it: its own, unless a tab of that name was changed.
function untouched(name, text) {
  const isOther = each => each.base !== text || texts.isChanged(each);
  let free = name;
  for (let number = 2; texts.open.some(each => each.name === free && isOther(each)); number++) free = `${name} ${number}`;
  return free;
}

// Shows a step of the story.
function showStep({scene: name, exercise, place}) {
  const own = exercise ? page.lesson.exercises.find(({number}) => number === exercise) : null;
  const text = own ? own.text : page.scenes.find(each => each[1] === name)[2];
  at("exercise").hidden = true;
  if (main.classList.contains("with-text")) toggleText();
  open(untouched(own ? nameOf(own.name) : name, text), text, {beside: "", ...place});
  choose("machine");
}

async function start() {
  document.body.classList.toggle("embed", new URLSearchParams(location.search).has("embed"));
  const look = remembered();
  showTheme(look.theme);
  isDark.addEventListener("change", () => showTheme(remembered().theme));
  if (look.letters) document.documentElement.style.fontSize = look.letters;
  let given = null;
  try {
    await begin();
    given = await offered();
  } catch (error) {
    at("needs").append(` ${error.message}.`);
    at("needs").style.animation = "none";
    return;
  }
  at("needs").hidden = true;
  new List(given.gallery, (name, text) => { open(name, text); if (page.tab === "lesson") choose("write"); },
    () => { open(untouched("new", BOX), BOX); choose("write"); editor.focus(); }, tell);
  at("version").textContent = `Version ${given.version}.`;
  page.scenes = given.gallery;
  page.story = new Story(showStep, () => remember({hasSeenStory: true}));
  at("tell").addEventListener("click", () => page.story.begin(1));
  page.lesson = new Lesson(given.lesson, ({name, text, view, pixel}, clock, isOpen) => {
    if (isOpen && page.tab === "machine" && machine.text === text && texts.text === text) return machine.go(clock);
    open(untouched(nameOf(name), text), text, {clock, view, pixel});
    choose("machine");
  });
  await opened(given.gallery);
}

TABS.forEach(tab => at("tab-" + tab).addEventListener("click", () => choose(tab)));
rove(document.querySelector(".tabs"), "[role=tab]", true);
at("file").addEventListener("change", () => {
  const file = at("file").files[0];
  if (file) dropped(file).catch(tell).then(() => { at("file").value = ""; });
});
at("save").addEventListener("click", () => save().catch(tell));
at("as-it-was").addEventListener("click", () => texts.asItWas());
at("smaller").addEventListener("click", () => letters(-1));
at("larger").addEventListener("click", () => letters(1));
at("theme").addEventListener("click", theme);
at("help").addEventListener("click", () => at("keys").showModal());
at("film").addEventListener("close", () => { if (at("film").returnValue) takeFilm().catch(tell); });
at("show-text").addEventListener("click", toggleText);
at("take").addEventListener("click", event => {
  if (!event.target.dataset.take) return;
  at("take").open = false;
  takeAway(event.target.dataset.take).catch(tell);
});
document.addEventListener("click", event => {
  for (const menu of ["take", "gallery"]) if (!at(menu).contains(event.target)) at(menu).open = false;
});
document.addEventListener("dragover", event => { event.preventDefault(); document.body.classList.add("dragging"); });
document.addEventListener("dragleave", event => { if (!event.relatedTarget) document.body.classList.remove("dragging"); });
document.addEventListener("drop", event => {
  event.preventDefault();
  document.body.classList.remove("dragging");
  if (event.dataTransfer.files[0]) dropped(event.dataTransfer.files[0]).catch(tell);
});
addEventListener("hashchange", () => followAddress().catch(tell));
listen({
  save: () => save().catch(tell), choose: number => choose(TABS[number]), parts: own?.isFilm ? 0 : TABS.length, letters, write, nextImage, teach: () => teach(), stop: way => machine.stopAt(way).catch(tell), teachNoMore: () => teach(false),
  toggleText, isMachine: () => page.tab === "machine", machine});
// For whoever asks by the browser's console (docs/STUDIO.md).
globalThis.studio = {ask, editor, machine, library: async () => load(await library())};
start().catch(tell);
