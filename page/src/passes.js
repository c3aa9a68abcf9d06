// What the operations of a text are for, in words: docs/PASSES.md, step by step. Which they are the library says, with the step, the literal
// and the face of each; the words are those of the debugger.
import WORDS from "../../python/pxplanes/machine/words.json";

const SIGN_BIT = 40;
// What a pass is for, by the step that the library names; all others count a candidate against other faces.
const KINDS = {start: "start", open: "open", candidate: "candidate", merge: "merge"};
// The steps that make a face a candidate, or count it.
const OF_A_FACE = ["candidate", "front", "turn"];

// The operations by name (docs/LISTINGS.md).
export const NAMES = Object.keys(WORDS.operations);

// Words with values in the place of their names in braces.
const filled = (words, values) => words.replace(/\{(.+?)\}/g, (_, name) => values[name]);

// The faces of a solid in the order of their index: the near face and the fronts; the backs and the far limit.
function facesOf(solid) {
  const face = (number, said, isFront) => ({solid, number, said, isFront, ofSolid: `${said} of \`${solid.name}\``});
  const named = (kind, faces) => faces.map(({number}, at) => face(number, faces.length === 1 ? `the ${kind}` : `${kind} ${at + 1}`, kind === "front"));
  return [[face(solid.near, "the near face", true), ...named("front", solid.fronts)], [...named("back", solid.backs), face(0, "the far limit", false)]];
}

// What each edge of a face keeps: those of the sides, of the other faces of its kind, and of the faces of the other one.
function edgesOf(own) {
  const [fronts, backs] = facesOf(own.solid), [same, others] = own.isFront ? [fronts, backs] : [backs, fronts];
  const at = same.findIndex(each => each.said === own.said), [where, otherWay] = own.isFront ? ["behind", "before"] : ["before", "behind"];
  const edge = how => ({said}) => filled(WORDS.edge, {face: own.ofSolid, how, other: said});
  return [...own.solid.sides.map((_, side) => filled(WORDS.side, {side: side + 1, solid: own.solid.name})),
    ...same.slice(0, at).map(edge(where)), ...same.slice(at + 1).map(edge(`at or ${where}`)), ...others.map(edge(otherWay))];
}

const solidOf = (scene, literal) => scene.solids[Math.abs(literal) - 1];

// What a pass is for, and what each of its operations does; `operation` is any of them, and `own` has its literal and that one's product.
function passOf(scene, products, {role, solid, face: number, other}, own) {
  const {says, does} = WORDS.steps[role], face = solid ? facesOf(scene.solids[solid - 1]).flat().find(each => each.number === number) : null;
  const asked = other ? own.product.filter(each => Math.abs(each) !== Math.abs(own.literal))[other - 1] : null, values = {products: products.length, fraction: ""};
  if (own) {
    const spelled = own.product.map((literal, at) => (literal < 0 ? "- " : at ? "* " : "") + solidOf(scene, literal).name).join(" ");
    Object.assign(values, {product: own.number, spelled, name: solidOf(scene, own.literal).name});
  }
  if (asked) Object.assign(values, {asked: solidOf(scene, asked).name, outside: asked > 0 ? "outside" : "inside"});
  if (face) Object.assign(values, {number, face: face.ofSolid, which: face.said, solid: face.solid.name});
  const due = does.filter(words => scene.fractionBits || !words.startsWith("{fraction}"));
  return [filled(says, values), [spoken("all", []), ...due.flatMap(words => words === "{edges}" ? edgesOf(face) : [filled(words, values)])]];
}

// Of each operation of a scene's course its pass, its line, its words and its first clock; and of each pass its words, its kind and the
// number of the face that it is about, or 0; the number of its literal, and that literal's solid.
export function operationsOf(scene, products, course) {
  const literals = products.flatMap((product, at) => product.map(literal => ({product, number: at + 1, literal}))), said = [];
  let words = [], first = 0;
  const rows = course.map((operation, at) => {
    if (operation.pass === said.length) {
      const {role, face, literal} = operation, own = literals[literal - 1], solid = own && solidOf(scene, own.literal);
      const [says, does] = passOf(scene, products, operation, own);
      said.push({said: says, kind: KINDS[role] ?? "against", face: OF_A_FACE.includes(role) ? face : 0, literal, solid: own ? {
        name: solid.name, colour: solid.colour, literal: `product ${own.number}: ${own.literal < 0 ? "outside" : "inside"} ${solid.name}`} : null});
      [words, first] = [does, at];
    }
    return [operation.pass, String(operation), words[at - first], operation.clock];
  });
  return [rows, said];
}

// The same of a listing: a pass is what follows an `all`.
export function operationsOfListing(course) {
  let pass = 0;
  const rows = course.map((operation, at) => {
    if (operation.kind === "all" && at) pass += 1;
    return [pass, String(operation), spoken(operation.kind, operation.numbers), operation.clock];
  });
  return [rows, rows.length ? Array.from({length: pass + 1}, (_, at) => ({said: `pass ${at + 1} of the listing`, kind: "start", face: 0, literal: 0, solid: null})) : []];
}

// A linear form as one writes it.
function sumText(form) {
  let text = "";
  form.forEach((number, at) => {
    if (!number) return;
    const letter = ["x", "y", ""][at], size = Math.abs(number) === 1 && letter ? "" : String(Math.abs(number));
    text += (text ? number < 0 ? " - " : " + " : number < 0 ? "-" : "") + size + letter;
  });
  return text || "0";
}

const lettersOf = (name, numbers) => Object.fromEntries(WORDS.operations[name].form.split(" ").map((letter, at) => [letter, numbers[at]]));

// The fields of memory that an operation names, each its letter, its first bit and its length.
function fieldsOf(name, numbers) {
  const letters = lettersOf(name, numbers);
  return WORDS.operations[name].places.map(letter => [letter, letters[letter], letters.LEN ?? 1]);
}

// What an operation does, in words.
function spoken(name, numbers) {
  const fields = fieldsOf(name, numbers).map(([letter, at, length]) => [`memory ${letter}`, length > 1 ? `memory ${at} to ${at + length - 1}` : `memory ${at}`]);
  return filled(WORDS.operations[name].does, {...lettersOf(name, numbers), ...Object.fromEntries(fields), sum: sumText(numbers.slice(0, 3))});
}

function readLine(line) {
  const [name, ...words] = line.split(" ");
  return [name, words.map(Number)];
}

// The places in memory that an operation's line names, each a first bit and a length.
export const placesOf = line => fieldsOf(...readLine(line)).map(([, at, length]) => [at, length]);

// The form of an operation's line with the bits that it takes of it; null if it has none.
export function formOf(line) {
  const [name, numbers] = readLine(line), {A, B, C, LEN} = name ? lettersOf(name, numbers) : {};
  return A === undefined ? null : {form: [A, B, C], bits: LEN ?? SIGN_BIT};
}
