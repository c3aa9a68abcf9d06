// What a refusal of the library says of a text: the words of its cause, the columns of what is wrong, and the change that mends the line if
// exactly one known word is near and the library then accepts the line. `pxplanes explain` says more.
import {KEYWORDS, namesIn} from "./scene.js";

const NUMBER = /^-?[0-9]+$/, KEYS = 2;
// A number that has more digits is found as one of 19.
const DIGITS = 18;
const FORMS = {picture: "picture WIDTH HEIGHT", depth: "depth W, or in pxscene 3 depth W F", solid: "solid NAME R G B",
  front: "front A B C, or with a colour front A B C R G B", back: "back A B C, or with a colour back A B C R G B", side: "side A B C", end: "end"};

// Of each cause its words, and the columns of what is wrong in the places of the line's words, each its word and where it begins.
const whole = places => [places[0][1], places.at(-1)[1] + places.at(-1)[0].length];
const word = (places, at) => places[at] && [places[at][1], places[at][1] + places[at][0].length];
const CAUSES = {
  "not-header": ["The first line is pxscene 1, pxscene 2 or pxscene 3.", whole],
  "after-end": ["Nothing follows the end line.", places => word(places, 0)],
  "unexpected": ["The lines come in this order: pxscene, picture, depth, each solid with its planes, show, end.", places => word(places, 0)],
  "word-count": [first => `The line is ${FORMS[first]}.`, whole],
  "bad-name": ["A name has 1 to 32 letters, digits and _, and begins with no digit.", places => word(places, 1)],
  "second-name": ["A solid above has this name.", places => word(places, 1)],
  "not-number": ["A whole number is expected.",
    places => word(places, places.findIndex(([each], at) => at > (places[0][0] === "solid" ? 1 : 0) && !NUMBER.test(each)))],
  "bad-expression": ["Each operation has its own brackets: ((block - hole) + post).", places => whole(places.length > 1 ? places.slice(1) : places)],
  "unknown-name": ["No solid has this name.", (places, names) => word(places, places.findIndex(([each], at) => at && /\w/.test(each) && !names.has(each)))],
  "missing-end": ["The last line is end.", () => null]};

// The words of a line, or of an expression its names and signs, each with the column where it begins.
function placesOf(row) {
  const code = row.split("#")[0], pattern = /^[ \t\r]*show\b/.test(code) ? /[A-Za-z0-9_]+|[^ \t\r]/g : /[^ \t\r]+/g;
  return [...code.matchAll(pattern)].map(match => [match[0], match.index]);
}

// The columns of what passes a limit: the expression, the number that was found, or the first word.
function ofLimit(places, note) {
  const [kind, found] = note.split(" ").slice(-2), isLong = each => each.length > DIGITS;
  if (["leaves", "nesting"].includes(kind)) return whole(places.slice(1));
  const at = places.findIndex(([each]) => NUMBER.test(each) && (BigInt(each) === BigInt(found) || isLong(each) && isLong(found)));
  return word(places, Math.max(0, at));
}

// How many keys lead from a word to another one: letters more, less, other, or turned with the next.
function keysBetween(one, other) {
  const rows = [Array.from({length: other.length + 1}, (_, at) => at)];
  for (let i = 1; i <= one.length; i++) {
    rows[i] = [i];
    for (let j = 1; j <= other.length; j++) {
      const isTurned = i > 1 && j > 1 && one[i - 1] === other[j - 2] && one[i - 2] === other[j - 1];
      rows[i][j] = Math.min(rows[i - 1][j] + 1, rows[i][j - 1] + 1, rows[i - 1][j - 1] + (one[i - 1] === other[j - 1] ? 0 : 1),
        isTurned ? rows[i - 2][j - 2] + 1 : Infinity);
    }
  }
  return rows[one.length][other.length];
}

// Whether the library accepts a text, or its first bad line comes after this one.
function isAccepted(px, text, line) {
  try {
    px.check(text);
    return true;
  } catch (error) {
    if (!(error instanceof px.Refused)) throw error;
    return error.line > line;
  }
}

// The one change of a word that mends the line; null where none does, or several do.
function fixOf(px, text, line, span, names) {
  const lines = text.split("\n"), row = lines[line - 1], wrong = row.slice(...span);
  const near = [...KEYWORDS, ...names].filter(each => keysBetween(wrong, each) <= Math.min(KEYS, wrong.length - 1));
  const mended = each => [...lines.slice(0, line - 1), row.slice(0, span[0]) + each + row.slice(span[1]), ...lines.slice(line)].join("\n");
  const found = near.filter(each => isAccepted(px, mended(each), line));
  return found.length === 1 ? {row: line - 1, columns: span, words: found[0]} : null;
}

export function refusalOf(px, text, {message, line, cause}) {
  const row = text.split("\n")[line - 1] ?? "", places = placesOf(row), names = new Set(namesIn(text)), [says, find] = CAUSES[cause] ?? ["This is past a limit: docs/SCENES.md has them all.", ofLimit];
  const span = line && places.length ? find(places, cause ? names : message) ?? null : null;
  const isWord = ["unexpected", "unknown-name"].includes(cause) && span;
  return {note: message, line, span, says: typeof says === "string" ? says : says(places[0][0]), fix: isWord ? fixOf(px, text, line, span, names) : null};
}
