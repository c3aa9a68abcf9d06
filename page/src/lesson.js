// The exercises of the lesson: a question each, an answer to unfold, and the scene and clock where it opens.
import {at, made} from "./show.js";

// A text of the documents as elements: paragraphs, blocks between ``` lines, and `code`, **bold**, links and clocks within; `clock(words)` makes a button of these.
export function prose(text, clock) {
  return text.split(/^```\w*\n/m).flatMap((part, number) => {
    if (number % 2) return [made("pre", "", part.replace(/\n$/, ""))];
    const pieces = part.split(/\n\n+/).filter(each => each.trim());
    return pieces.map(each => made("p", "", "", ...inline(each.replace(/\n/g, " "), clock)));
  });
}

function inline(text, clock = null) {
  return text.split(/(`[^`]*`|\*\*[^*]*\*\*|\[[^\]]*\]\([^)]*\)|\bclocks? \d+)/).map(part => {
    if (part.startsWith("`")) return made("code", "", part.slice(1, -1));
    if (part.startsWith("**")) return made("b", "", part.slice(2, -2));
    if (part.startsWith("[")) return document.createTextNode(part.slice(1, part.indexOf("]")));
    return clock && /^clocks? \d+$/.test(part) ? clock(part, Number(part.split(" ")[1])) : document.createTextNode(part);
  });
}

// A number to type, which says whether it is right.
function asked([name, number]) {
  const field = Object.assign(made("input"), {inputMode: "numeric", size: 5}), said = made("span", "marked");
  said.setAttribute("role", "status");
  field.addEventListener("change", () => {
    const word = field.value.trim(), isRight = Number(word) === number;
    said.className = `marked ${isRight ? "right" : ""}`;
    said.textContent = !word ? "" : isRight ? "right" : "not so";
  });
  return made("label", "", `${name} `, field, " ", said);
}

export class Lesson {
  // `open` is called with an exercise, a clock, and whether the exercise is open already.
  constructor(exercises, open) {
    Object.assign(this, {exercises, open});
    let last = null;
    exercises.forEach(each => {
      if (each.part !== last) at("exercises").append(made("h2", "", each.part));
      last = each.part;
      const button = made("button", "exercise", "", made("b", "", this.name(each)), made("span", "", "", ...inline(each.question)),
        made("span", "quiet", `${each.name}, clock ${each.clock}`));
      button.addEventListener("click", () => this.begin(each.number || 0));
      at("exercises").append(button);
    });
    at("exercise-close").addEventListener("click", () => { at("exercise").hidden = true; });
  }

  // Opens an exercise by its number, the page's own by 0, at its clock or at another one; whether there is such a one.
  begin(number, clock) {
    const place = this.exercises.findIndex(each => (each.number || 0) === number);
    if (place < 0) return false;
    this.open(this.exercises[place], clock ?? this.exercises[place].clock, false);
    this.show(place);
    return true;
  }

  name(each) { return each.number ? `Exercise ${each.number}` : "A triangle"; }

  show(number) {
    const each = this.exercises[number];
    at("exercise").hidden = false;
    at("exercise-answer").open = false;
    at("exercise-name").textContent = this.name(each);
    at("exercise-question").replaceChildren(...inline(each.question));
    const button = (words, clock) => {
      const own = made("button", "to-clock", words);
      own.title = `go to clock ${clock}`;
      own.addEventListener("click", () => this.open(each, clock, true));
      return own;
    };
    at("exercise-asks").replaceChildren(...each.asks.map(asked));
    at("exercise-answer").querySelector("div").replaceChildren(...prose(each.answer, (words, clock) => button(words, each.counts + clock)),
      ...each.seen === null ? [] : [button(`Go to clock ${each.seen}`, each.seen)]);
  }
}
