// One tab stop for many buttons: arrow keys go from one to the next, Home and End to the ends.
import {made} from "./show.js";

const isChosen = each => [each.getAttribute("aria-checked"), each.getAttribute("aria-selected")].includes("true");

// `root` holds the buttons that a selector finds, also such as come later; if `isChoice`, the one that gets the focus by a key is chosen too.
export function rove(root, selector, isChoice = false) {
  const all = () => [...root.querySelectorAll(selector)];
  const stop = now => { for (const each of all()) each.tabIndex = each === now ? 0 : -1; };
  const first = () => { if (isChoice || all().filter(each => each.tabIndex === 0).length !== 1) stop(all().find(isChosen) ?? all()[0]); };
  root.addEventListener("focusin", event => { if (event.target.matches(selector)) stop(event.target); });
  root.addEventListener("keydown", event => {
    const buttons = all(), place = buttons.indexOf(document.activeElement);
    const to = {ArrowLeft: place - 1, ArrowUp: place - 1, ArrowRight: place + 1, ArrowDown: place + 1, Home: 0, End: buttons.length - 1}[event.key];
    if (place < 0 || to === undefined || event.ctrlKey || event.altKey || event.metaKey || event.defaultPrevented) return;
    event.preventDefault();
    event.stopPropagation();
    const next = buttons[isChoice ? (to + buttons.length) % buttons.length : Math.max(0, Math.min(buttons.length - 1, to))];
    next.focus();
    if (isChoice) next.click();
  });
  new MutationObserver(first).observe(root, {childList: true, subtree: true, attributeFilter: ["aria-checked", "aria-selected"]});
  first();
}

// Fills `root` with a button for each of some names, of which one is chosen; each has its name as its `data-` word, and `choose` is called with
// it. Gives what marks the chosen one.
export function choice(root, word, names, choose) {
  const buttons = names.map(name => {
    const button = made("button", "", name);
    button.dataset[word] = name;
    button.setAttribute("role", "radio");
    button.addEventListener("click", () => choose(name));
    return button;
  });
  root.append(...buttons);
  rove(root, "button", true);
  return name => buttons.forEach(each => each.setAttribute("aria-checked", String(each.dataset[word] === name)));
}

// Puts the focus on the button that Tab would reach.
export function enter(root) { root.querySelector("[tabindex='0']")?.focus(); }
