// What the oldest browsers with SIMD (Safari 16.4, Chromium 91, Firefox 89) lack of what the page calls.
function add(Kind, name, value) { if (!Kind.prototype[name]) Object.defineProperty(Kind.prototype, name, {value, writable: true, configurable: true}); }

add(Array, "at", function at(place) { return this[place < 0 ? this.length + place : place]; });
add(Array, "findLastIndex", function findLastIndex(is) {
  let place = this.length - 1;
  while (place >= 0 && !is(this[place], place)) place -= 1;
  return place;
});
add(Array, "findLast", function findLast(is) { return this[this.findLastIndex(is)]; });

// (a dialog that closes itself, and lies over the page)
for (const dialog of globalThis.document?.querySelectorAll("dialog") ?? []) {
  if (dialog.showModal) continue;
  Object.assign(dialog.style, {position: "fixed", top: "10%", left: "10%", zIndex: 9, padding: "1rem"});
  dialog.showModal = () => dialog.setAttribute("open", "");
  dialog.addEventListener("submit", event => {
    event.preventDefault();
    dialog.returnValue = event.submitter?.value ?? "";
    dialog.removeAttribute("open");
    dialog.dispatchEvent(new Event("close"));
  });
}
