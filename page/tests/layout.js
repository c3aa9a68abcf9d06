// The findings of a page, in words: texts, fields and images that overlap, words that are cut, and parts that scroll
// sideways.
() => {
  const INSIDE = ".CodeMirror *, svg *, .mark, .frame, .lit, .lines, .edge, .handles, .grip, .sheet, .corner, .predicted *, #under *, "
    + "dialog:not([open]) *, option, optgroup, [aria-hidden=true] *";
  const HELD = ".CodeMirror, .stage.zoomed", FIELDS = "button, input, select, canvas, summary, svg";
  const hasWords = each => [...each.childNodes].some(node => node.nodeType === 3 && node.textContent.trim());
  const found = new Set(), {innerWidth} = window;

  function nameOf(each) {
    const kind = each instanceof SVGElement ? `svg in #${each.parentElement.id}` : each.tagName.toLowerCase();
    const own = each.id ? `#${each.id}` : typeof each.className === "string" && each.className
      ? `${kind}.${each.className.split(" ")[0]}` : kind;
    return `${own} ${JSON.stringify(each.textContent.trim().slice(0, 24))}`;
  }

  // The part of a box that is in sight: what the ancestors of its element do not cut.
  function seen(each) {
    let {left, top, right, bottom} = each.getBoundingClientRect(), isFixed = getComputedStyle(each).position === "fixed";
    for (let up = each.parentElement; up && !isFixed; up = up.parentElement) {
      const style = getComputedStyle(up), box = up.getBoundingClientRect();
      isFixed = style.position === "fixed";
      if (style.overflowX !== "visible") [left, right] = [Math.max(left, box.left), Math.min(right, box.right)];
      if (style.overflowY !== "visible") [top, bottom] = [Math.max(top, box.top), Math.min(bottom, box.bottom)];
    }
    return {left, top, right, bottom};
  }

  // The boxes of an element; words that run over several lines have one for each.
  function boxesOf(each) {
    const whole = seen(each), isInline = getComputedStyle(each).display === "inline";
    return (isInline ? [...each.getClientRects()] : [whole]).map(({left, top, right, bottom}) => [each, {
      left: Math.max(left, whole.left), top: Math.max(top, whole.top), right: Math.min(right, whole.right),
      bottom: Math.min(bottom, whole.bottom)}]);
  }

  function overlaps([one, a], [other, b]) {
    if (one.contains(other) || other.contains(one)) return;
    const wide = Math.min(a.right, b.right) - Math.max(a.left, b.left);
    const high = Math.min(a.bottom, b.bottom) - Math.max(a.top, b.top);
    if (wide > 2 && high > 2) found.add(`${nameOf(one)} lies over ${nameOf(other)}`);
  }

  function isCut(each) {
    const style = getComputedStyle(each), isHidden = !["visible", "auto"].includes(style.overflowX);
    if (hasWords(each) && isHidden && each.clientWidth && each.scrollWidth > each.clientWidth + 1)
      found.add(`${nameOf(each)} is cut: ${each.scrollWidth} in ${each.clientWidth}`);
    if (!each.matches("select")) return;
    const pen = document.createElement("canvas").getContext("2d");
    pen.font = style.font;
    const words = pen.measureText(each.selectedOptions[0]?.textContent ?? "").width;
    // (a select has its arrow next to the words)
    const needed = words + 2 * parseFloat(style.paddingLeft) + 18;
    if (needed > each.clientWidth + 1) found.add(`${nameOf(each)} is cut: ${Math.round(needed)} in ${each.clientWidth}`);
  }

  function isBeside(each) {
    const {left, right} = each.getBoundingClientRect();
    if ((left < -1 || right > innerWidth + 1) && !each.closest(HELD))
      found.add(`${nameOf(each)} is outside the window: ${Math.round(left)} to ${Math.round(right)}`);
  }

  function scrolls(each) {
    const canScroll = ["auto", "scroll"].includes(getComputedStyle(each).overflowX) && each.clientWidth > 0;
    if (canScroll && each.checkVisibility() && !each.closest(HELD) && each.scrollWidth > each.clientWidth + 1)
      found.add(`${nameOf(each)} scrolls sideways: ${each.scrollWidth} in ${each.clientWidth}`);
  }

  const shown = [...document.querySelectorAll("body *")].filter(each => !each.matches(INSIDE) && !each.closest("script")
    && each.checkVisibility({checkVisibilityCSS: true}) && (hasWords(each) || each.matches(FIELDS)));
  const boxes = shown.flatMap(boxesOf).filter(([, box]) => box.right - box.left > 1 && box.bottom - box.top > 1);
  boxes.forEach((one, at) => boxes.slice(at + 1).forEach(other => overlaps(one, other)));
  for (const each of new Set(boxes.map(([each]) => each))) {
    isCut(each);
    isBeside(each);
  }
  document.querySelectorAll("body, main, main *").forEach(scrolls);
  if (document.documentElement.scrollWidth > innerWidth) found.add("the page scrolls sideways");
  return [...found];
}
