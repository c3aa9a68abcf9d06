// The words of a page that stand out from their ground by less than WCAG 2's level AA asks: 4.5 to 1, and 3 to 1 for large letters.
() => {
  const pen = Object.assign(document.createElement("canvas"), {width: 1, height: 1}).getContext("2d", {willReadFrequently: true});

  // Red, green, blue and opacity of a colour of CSS.
  function partsOf(colour) {
    pen.clearRect(0, 0, 1, 1);
    pen.fillStyle = colour;
    pen.fillRect(0, 0, 1, 1);
    const [red, green, blue, opacity] = pen.getImageData(0, 0, 1, 1).data;
    return [red, green, blue, opacity / 255];
  }

  const over = ([r, g, b, a], [red, green, blue]) => [r * a + red * (1 - a), g * a + green * (1 - a), b * a + blue * (1 - a), 1];

  // What lies behind an element: the grounds of its ancestors, the nearest on top.
  const groundOf = each => each ? over(partsOf(getComputedStyle(each).backgroundColor), groundOf(each.parentElement)) : [255, 255, 255, 1];

  const light = part => part / 255 <= 0.04045 ? part / 255 / 12.92 : ((part / 255 + 0.055) / 1.055) ** 2.4;
  const luminance = ([r, g, b]) => 0.2126 * light(r) + 0.7152 * light(g) + 0.0722 * light(b);

  function contrast(each) {
    const ground = groundOf(each), [dark, bright] = [luminance(over(partsOf(getComputedStyle(each).color), ground)), luminance(ground)]
      .sort((one, other) => one - other);
    return (bright + 0.05) / (dark + 0.05);
  }

  const isPale = each => each && (Number(getComputedStyle(each).opacity) < 1 || isPale(each.parentElement));
  const found = [];
  for (const each of document.querySelectorAll("body *")) {
    const hasWords = [...each.childNodes].some(node => node.nodeType === 3 && node.textContent.trim());
    // (what is pale is not of the text, or is not to be used, and says so elsewhere)
    if (!hasWords || each.matches("svg *, script, option, optgroup") || !each.checkVisibility({checkVisibilityCSS: true}) || isPale(each)) continue;
    const {fontSize, fontWeight} = getComputedStyle(each), size = parseFloat(fontSize);
    const least = size >= 24 || size >= 18.66 && fontWeight >= 700 ? 3 : 4.5, own = contrast(each);
    if (own < least) found.push(`${each.tagName.toLowerCase()} ${each.className} "${each.textContent.trim().slice(0, 20)}": ${own.toFixed(2)}`);
  }
  return [...new Set(found)];
}
