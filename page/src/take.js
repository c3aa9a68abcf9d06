// What may be taken away as a file by the browser.

// A canvas for an image of a size, each of its pixels as large as fits into a side, and `draw`, which draws such an image of another canvas on it.
export function enlarging({width, height}, side) {
  const factor = Math.max(1, Math.floor(side / Math.max(width, height)));
  const canvas = Object.assign(document.createElement("canvas"), {width: width * factor, height: height * factor}), pen = canvas.getContext("2d");
  pen.imageSmoothingEnabled = false;
  return {canvas, draw: image => pen.drawImage(image, 0, 0, canvas.width, canvas.height)};
}

export function png(image) {
  const {canvas, draw} = enlarging(image, 1024);
  draw(image);
  return new Promise(done => canvas.toBlob(done, "image/png"));
}

export function away(blob, name) {
  const link = Object.assign(document.createElement("a"), {href: URL.createObjectURL(blob), download: name});
  link.click();
  setTimeout(() => URL.revokeObjectURL(link.href), 10000);
}
