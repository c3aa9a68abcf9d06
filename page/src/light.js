// A face lights up everywhere at once: its line in the text, its passes on the time line, and its pixels in the images, from whichever of
// them the pointer is on.

export class Light {
  // The editor, the time line and the images that are added show it.
  constructor(editor, strip) {
    Object.assign(this, {editor, strip, images: [], faces: [], face: 0});
    editor.onLine = line => this.on(this.faces.find(each => each[4] === line)?.[0] ?? 0);
    strip.onFace = face => this.on(face);
  }

  // Another text: its faces as `draw` answers them; a listing has none.
  load(faces) {
    this.faces = faces ?? [];
    this.on(0);
  }

  // An image lights the pixels whose number is the face's; `numbers()` gives them, row by row of its canvas, or null.
  add(screen, numbers) { this.images.push([screen, numbers]); }

  on(face) {
    if (face === this.face) return;
    this.face = face;
    const own = this.faces.find(([number]) => number === face);
    this.editor.light(own?.[4] ?? 0);
    this.strip.light(face);
    this.again();
    document.body.dataset.lit = face;
  }

  // Some images are other ones now, or all of them.
  again(screens = this.images.map(([screen]) => screen)) {
    for (const [screen, numbers] of this.images) if (screens.includes(screen)) screen.glow(this.face ? numbers() : null, this.face);
  }
}
