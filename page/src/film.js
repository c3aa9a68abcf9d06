// A film of the machine: what is shown large at each place of a stretch, as WebM, which the browser records.
import {Trouble} from "./ask.js";
import {made, put} from "./show.js";
import {enlarging} from "./take.js";

const MOST = 1000, SIDE = 512, FORMS = ["video/webm;codecs=vp9", "video/webm;codecs=vp8", "video/webm"];

// The clocks of a stretch: its ends, and the places between them by clocks, operations or passes.
export function stretch(course, first, last, pace) {
  const clocks = [first];
  while (clocks.at(-1) < last) clocks.push(Math.min(last, course.moved(`${pace}-on`, clocks.at(-1))));
  if (clocks.length > MOST) throw new Trouble(`a film has at most ${MOST} pictures, and this stretch ${clocks.length}: take fewer clocks, or operations or passes`);
  return clocks;
}

// Which form of WebM the browser makes; undefined where it makes none.
export const webmForm = () => globalThis.MediaRecorder && FORMS.find(form => MediaRecorder.isTypeSupported(form));

// A film of pictures of one size, so many a second, recorded while they are shown to the browser.
export async function webm(pictures, perSecond) {
  const {width, height} = pictures[0], small = Object.assign(made("canvas"), {width, height}), {canvas, draw} = enlarging(small, SIDE), parts = [];
  const recorder = new MediaRecorder(canvas.captureStream(), {mimeType: webmForm(), videoBitsPerSecond: 8e6});
  recorder.ondataavailable = ({data}) => parts.push(data);
  const ended = new Promise(done => { recorder.onstop = done; }), wait = () => new Promise(done => setTimeout(done, 1000 / perSecond));
  recorder.start();
  for (const picture of pictures) {
    put(small, picture.pixels);
    draw(small);
    await wait();
  }
  await wait();
  recorder.stop();
  await ended;
  return new Blob(parts, {type: "video/webm"});
}
