// The library in Node, which fetches no file: pxplanes.wasm is read from next to this one.
import {readFile} from "node:fs/promises";
import {load as loaded} from "./pxplanes.mjs";

export * from "./pxplanes.mjs";

const fromThisFolder = () => readFile(new URL("./pxplanes.wasm", import.meta.url));

export const load = (source = fromThisFolder()) => loaded(source);
