"""Hosts the page, and the ES module with its library next to it, and looks at both in a browser."""
import functools
import http.server
import os
import shutil
import sys
import threading

sys.path[:0] = [os.path.join(os.getcwd(), folder) for folder in ("page/tests", "tools/lib", "python")]
from pxplanes import ends
import web_page
from browser import Browser

SAYS = """import {load} from "./pxplanes.mjs";
const said = [];
try {
  const px = await load(), text = await (await fetch("first.scene")).text(), {width, depths, faces} = px.render(text);
  said.push(depths[16 * width + 24], faces[16 * width + 24], px.colour(text).rgb.length, px.products(text).join(" | "));
  const state = px.state(text, 3000), [moved] = px.hasClocks ? [px.clocks(state, px.packed(text, 3000, 7))] : [px.state(text, 3007).words];
  said.push(String(state.next), px.state(text, 3007).words.every((word, at) => word === moved[at]), px.machine(text).state(3007).clock);
  for (const call of [() => px.render("pxscene 1\\nx\\n"), () => px.check("pxscene 1\\npicture 513 1\\n"), () => px.state(text, 5397), () => px.render("")]) {
    try { call(); } catch (error) {
      said.push([error instanceof px.Refused, error.message, error.status, error.line, error.cause, error.kind, error.number, error.clocks].join(" "));
    }
  }
} catch (error) { said.push(String(error)); }
if (!globalThis.document) postMessage(said);
else document.body.dataset.said = JSON.stringify(said);
"""
PAGE = '<!DOCTYPE html><body><script type="module" src="says.mjs"></script>'
WORKER = "new Promise(done => { new Worker('says.mjs', {type: 'module'}).onmessage = event => done(JSON.stringify(event.data)); })"


class Quiet(http.server.SimpleHTTPRequestHandler):
    extensions_map = {**http.server.SimpleHTTPRequestHandler.extensions_map, ".mjs": "text/javascript", ".wasm": "application/wasm"}

    def log_message(self, *words):
        pass


os.mkdir("host")
for path in ("page/pxplanes.html", "page/library/pxplanes.mjs", "docs/scenes/first.scene"):
    shutil.copy(path, "host")
for leaf, content in (("pxplanes.wasm", web_page.library_in(ends.content("page/pxplanes.html").decode())[0]), ("says.mjs", SAYS.encode()),
                      ("says.html", PAGE.encode())):
    with open(os.path.join("host", leaf), "wb") as file:
        file.write(content)
server = http.server.ThreadingHTTPServer(("127.0.0.1", 0), functools.partial(Quiet, directory="host"))
threading.Thread(target=server.serve_forever, daemon=True).start()
address = "http://127.0.0.1:%d/" % server.server_address[1]
with Browser() as page:
    page.open(address + "says.html")
    said = page.until("document.body && document.body.dataset.said")
    print(said.replace('","', '"\n"'))
    print("a worker says the same:", page.run(WORKER) == said)
    page.open(address + "pxplanes.html")
    print("the page:", page.until("document.body.dataset.drawn !== 'no' && document.body.dataset.drawn"))
    print("faults:", page.faults())
server.shutdown()
