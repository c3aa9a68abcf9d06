"""Looks at the page as the studio serves it in a browser: saves, also where the file was changed meanwhile, and drops a model."""
import hashlib
import os
import socket
import subprocess
import sys
import time
import urllib.parse

sys.path[:0] = [os.path.join(os.getcwd(), "page", "tests"), os.path.join(os.getcwd(), "python")]
from browser import Browser
from pages import called, choose, text_of, written


def content(path):
    with open(path, "rb") as file:
        return file.read()


def served(*words):
    server = subprocess.Popen(["./pxplanes", "view", "--serve", *words, "--no-browser"], stdout=subprocess.PIPE)
    return server, server.stdout.readline().decode().strip()


def drawn(page, address):
    page.open(address)
    return page.until("document.body.dataset.drawn !== 'no' && document.body.dataset.drawn")


def saved(page):
    page.run("delete document.body.dataset.saved")
    page.run("studio.editor.focus()")
    page.press("s", modifiers=2)


def ended_early(address, path):
    """A request to save that ends before its text is all there."""
    parts = urllib.parse.urlsplit(address)
    with socket.create_connection((parts.hostname, parts.port)) as plain:
        plain.sendall(b"POST %ssave?sum=%s HTTP/1.1\r\nHost: %s\r\nContent-Length: 5000\r\n\r\npxscene" % (
            parts.path.encode(), hashlib.sha256(content(path)).hexdigest().encode(), parts.netloc.encode()))
        plain.shutdown(socket.SHUT_WR)
        return plain.recv(1 << 16).split(b"\r\n")[0].decode()


def looked(page, address):
    before = content("own.scene")
    print("drawn:", drawn(page, address), "| the file's:", page.run("studio.editor.text").encode() == before)
    choose(page, "- shaft)")
    written(page, "+ shaft)")
    os.chmod("own.scene", 0o640)
    saved(page)
    print("saved:", page.until("document.body.dataset.saved"), "| as it is shown:",
          content("own.scene") == before.replace(b"- shaft)", b"+ shaft)"), "| %o" % (os.stat("own.scene").st_mode & 0o777))
    with open("own.scene", "ab") as file:
        file.write(b"# by another hand\n")
    other = content("own.scene")
    choose(page, "depth 9")
    written(page, "depth 10")
    saved(page)
    page.until("document.getElementById('notice').textContent.includes('nothing was written')")
    print("changed meanwhile:", text_of(page, "#notice"))
    print("nothing is written:", content("own.scene") == other, "| open:", page.run(
        "[...document.querySelectorAll('.text-tab')].map(each => each.textContent).join(', ')"), "| mine:",
          page.run("studio.editor.text").encode() == before.replace(b"- shaft)", b"+ shaft)").replace(b"depth 9", b"depth 10"), "| the disk's:", called(
              page, "() => { const tabs = () => document.querySelectorAll('.text-tab'); tabs()[1].click(); const text = studio.editor.text; tabs()[0].click(); "
              "return text; }").encode() == other)
    page.until("document.body.dataset.drawn === 'yes'")
    saved(page)
    print("once more:", page.until("document.body.dataset.saved"), content("own.scene") == before.replace(b"- shaft)", b"+ shaft)").replace(b"depth 9", b"depth 10"))
    now = content("own.scene")
    print("a request that ends early:", ended_early(address, "own.scene"), content("own.scene") == now)
    page.run("document.body.dataset.drawn = 'waits'")
    called(page, "(name, content) => { const files = new DataTransfer(); files.items.add(new File([content], name)); "
           "document.dispatchEvent(new DragEvent('drop', {dataTransfer: files, bubbles: true, cancelable: true})) }",
           "box.csg", "cube(size = [10, 10, 10], center = false);")
    page.until("document.body.dataset.drawn === 'yes'")
    print("a model:", text_of(page, "#verdict"))
    print("written:", [leaf for leaf in sorted(os.listdir(".")) if leaf.startswith(".px")])


def crashed(address):
    """A page that crashes in the midst of a text, and another one in its place."""
    with Browser() as page:
        drawn(page, address)
        choose(page, "pyramid 200")
        written(page, "pyramid 210")
        page.until("Object.values(localStorage).some(each => each.includes('pyramid 210'))")
        page.crash()
        drawn(page, address)
        print("crashed, and come back:", page.run("studio.editor.text.includes('pyramid 210')"),
              page.run("!document.getElementById('draft').hidden"))
        print("faults of the page:", page.faults())


def with_ends(page, address):
    print("-- CR LF")
    before = content("dos.scene")
    drawn(page, address)
    line = page.run("studio.editor.text.split('\\n')[2]")
    choose(page, line)
    written(page, line + "\n# one more\n")
    saved(page)
    page.until("document.body.dataset.saved")
    lines = before.split(b"\r\n")
    print("kept:", content("dos.scene") == b"\r\n".join(lines[:3] + [b"# one more", b""] + lines[3:]))


def asked_a_while(server, address):
    """A question that takes many seconds, and Ctrl-C in the midst of it: what came of the question, and the server's status."""
    spheres = "".join("multmatrix([[1,0,0,%d],[0,1,0,%d],[0,0,1,0],[0,0,0,1]]) { sphere($fn = 24, $fa = 12, $fs = 2, r = 3); }\n" % (7 * (at % 20), 7 * (at // 20))
                      for at in range(400))
    model, parts = ("union() {\n%s}\n" % spheres).encode(), urllib.parse.urlsplit(address)
    with socket.create_connection((parts.hostname, parts.port)) as plain:
        plain.sendall(b"POST %smodel?kind=csg HTTP/1.1\r\nHost: %s\r\nContent-Length: %d\r\n\r\n%s" % (parts.path.encode(), parts.netloc.encode(), len(model), model))
        time.sleep(0.5)
        server.send_signal(2)
        status = server.wait(2)
        try:
            return plain.recv(1 << 16), status
        except OSError:
            return b"", status


server, address = served("own.scene")
try:
    with Browser() as page:
        looked(page, address)
        print("faults of the page:", page.faults())
    crashed(address)
finally:
    server.terminate()
    server.wait()
server, address = served("dos.scene")
try:
    with Browser() as page:
        with_ends(page, address)
    server.send_signal(2)
    print("interrupted: status", server.wait(2))
finally:
    server.kill()
server, address = served("own.scene")
try:
    print("interrupted in a question: its answer %r, status %d" % asked_a_while(server, address))
finally:
    server.kill()
