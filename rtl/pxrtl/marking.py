"""One table of a class's files of a module: files by acts or moves, as text and as a page. Each row is printed as its
file ends."""
import concurrent.futures
import html
import os
import tempfile

from pxrtl import agreeing, directed, ports, programs, proving, reading, sources
from pxrtl.shared import Bad

SHORT = {"enable-all": "enA", "enable-carry": "enC", "enable-tree": "enT", "enable-bit": "enB", "set-carry": "set",
         "fetch": "fet", "store-tree": "stT", "store-latch": "stL", "store-const": "stC", "toggle": "tog",
         "carry-tree": "caT", "carry-latch": "caL", "add-tree": "add", "nop": "nop", "open": "opn"}
WHOLE = "as-a-whole"
ROWS = {"pixel": directed.ROWS, "node": directed.NODE_ROWS, "tree": directed.MOVES}
SIGNS = {"right": ".", "wrong": "X", "unseen": "?"}
SEED = 1
HEAD = """<!doctype html>
<html lang="en"><meta charset="utf-8"><title>%(module)s of %(folder)s</title>
<style>
  body { font: 16px/1.5 system-ui, sans-serif; margin: 2rem auto; max-width: 70rem; padding: 0 1rem; color: #111;
  background: #fff }
  table { border-collapse: collapse; font-size: .85rem }
  th, td { border: 1px solid #bbb; padding: .15rem .4rem; text-align: center }
  th:first-child, td:first-child { text-align: left }
  .right { background: #e3f3e3 } .wrong { background: #f7d4d0; font-weight: bold } .none, .unseen { background: #eee;
  color: #555 }
  dt { font-weight: bold; margin-top: .8rem } dd { margin-left: 1.5rem } code { font-size: .9em }
</style>
<h1>%(module)s of %(folder)s</h1>
<p>%(right)d of %(all)d are right. A row is a file, a column an act or a move of docs/MACHINE.md; the first
difference of each is below.
An act is unseen if it had nothing to change in any state that the pixel reached.</p>
"""


class Mark:
    """What came of a file: the faults by their acts, trouble in a line, what tools read differently, and the lines
    of its proof, None if it was not asked for."""

    def __init__(self, name, faults, still=(), trouble=None, proof=None, notes=()):
        self.name, self.faults, self.still, self.trouble = name, {fault.row: fault for fault in faults}, still, trouble
        self.proof, self.notes = proof, list(notes)

    def of(self, row):
        """What came of an act: right, wrong, or unseen, since nothing had to change in the states that the pixel
        reached."""
        return "wrong" if row in self.faults else "unseen" if row in self.still else "right"

    @property
    def status(self):
        if self.trouble:
            return proving.TROUBLE
        return proving.worst([proving.WRONG] * bool(self.faults) + [proving.UNDECIDED] * bool(self.notes) +
                             [line.status for line in self.proof or []])

    @property
    def is_right(self):
        return self.status == proving.PROVED

    @property
    def not_proved(self):
        """The rows that are not proved, in a few words; empty if all are."""
        found = []
        for line in self.proof or []:
            if line.status != proving.PROVED and not line.text.startswith("    "):
                words = line.text.strip()
                row = words.split()[0]
                found.append(row if words.endswith("WRONG") else "%s not decided" % row if row in proving.ACTS
                             else words)
        return ", ".join(found)

    @property
    def proved(self):
        return "no: " + self.not_proved if self.not_proved else "yes"

    def lines(self):
        """A line for each thing that is wrong, in the order of the clocks."""
        if self.trouble:
            return [self.trouble]
        faults = sorted(self.faults.values(), key=lambda fault: fault.clock)
        ran = ["clock %d, %s" % (fault.clock, fault.text) for fault in faults]
        return ran + self.notes + ["proof: " + line.text.strip() for line in self.proof or []
                                   if line.status != proving.PROVED]


def ran(module, folder, files, simulator, seconds):
    """The faults of a module in a simulator, and the rows in which nothing had to change."""
    if module == "pixel":
        return directed.pixel(folder, files, simulator, seconds, 1000, SEED)[1:]
    if module in ROWS:
        _, faults = (directed.node if module == "node" else directed.tree)(folder, files, simulator, seconds, SEED)
        return faults, directed.unseen(ROWS[module], faults)
    why = agreeing.RUNS[module](folder, files, simulator or "iverilog", seconds)
    return [directed.Fault(WHOLE, 0, why)] * bool(why), ()


def marked_file(module, path, simulator, seconds, is_asked):
    """A file that is run, and proved if that is asked for."""
    name, proof = os.path.basename(path), None
    with tempfile.TemporaryDirectory(prefix="px-rtl-") as folder:
        try:
            files = {each: ports.file_of(each) for each in ports.MODULES}
            files[module] = sources.ready(path, module, folder)
            faults, still = ran(module, folder, files, simulator, seconds)
            if is_asked:
                proof = list(proving.proved(module, files, seconds, only=simulator or "iverilog"))
        except (Bad, OSError) as trouble:
            return Mark(name, [], trouble=str(trouble).replace(path, name))
        return Mark(name, faults, still, None, proof, () if is_asked else reading.notes(files[module]))


def table_row(mark, rows, wide, is_asked):
    """The row of a file as text."""
    if mark.trouble:
        return "%-*s %s" % (wide, mark.name, mark.trouble)
    cells = " ".join(SIGNS[mark.of(row)].center(len(SHORT.get(row, row))) for row in rows)
    between = "  and between the clocks" if directed.BETWEEN in mark.faults else ""
    noted = "".join("  not decided: " + note for note in mark.notes)
    return ("%-*s %s%s%s%s" % (wide, mark.name, cells, between, "  " + mark.proved if is_asked else "", noted)).rstrip()


def page_rows(found, rows, is_asked):
    yield "<table><tr><th>file</th>%s%s</tr>" % ("".join("<th>%s</th>" % row.replace("-", "-<wbr>")
                                                         for row in rows),
                                                 "<th>proved</th>" if is_asked else "")
    for mark in found:
        name = html.escape(mark.name)
        link = name if mark.is_right else '<a href="#%s">%s</a>' % (name, name)
        if mark.trouble:
            cells = '<td class="none" colspan="%d">not run</td>' % (len(rows) + is_asked)
        else:
            cells = "".join('<td class="%s">%s</td>' % (mark.of(row), mark.of(row)) for row in rows)
            proved = ("wrong", "no") if mark.not_proved else ("right", "yes")
            cells += '<td class="%s">%s</td>' % proved if is_asked else ""
        yield "<tr><td>%s</td>%s</tr>" % (link, cells)
    yield "</table>\n<dl>"
    for mark in found:
        if not mark.is_right:
            name = html.escape(mark.name)
            yield '<dt id="%s">%s</dt>' % (name, name) + "".join("<dd>%s</dd>" % html.escape(it) for it in mark.lines())
    yield "</dl>\n</html>"


def marked(folder, module, simulator, seconds, is_asked, jobs, page):
    """Prints the table, a row as each file ends, writes the page if there is to be one, and gives the status."""
    names = sorted(name for name in os.listdir(folder) if name.endswith(sources.KINDS))
    if not names:
        raise Bad("%s: it has no file in Verilog (.v, .sv) or VHDL (.vhd)" % folder)
    if is_asked:
        programs.needed("yosys")
    rows = ROWS.get(module, (WHOLE,))
    wide, found = max([4] + [len(name) for name in names]), []
    print("%-*s %s%s" % (wide, "file", " ".join(SHORT.get(row, row) for row in rows), "  proved" if is_asked else ""),
          flush=True)
    with concurrent.futures.ThreadPoolExecutor(jobs) as pool:
        paths = [os.path.join(folder, name) for name in names]
        for mark in pool.map(lambda path: marked_file(module, path, simulator, seconds, is_asked), paths):
            found.append(mark)
            print(table_row(mark, rows, wide, is_asked), flush=True)
    if any(mark.still for mark in found):
        print("? nothing had to change, in the states that were reached")
    print("%d files, %d right" % (len(found), sum(mark.is_right for mark in found)))
    if page:
        head = HEAD % {"folder": html.escape(os.path.basename(os.path.abspath(folder))), "all": len(found),
                       "module": "Files with a %s" % module,
                       "right": sum(mark.is_right for mark in found)}
        with open(page, "w", encoding="utf-8") as file:
            file.write(head + "\n".join(page_rows(found, rows, is_asked)) + "\n")
    return proving.worst(proving.WRONG if mark.trouble else mark.status for mark in found)
