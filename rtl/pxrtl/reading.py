"""Text that tools read differently: what a simulator makes of it is not what Yosys makes of it.

This is a search of the text, not a parser. It says what it found and where; a file may have more than it finds."""
import os
import re
from typing import Iterator, NamedTuple

from pxrtl.shared import ends

# An escaped name is matched too: no comment begins in it.
COMMENT = re.compile(r"\\(\S+)|(`include\s+\"[^\"\n]*\")|//[^\n]*|/\*.*?\*/|\"(?:\\.|[^\"\\\n])*\"", re.S)
DIRECTIVE = re.compile(r"`(ifdef|ifndef|elsif|undef)\s+(\w+)|`(else|endif)\b|"
                       r"`define\s+(\w+)(?:\([^)]*\))?((?:\\\r?\n|[^\n])*)|`include\s+\"([^\"]+)\"|`(\w+)|[^`]+|`")
DEEP, END = 8, "endfunction"
TOOLS = (r"PORTS_ALONE|YOSYS|SYNTHESIS|FORMAL|SIMULATION|COCOTB_SIM|MODEL_TECH|XILINX\w*|SV_COV_\w+|\w*ICARUS\w*|"
         r"(?i:\w*verilator\w*)")
HARMLESS = r"keep|keep_hierarchy|r[ao]m_style|ram_block|syn_\w+|fsm_encoding|mark_debug|dont_touch|async_reg|max_fanout"
CALLS = r"signed|unsigned|clog2|bits|readmem[bh]|display|write|strobe"
DELAYED = (r"wire|reg|w?and|w?or|tri|triand|trior|nand|nor|xor|xnor|not|buf\w*|notif[01]|assign|always|initial|else|"
           r"begin")
OF_CASES = "`%s` changes what Yosys makes of a case, and not what a simulator does"
# In the text as it is written: a pattern, and what is said of what it finds.
WRITTEN = (
    (r"(?://|/\*)\s*((?:\w+\s+)?(?:translate|synthesis)_(?:on|off))", "`%s` hides text from some tools"),
    (r"(?://|/\*)\s*\w+\s+(full_case|parallel_case)\b", OF_CASES),
    (r"(\r)(?!\n)", "a carriage return without a line feed ends a line for some tools%.0s"))
# In the text without comments.
DIRECTED = (
    (r"`(?:(?:ifdef|ifndef|elsif)\s+\\?(?:\w+\()?|\w+\s*\([^()]*\b)?(%s)\b" % TOOLS,
     "`%s` is defined by some tools, so that they read another text"),
    (r"(`include)\b(?!\s*\")", "`%s` without a file's name: this tool does not look into that file"))
# In the text as tools read it, with macros and files in place.
READ = (
    (r"\(\*(?!\s*\))(?:[^*]*?,)?\s*(?!(?:%s)\s*[=,*])(\w+)[^*]*\*\)" % HARMLESS,
     "the attribute `%s` may mean something to one tool alone"),
    (r"\b((?:unique0?|priority)\s+(?:case|if))", OF_CASES),
    (r"(\$(?!(?:%s)\b)[A-Za-z]\w*)" % CALLS, "`%s` says something in a simulator alone"),
    (r"\b(force|release|deassign|bind)\b", "`%s` changes a module from outside, or a register for a time"),
    (r"(?:[;)\]]|\b(?:%s)\b|\bbegin\s*:\s*\w+|(?<![<!=>])=)\s*(#)" % DELAYED,
     "a delay is obeyed by simulators and ignored by Yosys%.0s"),
    (r"\b(px_\w+)", "`%s` is a name of this tool, which a simulator may find"))
DELAY = re.compile(r"<=\s*#\s*\(?\s*([\w.]+)")
OUTSIDE = "`%s.` is looked for outside of the module by simulators alone"
LATE = "a delay of %s is longer than a clock of the simulators may be; it is ignored by Yosys"
BLOCK = re.compile(r"\b(always\w*|initial|function)\b\s*(@\s*(?:\*|\(\s*\*\s*\)|\w+|\((?:[^()]|\([^()]*\))*\)))?")
STEP = re.compile(r"[();]|\b(?:begin|case[xz]?|end|endcase)\b")
DECLARED = re.compile(r"\b(?:input|output|inout|wire|reg|logic|integer)\b([^;)]*)")
FIRST = re.compile(r"\b(?:reg|logic)\b\s*(?:signed\b)?\s*(?:\[[^\]]*\])?\s*(\w+)\s*=")
ASSIGNED = re.compile(r"(?:\b([A-Za-z_]\w*)\s*(?:\[[^\]]*\]\s*)*|\{([^{}]*)\}\s*)(<?=)(?!=)")
HEAD = re.compile(r"\s*(?:module|input|output|reg|integer|logic)\b")
NAME = re.compile(r"(?<![`$'\w.])[A-Za-z_]\w*")
INTO = re.compile(r"(?<![.\w`$'])([A-Za-z_]\w*)\s*(?:\[[^\]]*\]\s*)?\.\s*[A-Za-z_]")
CLOCKED = re.compile(r"\b(?:pos|neg)edge\b")


def text_of(path: str) -> str:
    return ends.content(path).decode("latin-1")


def plain(text: str) -> str:
    """A text without comments and strings, with its lines as they were. Escaped names are written as others."""
    def put(found: re.Match[str]) -> str:
        name = found.group(1)
        if name:
            return "e_%s " % name.encode().hex() if STEP.search(name) or not re.fullmatch(r"\w+", name) else name + " "
        return found.group(2) or "\n" * found.group().count("\n") or " "

    return COMMENT.sub(put, text)


def preprocessed(text: str, folder: str, macros: dict[str, str], depth: int = 0) -> str:
    """A text as tools read it: with macros and included files in place, and without what a condition leaves out. No
    line moves."""
    found: list[str] = []
    conditions: list[tuple[bool, bool]] = []  # whether this part of it is read, and whether one up to here was
    for each in DIRECTIVE.finditer(plain(text)):
        way, name, other, defined, body, included, used = each.groups()
        is_read, path = all(part for part, _ in conditions), os.path.join(folder, included or "")
        if way in ("ifdef", "ifndef"):
            holds = (name in macros) == (way == "ifdef")
            conditions.append((holds, holds))
        elif conditions and (way == "elsif" or other):
            _, was = conditions.pop()
            holds = not was and (way is None or name in macros)
            conditions += [(holds, was or holds)] * (other != "endif")
        elif is_read and defined:
            macros[defined] = body
        elif is_read and way == "undef":
            macros.pop(name, None)
        elif is_read and depth < DEEP and (used in macros or included and os.path.isfile(path)):
            inner = text_of(path) if included else macros[used]
            found.append(preprocessed(inner, folder, macros, depth + 1).replace("\n", " "))
        elif is_read:
            found.append(each.group())
            continue
        found.append("\n" * each.group().count("\n"))
    return "".join(found)


def line_at(text: str, at: int) -> int:
    return text.count("\n", 0, at) + 1


def names(text: str) -> set[str]:
    return set(NAME.findall(text))


def declared(text: str) -> set[str]:
    lists = [re.sub(r"\[[^\]]*\]", " ", found.group(1)) for found in DECLARED.finditer(text)]
    return set().union(*map(names, lists)) - {"input", "output", "inout", "wire", "reg", "logic", "signed"}


def assigned(text: str, operator: str) -> set[str]:
    """The names that are assigned by `=` or `<=`."""
    text = re.sub(r"\bfor\s*\([^;]*;[^;]*;[^)]*\)", " ", text)
    return {name for one, several, way in ASSIGNED.findall(text) if way == operator for name in names(one or several)}


def statement_end(text: str, at: int) -> int:
    """Where the statement ends that begins there."""
    depth = 0
    for step in STEP.finditer(text, at):
        word = step.group()
        depth += (word in ("(", "begin") or word.startswith("case")) - (word in (")", "end", "endcase"))
        if depth <= 0 and word in (";", "end", "endcase") and not re.compile(r"\s*else\b").match(text, step.end()):
            return step.end()
    return len(text)


class Block(NamedTuple):
    """An `always` or `initial` block or a function: where it is, the list of its events, and its text."""

    at: int
    kind: str
    events: str
    text: str

    @property
    def is_clocked(self) -> bool:
        return self.kind == "always_ff" or CLOCKED.search(self.events) is not None

    @property
    def listed(self) -> set[str] | None:
        """The signals that it waits for; None if those are all that it reads."""
        if "*" in self.events or self.kind not in ("always", "rest"):
            return None
        inside = re.sub(r"^@\s*\(?|\)$", "", self.events)
        return {part.strip(" ()\n") for part in re.split(r"\bor\b|,", inside)}


def blocks_of(text: str) -> list[Block]:
    """The blocks of a text, and each statement that is in none of them."""
    found, at = [], 0
    for head in BLOCK.finditer(text):
        if head.start() >= at:
            found += statements(text, at, head.start())
            at = (text + END).index(END, head.end()) if head.group(1) == "function" else statement_end(text, head.end())
            found.append(Block(head.start(), head.group(1), head.group(2) or "", text[head.end():at]))
    return found + statements(text, at, len(text))


def statements(text: str, first: int, last: int) -> list[Block]:
    found = re.compile(r"[^;\s][^;]*;?").finditer(text, first, last)
    return [Block(each.start(), "rest", "@*", each.group()) for each in found]


def read_inside(blocks: list[Block]) -> dict[str, set[str]]:
    """What each function reads in addition to its arguments: it is not waited for where the function is called."""
    outside = declared("".join(block.text for block in blocks if block.kind != "function"))
    bodies = {(NAME.findall(re.split(r"[(;]", block.text)[0]) or [""])[-1]: block.text for block in blocks
              if block.kind == "function"}
    found = {name: (names(text) & outside) - declared(text) for name, text in bodies.items()}
    for _ in bodies:
        found = {name: reads.union(*(found[other] for other in names(bodies[name]) & set(bodies)))
                 for name, reads in found.items()}
    return found


def not_waited_for(block: Block, signals: set[str], inside: dict[str, set[str]]) -> Iterator[str]:
    """What a block without a clock depends on and is not run for."""
    read, written = names(block.text) & signals, assigned(block.text, "=") | assigned(block.text, "<=")
    missing = read - block.listed - written if block.listed is not None else set()
    if missing:
        yield "`always %s` does not list %s; Yosys reads it as complete, a simulator does not" % (
            " ".join(block.events.split()), ", ".join(sorted(missing)))
    called = {name for name in names(block.text) & set(inside) if inside[name] - read}
    if called and block.kind in ("always", "rest"):
        more = set().union(*(inside[name] for name in called)) - read
        yield "%s reads %s, which is none of its arguments: a simulator does not wait for that" % (
            ", ".join("`%s`" % name for name in sorted(called)), ", ".join(sorted(more)))
    if block.kind != "rest" and "clk" in read and assigned(block.text, "<="):
        yield "a clock that `<=` makes comes later in a simulator than in Yosys"


def out_of_order(block: Block, others: list[Block]) -> Iterator[str]:
    """What a block with a clock writes by `=` while others read it, if there is another block with a clock."""
    if any(other.is_clocked for other in others):
        read = set().union(*(names(other.text) for other in others if not HEAD.match(other.text)))
        for name in sorted((assigned(block.text, "=") - declared(block.text)) & read):
            yield "`%s` is written by `=` in a block with a clock and used outside of it: " \
                "the order of blocks is unknown" % name


def first_values(blocks: list[Block]) -> list[str]:
    """The registers that have a first value, each as often as it gets one."""
    return [name for block in blocks for name in (FIRST.findall(block.text) if block.kind == "rest" else
            assigned(block.text, "=") | assigned(block.text, "<=") if block.kind == "initial" else ())]


def notes_of_blocks(text: str) -> Iterator[tuple[int, str]]:
    blocks, signals = blocks_of(text), declared(text)
    inside, firsts = read_inside(blocks), first_values(blocks)
    for block in blocks:
        if block.is_clocked:
            found = out_of_order(block, [other for other in blocks if other is not block and other.kind != "initial"])
        else:
            found = not_waited_for(block, signals, inside) if block.kind not in ("initial", "function") else iter(())
        yield from ((block.at, says) for says in found)
        if block.kind != "rest" and re.search(r"(?<!\()@|\(@", block.text):
            yield block.at, "an event inside of a block is waited for by simulators alone"
    for name in sorted({name for name in firsts if firsts.count(name) > 1}):
        at = next(re.finditer(r"\b%s\b" % name, text)).start()
        yield at, "`%s` has two first values, and tools may take either" % name


def notes_of(text: str, folder: str = ".") -> Iterator[tuple[int, str]]:
    """What tools read differently in a text: the line, and what it is."""
    bare = preprocessed(text, folder, {})
    for source, table in ((text, WRITTEN), (plain(text), DIRECTED), (bare, READ)):
        for pattern, says in table:
            for found in re.finditer(pattern, source):
                yield line_at(source, found.start(1)), says % found.group(1)
    for found in INTO.finditer(bare):
        if len(re.findall(r"\b%s\b" % found.group(1), bare)) == len(re.findall(
                r"\b%s\s*(?:\[[^\]]*\]\s*)?\.\s*[A-Za-z_]" % found.group(1), bare)):
            yield line_at(bare, found.start()), OUTSIDE % found.group(1)
    for found in DELAY.finditer(bare):
        for value in [found.group(1)] + re.findall(r"\b%s\s*=\s*([\w.]+)" % re.escape(found.group(1)), bare):
            if re.match(r"[\d.]", value) and not re.fullmatch(r"[01]|0?\.\d+", value):
                yield line_at(bare, found.start()), LATE % value
    for at, says in notes_of_blocks(bare):
        yield line_at(bare, at), says


def with_included(path: str) -> Iterator[str]:
    """A file and the files that it includes, once each."""
    left, seen = [path], set()
    while left:
        path = left.pop()
        if path not in seen and os.path.isfile(path):
            seen.add(path)
            yield path
            names_there = re.findall(r"`include\s+\"([^\"]+)\"", text_of(path))
            left += [os.path.join(os.path.dirname(path), name) for name in names_there]


def notes(path: str) -> list[str]:
    """A sentence for each place of a file that tools read differently; none if there is none. Of a file in VHDL ghdl
    makes one text, which all tools read."""
    if path.endswith((".vhd", ".vhdl")):
        return []
    return ["%s, line %d: %s" % (os.path.basename(part), line, note) for part in with_included(path)
            for line, note in sorted(set(notes_of(text_of(part), os.path.dirname(part))))]
