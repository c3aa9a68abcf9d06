"""The documents compared with what they speak of: their links, the headings, places and options that they name, their
tables of commands, statuses, causes, limits and clocks, and which of their blocks are runs. Tests use it.

Each check yields what is wrong, a line each. Sources are read as text, by the few forms that are there."""
import argparse
import functools
import math
import os
import re
import subprocess

from pxplanes import ends
from pxplanes.cli import frame
from pxplanes.scene import limits
from pxplanes.explain import list_cures
from pxplanes.machine import micros

README, SCENES, MAN, WRAPPER = "README.md", "docs/SCENES.md", "man/pxplanes.1", "pxplanes"
NO_DOCUMENTS = (".git", "out", "package", "pictures", "cases")
CONSOLE = re.compile(r"^```console\n(.*?)^```$", re.M | re.S)
FENCED = re.compile(r"^```(\w*)\n(.*?)^```$", re.M | re.S)
INDENTED = re.compile(r"(?:^    \S.*\n)+", re.M)
LINK = re.compile(r"\[[^\]]*\]\(([^)\s]+)\)")
HEADING = re.compile(r"^#{1,6} (.+?) *$", re.M)
NAMED = re.compile(r'\b(above|below|[\w/.]*?[A-Z_]+\.md)(?:\]\([^)]*\))?,? \(?((?:(?:, | and )?"[^"]+")+)')
COMMENT = re.compile(r"\n *(?:///?!?|#|\*|%)? *")
SPOKEN = re.compile(r'"""(.*?)"""|^\s*(?:\*|//[/!]?|/\*\*?|#!?) (.*?)$|  (?://|#|/\*) (.*?)$', re.M | re.S)
SPOKEN_IN_CRATES = re.compile(r"^\s*(?://[/!]?|--) (.*?)$", re.M)
SPAN = re.compile(r"`([^`\n]+)`")
PLACE = re.compile(r"(?:tools|docs|crates|cases|gallery|suite|man|rtl|python|include|examples|editors|page)/[\w./-]*\w")
TOOL = re.compile(r"(?:^|[\s(])(?:\./|\S*/)?(tools/[\w/]+|rtl/rtl|page/build|pxplanes(?: (?:%s)\b)?)(?=\s|$)" % "|".join(frame.WORDS))
OPTION = re.compile(r"(?<![\w-])(--[a-z][\w-]*)")
COMMAND = re.compile(r"^ *(?:\$ |\./|\.ci/|tools/|rtl/rtl |pxplanes [a-z]|sudo |rt |pip |openscad |cmake |PYTHONPATH=)", re.M)
SOURCES = (("crates", (".rt", ".antt", ".edit")), ("tools", (".py", ".js", "")), ("include", (".h", ".hpp")), ("python", (".py",)),
           ("rtl", (".v", ".vh", ".py", "")), ("rust", (".rs",)), ("page", (".c", ".mjs", ".js", ".py", "")))
# The blocks of commands that no check runs, by their document and how they begin, each with the reason. All others are runs.
NOT_RUN = {
    ("docs/INSTALL.md", "sudo apt install"): "it installs; the case debian_in_a_chroot installs those packages, and draws with them",
    ("docs/INSTALL.md", "tools/install --prefix"): "it installs; the cases package_of_all and package_wheel do",
    ("docs/INSTALL.md", ".ci/run"): "it is the gate",
    ("docs/INSTALL.md", "tools/package --source"): "it needs a gate; the case debian_from_source does it",
    ("docs/MODELLING.md", "openscad --preview"): "it needs a display",
    ("docs/LIBRARY.md", "./pxplanes --library"): "it proves; the case wrapper_library begins it, and package_of_* and python_* do the rest",
    ("rust/README.md", "tools/package"): "it writes into the checkout's package/; the case rust_crates does both",
    ("docs/SCALE.md", "./pxplanes batch poster gallery/house.scene 16384"): "it writes 1.6 GB; the case poster_against_tile writes less",
    ("docs/STUDIO.md", "./pxplanes view --serve my.scene"): "it serves until it is ended; the cases studio_* do it",
}
# What a pixel's memory, an operation and a grid may be, by the places in the sources that say so.
OF_SOURCES = (("BITS", "crates/px_commands/src/command_words.rt", r"const PIXEL_BITS: usize = (\d+)"),
              ("WIDE_BITS", "crates/px_commands/src/command_words.rt", r"const WIDE_PIXEL_BITS: usize = (\d+)"),
              ("LIGHTS", "crates/px_shadow/src/passes.rt", r"MAX_LIGHTS: usize = (\d+)"),
              ("FORM", "crates/px_macro/src/limits.rt", r"is_within\(form.a, 1 << (\d+)\)"),
              ("FORM_C", "crates/px_macro/src/limits.rt", r"is_within\(form.c, 1 << (\d+)\)"),
              ("FIELD", "crates/px_macro/src/limits.rt", r"field.len <= (\d+)"),
              ("GRID", "crates/px_listing/src/limit.rt", r"ListKind::Grid, 1, (\d+), nx\)"))
RTL_WORDS = ("check", "prove", "marks", "draw", "simulate-board", "send", "fpga")
OF_LIGHTS = ("unexpected", "word-count", "bad-name", "unknown-name")
OF_SCENES_ALONE = ("bad-name", "second-name", "bad-expression", "unknown-name", "missing-end")
OWN_TROUBLE = "1"
# What a document names, and a command next to it makes.
MADE = ("examples/c/command",)
MOST_WORDS = 800
# The words that a paragraph and a cell of a table may have.
PARAGRAPH_WORDS, CELL_WORDS = 90, 30
# Words that documents and comments do without, each with the plain one. They may be quoted, and headings that sources name keep theirs.
PLAIN = (
    (r"behind (?:a|the|its|their|each|every|that|this)? ?(?:end|gate|clock|scene|lines?|text|words?|feed|header|proofs?|step)\b", "after"),
    (r"\bbeside\b", "compared with, next to"), (r"\b(?:tells?|told)\b", "says, reports"), (r"\bwants\b", "needs"),
    (r"\bone's own\b", "your own"), (r"\banew\b", "again"), (r"\b(?:is|are|was|were|be) due\b", "must be, is expected"),
    (r"(?<!thing )(?<!where )(?<!what )(?<!ever )\belse\b(?!')", "otherwise"), (r"\bwant of\b", "out of"), (r"\bby lot\b", "random"),
    (r"\blikewise\b", "also"), (r"\bfor good\b", "permanently"), (r"\bof the same\b(?=[,.;:])", "the same"),
    (r"\bno(?:ne| \w+) but\b", "only"), (r"\bgo(?:es)? by\b", "uses"), (r"\bwhat is left\b", "the rest"),
    (r"\bstands? (?:in|there|below|above|whole|as)\b", "is"), (r"\bat hand\b", "available"), (r"\bhands? (?:on|over)\b", "passes"))
# Options of programs of others that documents name by themselves.
OF_OTHERS = ("--projection=o", "--camera", "--sshlogin", "--viewall", "--autocenter", "--imgsize", "--preview", "--loader")


@functools.lru_cache(None)
def content(leaf):
    return ends.content(os.path.join(ends.TOP, leaf)).decode("utf-8")


@functools.lru_cache(None)
def names():
    """The documents, by their paths from the top."""
    out = []
    for place, folders, leaves in os.walk(ends.TOP):
        folders[:] = sorted(each for each in folders if each not in NO_DOCUMENTS)
        out += [os.path.relpath(os.path.join(place, leaf), ends.TOP) for leaf in sorted(leaves) if leaf.endswith(".md")]
    return out


def runs(leaf):
    """The blocks of a document that are run."""
    return CONSOLE.findall(content(leaf))


def with_runs():
    return [leaf for leaf in names() if CONSOLE.search(content(leaf))]


@functools.lru_cache(None)
def prose(leaf):
    """A document without its blocks."""
    return INDENTED.sub("\n", FENCED.sub("\n", content(leaf)))


@functools.lru_cache(None)
def headings(leaf):
    return [re.sub(r"[`*]|\]\([^)]*\)|\[", "", heading) for heading in HEADING.findall(FENCED.sub("", content(leaf)))]


def anchor(heading):
    """What a link to a heading ends with."""
    return re.sub(r"[^\w\- ]", "", heading.lower()).replace(" ", "-")


def wrong_links():
    for leaf in names():
        for target in LINK.findall(prose(leaf)):
            if re.match(r"\w+:", target):
                continue
            path, _, part = target.partition("#")
            place = os.path.normpath(os.path.join(os.path.dirname(leaf), path)) if path else leaf
            if not os.path.exists(os.path.join(ends.TOP, place)):
                yield "%s: there is no %s" % (leaf, target)
            elif part and part not in map(anchor, headings(place)):
                yield "%s: %s has no heading %s" % (leaf, place, part)


def document_of(word, leaf):
    """The document that a word means in a file; None where it means several or none."""
    if word in ("above", "below"):
        return leaf
    if word == README:
        return README
    for path in (os.path.join(os.path.dirname(leaf), word), word):
        if os.path.normpath(path) in names():
            return os.path.normpath(path)
    found = [each for each in names() if os.path.basename(each) == word]
    return found[0] if len(found) == 1 else None


def wrong_headings():
    """A heading that a document, a source or the manual names, and that is not there."""
    for leaf in names() + [MAN, WRAPPER] + sources():
        for word, quoted in NAMED.findall(COMMENT.sub(" ", prose(leaf) if leaf.endswith(".md") else content(leaf))):
            document = document_of(word, leaf)
            if document is None and os.path.basename(word) != word:
                yield "%s: there is no %s" % (leaf, word)
            for heading in re.findall(r'"([^"]+)"', quoted) if document else ():
                if heading.rstrip(",.") not in headings(document):
                    yield "%s: %s has no heading %s" % (leaf, document, heading)


@functools.lru_cache(None)
def sources():
    out = []
    for folder, ends_of_names in SOURCES:
        for place, folders, leaves in os.walk(os.path.join(ends.TOP, folder)):
            folders[:] = sorted(each for each in folders if each not in ("out", "cases", "__pycache__"))
            out += [os.path.relpath(os.path.join(place, leaf), ends.TOP) for leaf in sorted(leaves)
                    if os.path.splitext(leaf)[1] in ends_of_names]
    return out


def wrong_places():
    """A file or folder that a document names in letters of a machine, or a document that a source names, and that is not there."""
    for leaf in sources() + [MAN, WRAPPER]:
        for place in re.findall(r"\bdocs/[\w/]+\.md", content(leaf)):
            if not os.path.exists(os.path.join(ends.TOP, place)):
                yield "%s: there is no %s" % (leaf, place)
    for leaf in names():
        if leaf != "CHANGES.md":
            for span in SPAN.findall(prose(leaf)):
                for place in PLACE.findall(" ".join(word for word in span.split() if re.match(r"[./]*[a-z]+/", word))):
                    near = [os.path.join(os.path.dirname(leaf), place), place, os.path.join("crates", place)]
                    if place not in MADE and not re.search(r"NAME|[A-Z]{2,}$|/out/", place) and not any(
                            os.path.exists(os.path.join(ends.TOP, each)) for each in near):
                        yield "%s: there is no %s" % (leaf, place)


@functools.lru_cache(None)
def options_of(tool):
    """The options that the help of a tool names, and of the wrapper that of the manual too; None where there is no such tool."""
    if tool == "pxplanes":
        return set(OPTION.findall(content(WRAPPER))) | {"-" + each for each in re.findall(r"Fl (-[\w-]+)", content(MAN))}
    if tool.startswith("pxplanes "):
        return options_in(frame.parser_of(tool.split()[1]))
    if tool == "rtl/rtl":
        helps = [subprocess.run([os.path.join(ends.TOP, tool), *words, "--help"], capture_output=True, text=True).stdout
                 for words in ([], *([word] for word in RTL_WORDS))]
        return set().union(*map(OPTION.findall, helps))
    if not os.path.isfile(os.path.join(ends.TOP, tool)):
        return None
    text = content(tool)
    has_help = '"""' in text and "argparse" not in text
    return set(OPTION.findall(text.split('"""')[1] if has_help else text)) | {"--help"}


def options_in(parser):
    """The options of a parser and of those below it."""
    found = {option for action in parser._actions for option in action.option_strings}
    below = [each for action in parser._actions if isinstance(action, argparse._SubParsersAction) for each in action.choices.values()]
    return found.union(*map(options_in, below))


def commands_in(leaf):
    """The commands that a document shows, each without what comes after a sign of the shell."""
    shown = SPAN.findall(prose(leaf)) + [line for _, block in FENCED.findall(content(leaf)) for line in block.split("\n")
                                         if COMMAND.match(line)]
    shown += [line for block in INDENTED.findall(content(leaf)) for line in block.split("\n")]
    return [part for each in shown for part in re.split(r" [|;]|&&|  #", each)]


def wrong_options():
    """An option in a document that the help of its tool does not name; one by itself is that of some tool."""
    tools = ["tools/" + leaf for leaf in os.listdir(os.path.join(ends.TOP, "tools"))] + [
        "tools/dev/" + leaf for leaf in os.listdir(os.path.join(ends.TOP, "tools", "dev"))]
    tools += ["pxplanes", "rtl/rtl", *("pxplanes " + word for word in frame.WORDS)]
    every = set(OF_OTHERS).union(*(options_of(tool) or () for tool in tools))
    for leaf in names():
        if leaf == "CHANGES.md":
            continue
        for command in commands_in(leaf):
            named = TOOL.search(command)
            known = options_of(named.group(1)) if named else every if command.startswith("--") else None
            if named and known is None and named.group(1).startswith("tools/") and "NAME" not in command and not os.path.isdir(
                    os.path.join(ends.TOP, named.group(1))):
                yield "%s: there is no tool %s" % (leaf, named.group(1))
            for option in OPTION.findall(command[named.end():] if named else command) if known else ():
                if option not in known:
                    yield "%s: the help of %s has no %s" % (leaf, named.group(1) if named else "no tool", option)


def wrong_blocks():
    """A block of commands that is no run and no row of NOT_RUN, or a row without a block."""
    met = set()
    for leaf in names():
        for kind, block in FENCED.findall(content(leaf)) + [("", each) for each in INDENTED.findall(FENCED.sub("\n", content(leaf)))]:
            first = block.strip().split("\n")[0]
            row = next((row for row in NOT_RUN if row[0] == leaf and first.startswith(row[1])), None)
            met.add(row)
            if kind == "console" and not block.startswith("$ "):
                yield "%s: a run begins with %r" % (leaf, first)
            if kind != "console" and COMMAND.search(block) and row is None:
                yield "%s: %r is not run; a block of the kind console is" % (leaf, first)
    for row in NOT_RUN:
        if row not in met:
            yield "%s shows no %r" % row


def rows(leaf, heading):
    """The cells of the tables under a heading, without the rows of titles."""
    part = re.split(r"(?m)^#{1,6} %s$" % re.escape(heading), content(leaf))
    part = re.split(r"(?m)^#{1,6} ", part[1])[0] if len(part) > 1 else ""
    tables = re.findall(r"(?m)^\|.*\|\n\|(?:-+\|)+\n((?:\|.*\|\n)+)", part)
    return [[cell.strip().replace("\\|", "|") for cell in re.split(r"(?<!\\)\|", line)[1:-1]]
            for table in tables for line in table.strip().split("\n")]


def usage():
    return re.search(r'"(usage: .*)\\n"', content("crates/px_commands/src/note.rt")).group(1)


def difference(what, has, due):
    """What is wrong where two sets of words differ."""
    has, due = set(has), set(due)
    if has != due:
        lacks, more = (", ".join(sorted(each)) for each in (due - has, has - due))
        yield "%s: %s" % (what, "; ".join(filter(None, (lacks and "lacks " + lacks, more and "has " + more))))


def wrong_commands():
    """The commands as the usage line, the words of the program, the tables, the manual and the wrapper have them."""
    due = [words.split()[0] for words in re.search(r"\[(.*)\]", usage()).group(1).split("|")]
    first = [SPAN.findall(row[0])[0].split()[0] for row in rows(SCENES, "Commands")]
    readers = re.findall(r"(?m)^    ([a-z |]+)\) following=\d", content(WRAPPER))
    manual = re.search(r"(?m)^\.Op Cm (.*)$", content(MAN)).group(1)
    found = (("crates/px_commands", re.findall(r'word == b"([a-z]+)"', content("crates/px_commands/src/command_words.rt"))),
             (SCENES, first + ["sample"] * bool(re.search(r"(?m)^`sample N`", content(SCENES)))),
             (MAN, re.findall(r"(?m)^\.It Cm (\w+)", content(MAN))),
             (MAN + ", synopsis", [each.split()[0] for each in manual.split(" | ")]),
             (WRAPPER + " --help", frame.PROGRAM_WORDS),
             (WRAPPER, ["sample", *(word for each in readers for word in each.split(" | "))]))
    for what, has in found:
        yield from difference(what, has, due)
    words = [*frame.FIRST_WORDS, "--help"]
    yield from difference(MAN + ", options", ["-" + each for each in re.findall(r"Fl (-[\w-]+)", content(MAN))], words)


def wrong_statuses():
    """The statuses as the program's code, the table and the manual have them."""
    codes = dict(re.findall(r"Status::(\w+)(?:\(_\))? => (\d+)", content("crates/px_commands/src/status.rt")))
    lines = re.findall(r'"((?:read|write) fault|out of memory)\\n"', content("crates/px_commands/src/note.rt"))
    words = {name: re.sub(r"(?<=[a-z])(?=[A-Z])", " ", name).lower().replace("memory", "out of memory") for name in codes}
    due = {words[name]: code for name, code in codes.items()}
    table = rows(SCENES, "Refusals")
    manual = re.findall(r"(?m)^\.It (\d)\n([A-Z][a-z ]*?)[:.]", content(MAN))
    said = [SPAN.findall(row[2]) for row in table]
    every = [" ".join(each) for each in due.items()]
    yield from difference(SCENES, [" ".join(row[:2]) for row in table], every)
    yield from difference(MAN, ["%s %s" % (name.lower(), code) for code, name in manual if code != OWN_TROUBLE], every)
    yield from difference(SCENES + ", lines", [each[0] for each in said if each],
                          [usage(), "malformed line L: CAUSE", "limit line L: KIND FOUND"] + lines)


def words_of(function):
    """The words that a function of px_commands gives."""
    body = content("crates/px_commands/src/words.rt").split("fn %s(" % function)[1].split("\n}")[0]
    return re.findall(r'=> "([\w-]+)"', body)


def wrong_causes():
    """The words of causes and limits in the tables, as the program prints them."""
    of = lambda table, cell: [word for row in table for word in SPAN.findall(row[cell])]
    listed = [row[0].strip("`").lower() for row in rows("docs/LISTINGS.md", "Limits")]
    limits_listed = of(rows(SCENES, "Limits"), 2)
    yield from difference(SCENES + ", Causes", of(rows(SCENES, "Causes"), 0) + ["missing-end"], words_of("cause_word"))
    yield from difference(SCENES + ", Limits", limits_listed, words_of("scene_word"))
    yield from difference("docs/LISTINGS.md, Limits", listed, words_of("list_word"))
    yield from difference("docs/LISTINGS.md, Refusals", of(rows("docs/LISTINGS.md", "Refusals"), 0), [
        each for each in words_of("cause_word") if each not in OF_SCENES_ALONE])
    yield from difference(SCENES + ", Light lines", of(rows(SCENES, "Light lines"), 0), OF_LIGHTS)


# What documents say of limits, with the constants of the sources in braces.
LIMITS = (
    (SCENES, "| bytes of the text | {MAX_TEXT_BYTES} |"), (SCENES, "| width and height | 1 to {MAX_PICTURE_SIZE} |"),
    (SCENES, "| bits W of a depth | 1 to {MAX_DEPTH_BITS} |"),
    (SCENES, "| fraction bits F, judged after W | 0 to the lesser of {MAX_FRACTION_BITS} and {MAX_DEPTH_BITS} - W |"),
    (SCENES, "| A and B of a plane | {MAX_SLOPE} in size |"), (SCENES, "| C of a plane | {MAX_CONSTANT} in size |"),
    (SCENES, "| solids | {MAX_SOLIDS} |"), (SCENES, "| fronts, backs, sides of a solid | {MAX_PLANES_OF_A_KIND} each |"),
    (SCENES, "| face numbers | {MAX_FACES} |"), (SCENES, "| leaves of the expression | {MAX_LEAVES} |"),
    (SCENES, "| nesting of the expression | {MAX_NESTING}, where"), (SCENES, '"Layout") | {BITS} |'),
    (SCENES, '"Sums of products") | {MAX_PRODUCTS} |'), (SCENES, "more than {MAX_TILES};"), (SCENES, "and {WIDE_BITS} bits in a pixel"),
    (SCENES, "each from 1 to {MAX_WIDE_PICTURE_SIZE} without"), (SCENES, "from 1 to {MAX_BLOCKS}, reads no input"),
    (MAN, "1 to {MAX_PICTURE_SIZE} pixels each"), (MAN, "1 to {MAX_DEPTH_BITS} bits;"), (MAN, "N blocks, 1 to {MAX_BLOCKS}, with"),
    (MAN, "each from 1 to {MAX_WIDE_PICTURE_SIZE}, tile by tile"),
    ("docs/PICTURE.md", "is more than {MAX_PICTURE_SIZE};"), ("docs/PICTURE.md", "have more than {MAX_FRACTION_BITS} bits,"),
    ("docs/SCALE.md", "ends at {MAX_WIDE_PICTURE_SIZE} by {MAX_WIDE_PICTURE_SIZE}"),
    ("docs/LISTINGS.md", "greater than 2^{FORM} in size, or C greater than 2^{FORM_C} |"),
    ("docs/LISTINGS.md", "LEN is not from 1 to {FIELD} |"), ("docs/LISTINGS.md", "NX or NY is not from 1 to {GRID} |"),
    (SCENES, "with {FOUND_LIGHTS} found"), ("docs/LISTINGS.md", "the program's have {BITS}."),
)


@functools.lru_cache(None)
def constants():
    """The limits by their names; those of listings, and the bits of a pixel, by the forms in which sources have them."""
    found = {name: str(value) for name, value in vars(limits).items() if name.startswith("MAX_")}
    for name, leaf, pattern in OF_SOURCES:
        found[name] = re.search(pattern, content(leaf)).group(1)
    return dict(found, FOUND_LIGHTS=str(int(found["LIGHTS"]) + 1))


def wrong_limits():
    for leaf, form in LIMITS:
        if form.format(**constants()) not in " ".join(content(leaf).split()):
            yield "%s does not say %r" % (leaf, form.format(**constants()))


def wrong_clocks():
    """A row of the table of operations whose clocks are others than those of the tools, which the checks compare with the program."""
    for cells in rows("docs/MACHINE.md", "Microprograms"):
        for name in re.findall(r"`(\w+)", cells[0]):
            word = re.sub(r"(?<=[a-z])(?=[A-Z])", "-", name).lower()
            for levels, length in ((2, 1), (2, 7), (18, 40)):
                due = micros.clocks_of(word, (0, length, 0, 0, length), levels)
                if counted(cells[1], levels, length) != due:
                    yield "docs/MACHINE.md: %s takes %d clocks with L %d and len %d" % (name, due, levels, length)


def counted(formula, levels, length):
    """What a sum as `2 + L + 2 len` comes to."""
    value = lambda word: levels if word == "L" else length if word == "len" else int(word)
    return sum(math.prod(map(value, term.split())) for term in formula.split(" + "))


def wrong_operations():
    """An operation of listings, or a line of the debugger, with another form in its table than the sources have."""
    lines = [span for row in rows("docs/LISTINGS.md", "Operations") for span in SPAN.findall(row[0])]
    yield from difference("docs/LISTINGS.md", lines, [list_cures.form_of(word) for word in list_cures.FORMS])
    spoken = re.findall(r'word == b"([a-z]+)"', content("crates/px_debug/src/command.rt"))
    shown = [row[0].strip("`").split()[0] for row in rows("docs/DEBUGGER.md", "Lines") if "`" in row[0]]
    yield from difference("docs/DEBUGGER.md", shown, spoken)


def wrong_lists():
    """A tool that tools/README.md does not name."""
    named = content("tools/README.md")
    for folder, form in (("tools", "`tools/%s"), ("tools/dev", "`%s`")):
        for leaf in sorted(os.listdir(os.path.join(ends.TOP, folder))):
            path = os.path.join(ends.TOP, folder, leaf)
            if os.path.isfile(path) and os.access(path, os.X_OK) and form % leaf not in named:
                yield "tools/README.md names no %s" % leaf


def wrong_times():
    """The time of the first proof is in README.md alone."""
    if re.search(r"\| about \d+ minutes on 4 processors", content(README)) is None:
        yield "%s does not say how long the first proof takes" % README
    for leaf in names() + [MAN]:
        if leaf not in (README, "CHANGES.md") and re.search(r"\d+ to \d+ minutes", content(leaf)):
            yield "%s says minutes, which %s does" % (leaf, README)


def wrong_rooms():
    """A crate that no room of the map has, or one that it has and crates.txt has not."""
    leaf = "docs/dev/ARCHITECTURE.md"
    part = re.split(r"(?m)^## ", content(leaf))[1]
    yield from difference(leaf, re.findall(r"\bpx_\w+", part), re.findall(r"(?m)^(px_\w+)", content("crates.txt")))


def wrong_size():
    words = len(content(README).split())
    if words > MOST_WORDS:
        yield "%s has %d words, and may have %d" % (README, words, MOST_WORDS)


def comments(leaf):
    """The comments and docstrings of a source."""
    form = SPOKEN_IN_CRATES if leaf.startswith("crates/") else SPOKEN
    return " ".join(" ".join(filter(None, found.groups())) for found in form.finditer(content(leaf)))


def wrong_words():
    """A word that a plain one can replace, outside of quotes, code and headings: in documents and in comments."""
    texts = [(leaf, prose(leaf)) for leaf in names()] + [(leaf, comments(leaf)) for leaf in sources()]
    for leaf, text in texts:
        text = re.sub(r'(?m)^#.*$|`[^`\n]*`|"[^"]*"|\]\([^)]*\)', " ", text)
        for form, plain in PLAIN:
            for found in re.finditer(form, " ".join(text.split()), re.I):
                yield "%s: %r; better is %r" % (leaf, found.group(), plain)


def wrong_lengths():
    """A paragraph, or an item of a list, or a cell of a table, that is too long to be read at once."""
    for leaf in names():
        for part in re.split(r"\n\s*\n|\n(?= *(?:[-*]|\d+\.) |\|)", prose(leaf)):
            is_row = part.lstrip().startswith("|")
            most = CELL_WORDS if is_row else PARAGRAPH_WORDS
            for text in re.split(r"(?<!\\)\|", part) if is_row else [part]:
                if len(text.split()) > most:
                    yield "%s: %d words, and %d may be: %s .." % (leaf, len(text.split()), most, " ".join(text.split()[:8]))


CHECKS = {"links of documents": wrong_links, "headings that are named": wrong_headings, "places in documents": wrong_places,
          "options in documents": wrong_options, "blocks of documents": wrong_blocks, "commands in documents": wrong_commands,
          "statuses in documents": wrong_statuses, "causes in documents": wrong_causes, "limits in documents": wrong_limits,
          "clocks of operations": wrong_clocks, "forms of lines": wrong_operations, "tools in their list": wrong_lists, "times in documents": wrong_times, "rooms of crates": wrong_rooms,
          "words of README": wrong_size, "plain words": wrong_words, "lengths of paragraphs": wrong_lengths}
