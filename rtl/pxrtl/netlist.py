"""How modules are connected, from the netlist that Yosys writes.

A net is a number, or the text "0", "1" or "x". The modules that are taken as known (a pixel, a node ..) are closed
boxes: an output of one is a name of its own, and an input must be connected to a port of the whole or to the right
output of another."""
import itertools


class Wrong(Exception):
    """What is not as it must be, in words."""


def number(text):
    """A parameter, which may be a text too."""
    return int(text, 2) if set(text) <= {"0", "1"} else int.from_bytes(text.encode(), "big")


def negated(value):
    return {"0": "1", "1": "0"}.get(value, ("not", value))


class Netlist:
    """A flattened module: its ports, and what drives each of its nets."""

    def __init__(self, module, known):
        self.cells, self.ports = module["cells"], {name: port["bits"] for name, port in module["ports"].items()}
        self.inputs = {bit: (name, at) for name, port in module["ports"].items() if port["direction"] == "input"
                       for at, bit in enumerate(port["bits"])}
        self.known, self.drivers = known, {}
        for name, cell in self.cells.items():
            for port, bits in cell["connections"].items():
                if cell["port_directions"].get(port) == "output":
                    for at, bit in enumerate(bits):
                        self.drivers[bit] = (name, port, at)

    def port(self, name, at=0):
        bits = self.ports.get(name, [])
        if at >= len(bits):
            raise Wrong("port %s has %d bits" % (name, len(bits)))
        return bits[at]

    def driver(self, bit, type_, port, what):
        """The cell of a type that gives a net by this port, and the bit of the port."""
        cell, driven_by, at = self.drivers.get(bit, (None, None, 0))
        if cell is None or self.cells[cell]["type"] != type_ or driven_by != port:
            raise Wrong("%s is not the %s of a %s, but %s" % (what, port, type_, self.describe(bit)))
        return cell, at

    def describe(self, bit):
        """A net in words."""
        if bit in self.inputs:
            name, at = self.inputs[bit]
            return "the port " + (name if len(self.ports[name]) == 1 else "%s[%d]" % (name, at))
        if bit in self.drivers:
            name, port, at = self.drivers[bit]
            cell = self.cells[name]
            is_known = cell["type"] in self.known
            return "the %s of %s" % (port, name) if is_known else "what a %s makes" % cell["type"].lstrip("$")
        return {"0": "0", "1": "1"}.get(bit, "driven by nothing")

    def parameter(self, cell, name):
        text = self.cells[cell]["parameters"].get(name)
        return None if text is None else number(text)

    def into(self, cell, port, what=None):
        """The nets that a port of a cell is connected to."""
        bits = self.cells[cell]["connections"].get(port)
        if not bits:
            raise Wrong("%s of %s is connected to nothing" % (port, what or cell))
        return bits

    def value(self, bit, given, seen=None):
        """A net where some are 0 or 1: 0, 1, or a name for what it hangs on. No undefined bit is another."""
        seen = {} if seen is None else seen
        if isinstance(bit, str):
            return bit if bit in ("0", "1") else object()
        if bit in given:
            return given[bit]
        if bit not in seen:
            seen[bit] = ("net", bit)
            if bit in self.drivers and self.cells[self.drivers[bit][0]]["type"] not in self.known:
                seen[bit] = self.made(bit, given, seen)
        return seen[bit]

    def made(self, bit, given, seen):
        """What a cell makes of its inputs, where that can be said; otherwise a name of its own."""
        name, _, at = self.drivers[bit]
        cell = self.cells[name]
        take = lambda port: [self.value(it, given, seen) for it in cell["connections"][port]]
        kind, unknown = cell["type"], ("net", bit)
        if any(number(cell["parameters"].get(name, "0")) for name in ("A_SIGNED", "B_SIGNED")):
            return unknown
        one = lambda port: (take(port) + ["0"] * (at + 1))[at]
        if kind in ("$not", "$_NOT_"):
            return negated(one("A"))
        if kind in ("$logic_not",):
            value = self.any_of(take("A"), unknown)
            return negated(value) if at == 0 else "0"
        if kind in ("$and", "$or"):
            weak, strong = ("1", "0") if kind == "$and" else ("0", "1")
            a, b = one("A"), one("B")
            return strong if strong in (a, b) else a if b == weak else b if a == weak else a if a == b else unknown
        if kind in ("$logic_and", "$logic_or"):
            a, b = self.any_of(take("A"), unknown), self.any_of(take("B"), unknown)
            weak, strong = ("1", "0") if kind == "$logic_and" else ("0", "1")
            if at:
                return "0"
            return strong if strong in (a, b) else a if b == weak else b if a == weak else unknown
        if kind in ("$reduce_or", "$reduce_bool"):
            return self.any_of(take("A"), unknown) if at == 0 else "0"
        if kind == "$mux":
            select = take("S")[0]
            return one("B") if select == "1" else one("A") if select == "0" or one("A") == one("B") else unknown
        if kind in ("$eq", "$ne") and at == 0:
            pairs = list(itertools.zip_longest(take("A"), take("B"), fillvalue="0"))
            differ = any(set(pair) == {"0", "1"} for pair in pairs)
            if differ or all(a == b for a, b in pairs):
                return "1" if differ == (kind == "$ne") else "0"
        if kind in ("$shiftx", "$shr"):
            shift = take("B")
            if all(it in ("0", "1") for it in shift):
                a, from_ = take("A"), sum(1 << k for k, it in enumerate(shift) if it == "1") + at
                return a[from_] if from_ < len(a) else "0" if kind == "$shr" else unknown
        return unknown

    @staticmethod
    def any_of(values, unknown):
        left = [it for it in values if it != "0"]
        return "1" if "1" in left else left[0] if len(left) == 1 else unknown if left else "0"

    def must_be(self, bit, due, what):
        """A net must be another one."""
        if bit != due and self.value(bit, {}) != self.value(due, {}):
            raise Wrong("%s is %s, and not %s" % (what, self.describe(bit), self.describe(due)))

    def must_be_function(self, bit, ports, function, what, due):
        """A net must be a function of ports of one bit."""
        for values in itertools.product("01", repeat=len(ports)):
            given = {self.port(name): value for name, value in zip(ports, values)}
            if self.value(bit, given) != "01"[bool(function(*(value == "1" for value in values)))]:
                raise Wrong("%s is not %s, but %s" % (what, due, self.describe(bit)))

    def must_be_ports(self, cell, names, what):
        """Ports of a cell must be those of the whole."""
        for name in names:
            for at, bit in enumerate(self.into(cell, name, what)):
                self.must_be(bit, self.port(name, at), "%s of %s" % (name, what))


def opened_or_cleared(net, bit, what):
    net.must_be_function(bit, ("open", "clear"), lambda open_, clear: open_ or clear, what, "`open` or `clear`")


def only_the_clear(net, bit, what):
    net.must_be(bit, net.port("clear"), what)


def node_at(net, bit, number_, line, what, clear_of):
    """The node that gives a net; with the inputs that it must have, and odd where its number is."""
    cell, _ = net.driver(bit, "node", "out", what)
    if (net.parameter(cell, "ODD") or 0) != number_ % 2:
        raise Wrong("%s is %s" % (what, "even" if number_ % 2 else "odd"))
    net.must_be(net.into(cell, "clk", what)[0], net.port("clk"), "the clock of " + what)
    net.must_be(net.into(cell, "feed", what)[0], net.port("feed"), "the feed of " + what)
    clear_of(net, net.into(cell, "clear", what)[0], "the clear of " + what)
    if number_ % 2:
        net.must_be(net.into(cell, "line", what)[0], net.port(line), "the line of " + what)
    return cell


def tree(net, levels):
    """A tree: node i of level k is fed by node i div 2 of the level above, and shown at bit 2^k + i."""
    for name in ("outs", "carries"):
        for at in (0, 1):
            if net.value(net.port(name, at), {}) != "0":
                raise Wrong("bit %d of %s is not 0" % (at, name))
    for node in range(2, 2 << levels):
        level = node.bit_length() - 1
        what = "node %d of level %d" % (node - (1 << level), level)
        cell = node_at(net, net.port("outs", node), node, "line", what, only_the_clear)
        carry, _ = net.driver(net.port("carries", node), "node", "carry", "the carry of " + what)
        if carry != cell:
            raise Wrong("the carry of %s is that of %s" % (what, carry))
        parent = net.port("root") if level == 1 else net.port("outs", node // 2)
        net.must_be(net.into(cell, "parent", what)[0], parent, "the parent of " + what)
    for leaf in range(1 << levels):
        net.must_be(net.port("leaves", leaf), net.port("outs", (1 << levels) + leaf), "leaf %d" % leaf)


def way_up(net, bit, index, levels, line_at, root, what, done):
    """The nodes above a leaf, up to the root: each once."""
    for level in range(levels, 0, -1):
        if done.get(bit) == (level, index):
            return
        place = "node %d of level %d, above %s" % (index, level, what)
        cell = node_at(net, bit, index, line_at(level), place, opened_or_cleared)
        done[bit] = (level, index)
        bit, index = net.into(cell, "parent")[0], index // 2
    net.must_be(bit, net.port(root), "the root above %s" % what)


REGISTERS = (("enables", "enable"), ("carries", "carry"), ("latches", "latch"))


def pixels(net, count, bits, named):
    """The pixels of a whole, by the registers that they show; each gets what all get, and shows its memory."""
    found = []
    for number_ in range(count):
        what = named(number_)
        cells = [net.driver(net.port(vector, number_), "pixel", port, "the %s of %s" % (port, what))[0]
                 for vector, port in REGISTERS]
        if len(set(cells)) > 1:
            raise Wrong("%s shows registers of %s" % (what, " and ".join(sorted(set(cells)))))
        if net.parameter(cells[0], "N") not in (bits, None):
            raise Wrong("%s has %d bits" % (what, net.parameter(cells[0], "N")))
        net.must_be_ports(cells[0], ("clk", "open", "act", "place", "value"), what)
        found.append(cells[0])
    if len(set(found)) < count:
        raise Wrong("%d pixels show the registers of %d" % (len(set(found)), count))
    scan = [net.port("scan", at) for at in range(8)]
    for place in range(bits):
        given, seen = {bit: "01"[place >> at & 1] for at, bit in enumerate(scan)}, {}
        for number_, cell in enumerate(found):
            if net.value(net.port("plane", number_), given, seen) != ("net", net.into(cell, "memory")[place]):
                raise Wrong("plane does not show place %d of %s" % (place, named(number_)))
    return found


def under_one_tree(net, levels, bits, named, line_at, root):
    """Pixels, each under the leaf with its number; and the nodes above them."""
    done, found = {}, pixels(net, 1 << levels, bits, named)
    for p, cell in enumerate(found):
        way_up(net, net.into(cell, "tree")[0], p, levels, line_at, root, named(p), done)
    return found, done


def column(net, levels, bits):
    """A column: pixel y under leaf y of a tree on line b, whose root is the column's."""
    under_one_tree(net, levels, bits, "pixel {}".format, lambda level: "line_b", "root")


def array(net, nx, ny, bits):
    """An array: pixel (x, y) under leaf x * 2^ny + y of one tree, on line a at levels 1 to nx and on line b below."""
    return under_one_tree(net, nx + ny, bits, lambda p: "pixel (%d, %d)" % (p >> ny, p & (1 << ny) - 1),
                          lambda level: "line_a" if level <= nx else "line_b", "line_c")


def array_of_columns(net, nx, ny, bits):
    """An array of columns under a tree: column x under its leaf x, with its bits from x * 2^ny on."""
    tree_cell, high = None, 1 << ny
    for x in range(1 << nx):
        what = "column %d" % x
        cell, _ = net.driver(net.port("plane", x * high), "column", "plane", "bit %d of plane" % (x * high))
        for vector, y in itertools.product(("plane", "enables", "carries", "latches"), range(high)):
            bit = "bit %d of %s" % (x * high + y, vector)
            other, at = net.driver(net.port(vector, x * high + y), "column", vector, bit)
            if (other, at) != (cell, y):
                raise Wrong("%s is bit %d of %s" % (bit, at, other))
        if (net.parameter(cell, "NY"), net.parameter(cell, "N")) != (ny, bits):
            raise Wrong("%s has other parameters" % what)
        net.must_be_ports(cell, ("clk", "open", "clear", "feed", "line_b", "act", "place", "value", "scan"), what)
        above, leaf = net.driver(net.into(cell, "root", what)[0], "tree", "leaves", "the root of " + what)
        if leaf != x or tree_cell not in (None, above):
            raise Wrong("%s is under leaf %d of %s" % (what, leaf, above))
        tree_cell = above
    if net.parameter(tree_cell, "LEVELS") != nx:
        raise Wrong("the tree of the columns has %s levels" % net.parameter(tree_cell, "LEVELS"))
    net.must_be_ports(tree_cell, ("clk", "feed"), "the tree of the columns")
    opened_or_cleared(net, net.into(tree_cell, "clear")[0], "the clear of the tree of the columns")
    net.must_be(net.into(tree_cell, "root")[0], net.port("line_c"), "the root of the tree of the columns")
    net.must_be(net.into(tree_cell, "line")[0], net.port("line_a"), "the line of the tree of the columns")
