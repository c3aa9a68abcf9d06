"""Waveforms as VCD, the form of IEEE 1364 that GTKWave and others read. Strings are as GTKWave added them to it."""
from typing import Any, Iterable, Optional, Sequence, Union

FIRST, LAST = 33, 126
NO_VALUE, NO_NUMBER = "-", "nan"
Value = Optional[Union[int, float, str]]


class Signal:
    """A name within a scope, and what it is: a number of so many bits, a `real`, or a `string`."""

    def __init__(self, scope: str, name: str, width: int = 1, kind: str = "wire"):
        self.scope, self.name, self.width, self.kind = scope, name, width, kind

    def declared(self, short: str) -> str:
        size = {"wire": self.width, "real": 64, "string": 1}[self.kind]
        return "$var %s %d %s %s $end" % (self.kind, size, short, self.name)

    def changed(self, short: str, value: Value) -> str:
        """A line that says the signal's value; None is no value."""
        if self.kind == "string":
            return "s%s %s" % (NO_VALUE if value is None else value, short)
        if self.kind == "real":
            return "r%s %s" % (NO_NUMBER if value is None else value, short)
        if self.width == 1:
            return "%s%s" % ("z" if value is None else value, short)
        return "b%s %s" % ("x" if value is None else format(value, "b"), short)


def short_name(number: int) -> str:
    """The code of a signal: printed characters, the lowest place first."""
    code, base = "", LAST - FIRST + 1
    while True:
        code += chr(FIRST + number % base)
        number = number // base - 1
        if number < 0:
            return code


def head(signals: Sequence[Signal], codes: Sequence[str], comment: str) -> list[str]:
    lines = ["$comment %s $end" % comment, "$timescale 1 ns $end"]
    for scope in dict.fromkeys(signal.scope for signal in signals):
        lines.append("$scope module %s $end" % scope)
        lines += [signal.declared(code) for signal, code in zip(signals, codes) if signal.scope == scope]
        lines.append("$upscope $end")
    return lines + ["$enddefinitions $end"]


def written(signals: Sequence[Signal], rows: Iterable[tuple[int, list[Any]]], comment: str) -> str:
    """A VCD text: `rows` has times, and what the signals are from each on, in the signals' order."""
    codes = [short_name(number) for number in range(len(signals))]
    lines, before = head(signals, codes, comment), [object()] * len(signals)
    for time, values in rows:
        lines.append("#%d" % time)
        lines += [signal.changed(code, value)
                  for signal, code, old, value in zip(signals, codes, before, values) if value != old]
        before = values
    return "\n".join(lines) + "\n"
