"""A VCD file: signals in scopes, and their values at times. A value is a string: the bits of a number, or the text of a
string signal."""
import typing

FIRST = "$version tools/wave $end"


class Signal(typing.NamedTuple):
    scope: str
    name: str
    kind: str  # wire or string
    width: int


def key(number):
    """A short name of printable characters, as the file's body uses it."""
    text = ""
    while True:
        number, digit = divmod(number, 94)
        text += chr(33 + digit)
        if number == 0:
            return text


def header(comment, signals):
    yield FIRST
    yield f"$comment\n{comment}\n$end"
    yield "$timescale 1 ns $end"
    scope = None
    for number, signal in enumerate(signals):
        if signal.scope != scope:
            if scope is not None:
                yield "$upscope $end"
            yield f"$scope module {signal.scope} $end"
            scope = signal.scope
        yield f"$var {signal.kind} {signal.width} {key(number)} {signal.name} $end"
    yield "$upscope $end"
    yield "$enddefinitions $end"


def change(signal, number, value):
    if signal.kind == "string":
        return f"s{value} {key(number)}"
    return f"{value}{key(number)}" if signal.width == 1 else f"b{value} {key(number)}"


def body(signals, moments):
    """moments: (time, the values in the order of the signals). Only what changes is written; None writes nothing."""
    last = [None] * len(signals)
    for time, values in moments:
        yield f"#{time}"
        for number, (signal, value) in enumerate(zip(signals, values)):
            if value is not None and value != last[number]:
                yield change(signal, number, value)
                last[number] = value


def text(comment, signals, moments):
    return "\n".join([*header(comment, signals), *body(signals, moments)]) + "\n"
