"""What stands between two calls, as states.py follows it, and what it says of the next tick: ready or not, and why."""
import typing

import names


def is_wanted(csr):
    """A user sync is wanted: bit 2 or 3, with bit 4. [Ready.1]"""
    return bool(csr & (names.PAUSE_AND_SYNC | names.FORCE_SYNC) and csr & names.ENABLE_SYNC)


class Standing(typing.NamedTuple):
    """What is followed, between two calls: main's state, whether a user sync waits, the blind count, CSR bits 0–13, how
    many words each branch holds, control, the bits of TEST that wait for the next tick that runs."""

    state: str
    waits: bool
    blind: int
    csr: int
    queued: typing.Tuple[int, ...]
    control: int
    test: int


def unready(standing, lines):
    """Why passed pulses are lost in a tick with these lines; nothing for a ready unit. [Ready.1] [Blind.2]"""
    inhibited = lines & names.INHIBIT and not standing.csr & names.OVERRIDE
    return [
        *(["GO is clear"] if not standing.csr & names.GO else []),
        *([f"main is at {standing.state}"] if standing.state != "Idle" else []),
        *(["a user sync waits"] if standing.waits else ["a user sync is wanted"] if is_wanted(standing.csr) else []),
        *(["front busy is high"] if lines & names.BUSY else []),
        *(["inhibit is high"] if inhibited else []),
        *(["blind after a rejected pattern"] if standing.blind else []),
    ]
