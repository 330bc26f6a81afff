#!/usr/bin/env python3
"""Draws docs/main.svg and docs/branch.svg, the states of the main sequencer and of a branch.

    tools/diagrams.py           rewrites the drawings
    tools/diagrams.py --check   exits 1 if a drawing is not what the tables here draw

Both refuse, with exit 1, a table whose moves are not exactly those of the definitions of sequencer, module_core and branch.
"""
import re
import sys
import typing

import names
import svg
from moves import Edge, Machine, Unread, clauses_of
from page import TOP, asks_check, keep, read
from svg import Arrow

DEFINITIONS = [
    "crates/sequencer/specs/MainSequencer.antt",
    "crates/module_core/specs/Core.antt",
    "crates/branch/specs/Branch.antt",
]
EVERY = "every state"

# state, move, state after it, label, sentence. A move that stays is drawn in its box, or not at all if it has no label.
MAIN = [
    ("Idle", "stays", "Idle", "", "Ready.4"),
    ("Idle", "accepted_of", "Delay", "accepts, class 1", "Main.2"),
    ("Idle", "accepted_of", "Wait2", "accepts, class 2, 3", "Main.2"),
    ("Delay", "waits_in_delay", "Delay", "raises what is due", "Main.7"),
    ("Delay", "ends_delay", "Front", "level 2 and level 3 accept are up, by T2 and T3", "Main.7"),
    ("Wait2", "stays", "Wait2", "", "Main.4"),
    ("Wait2", "passes2_to_delay", "Delay", "pass, class 2", "Main.4"),
    ("Wait2", "passes2_to_wait3", "Wait3", "pass, class 3", "Main.4"),
    ("Wait2", "fails_late level2", "Front", "late fail: T1 in use, age ≥ 2 × T1", "Main.6"),
    ("Wait2", "fails_and_clears level2", "Clear", "other fail", "Main.6"),
    ("Wait3", "stays", "Wait3", "", "Main.5"),
    ("Wait3", "passes3", "Front", "pass", "Main.5"),
    ("Wait3", "fails_late level3", "Front", "late fail", "Main.6"),
    ("Wait3", "fails_and_clears level3", "Clear", "other fail", "Main.6"),
    ("Front", "stays", "Front", "while busy or T4 runs", "Main.8"),
    ("Front", "loads", "Space", "loads a word without sync", "Main.12"),
    ("Front", "loads", "SyncHold", "loads a word with sync", "Main.12"),
    ("Space", "stays", "Space", "", "Main.13"),
    ("Space", "leaves_space", "Idle", "every branch is below its depth", "Main.13"),
    ("SyncHold", "stays", "SyncHold", "", "Main.14"),
    ("SyncHold", "ends_sync_hold", "Idle", "every branch is empty", "Main.14"),
    ("Clear", "counts_clear", "Clear", "clear count falls to 0", "Main.15"),
    ("Clear", "stays", "Clear", "", "Main.15"),
    ("Clear", "ends_clear", "Idle", "clear count over, front busy low, T4 over", "Main.15"),
    (EVERY, "reset_of", "Idle", "RESET leads to Idle", "CSRWrite.2d"),
    (EVERY, "fresh_of", "Idle", "INITIALIZE leads to Idle", "CSRWrite.1"),
]
BRANCH = [
    ("Rest", "stays", "Rest", "shows none", "Branches.1"),
    ("Rest", "strobes", "Strobe", "holds a word", "Branches.1"),
    ("Strobe", "stays", "Strobe", "shows its first word", "Branches.1"),
    ("Strobe", "finishes", "Drop", "all enabled|acknowledges high:|word finished", "Branches.2"),
    ("Drop", "stays", "Drop", "shows none", "Branches.3"),
    ("Drop", "rests", "Rest", "all enabled acknowledges low", "Branches.3"),
]


class Drawing(typing.NamedTuple):
    file: str
    title: str
    size: typing.Tuple[int, int]
    table: list
    places: dict
    arrows: dict
    notes: list


MAIN_DRAWING = Drawing(
    "main.svg", "The main sequencer", (1170, 790), MAIN,
    {"Idle": (120, 390), "Delay": (410, 190), "Wait2": (410, 390), "Wait3": (710, 390), "Front": (1010, 190),
     "Space": (710, 70), "Clear": (560, 560), "SyncHold": (710, 680)},
    {
        ("Idle", "accepted_of", "Delay"): Arrow([(140, 360), (140, 190), (342, 190)], (240, 182)),
        ("Idle", "accepted_of", "Wait2"): Arrow([(188, 390), (342, 390)], (264, 382)),
        ("Delay", "ends_delay", "Front"): Arrow([(478, 190), (942, 190)], (710, 182)),
        ("Wait2", "passes2_to_delay", "Delay"): Arrow([(390, 360), (390, 220)], (382, 284), "end", 16),
        ("Wait2", "passes2_to_wait3", "Wait3"): Arrow([(478, 390), (642, 390)], (559, 382)),
        ("Wait2", "fails_late level2", "Front"): Arrow([(430, 360), (430, 290), (975, 290), (975, 220)], (700, 282)),
        ("Wait2", "fails_and_clears level2", "Clear"): Arrow([(410, 420), (410, 480), (535, 480), (535, 530)], (472, 472)),
        ("Wait3", "passes3", "Front"): Arrow([(778, 375), (1010, 375), (1010, 220)], (890, 367)),
        ("Wait3", "fails_late level3", "Front"): Arrow([(778, 405), (1045, 405), (1045, 220)], (890, 422), gap=16),
        ("Wait3", "fails_and_clears level3", "Clear"): Arrow([(710, 420), (710, 480), (585, 480), (585, 530)], (648, 472)),
        ("Front", "loads", "Space"): Arrow([(1010, 160), (1010, 70), (778, 70)], (894, 62)),
        ("Front", "loads", "SyncHold"): Arrow([(1078, 190), (1120, 190), (1120, 680), (778, 680)], (944, 672)),
        ("Space", "leaves_space", "Idle"): Arrow([(642, 70), (95, 70), (95, 360)], (370, 62)),
        ("SyncHold", "ends_sync_hold", "Idle"): Arrow([(642, 680), (95, 680), (95, 420)], (370, 672)),
        ("Clear", "ends_clear", "Idle"): Arrow([(492, 560), (140, 560), (140, 420)], (310, 552)),
    },
    ["From every state {reset_of} and {fresh_of}. Where no test is true, main stays in its state.",
     "A fail wins over a pass [Main.3]; each wait reads its own level's lines. Age rises in every state but Idle [Main.1]."],
)
BRANCH_DRAWING = Drawing(
    "branch.svg", "A branch", (860, 255), BRANCH,
    {"Rest": (110, 90), "Strobe": (400, 90), "Drop": (730, 90)},
    {
        ("Rest", "strobes", "Strobe"): Arrow([(178, 90), (332, 90)], (254, 82)),
        ("Strobe", "finishes", "Drop"): Arrow([(468, 90), (662, 90)], (564, 50)),
        ("Drop", "rests", "Rest"): Arrow([(730, 120), (730, 165), (110, 165), (110, 120)], (420, 157)),
    },
    ["With no controller enabled both tests of the acknowledges are true [Branches.4].",
     "A load is appended after the move [Branches.5]: an empty branch raises Strobe in the next tick."],
)


def shown_name(state):
    """The name of a state in document 01's words."""
    return {name.replace(" ", "").lower(): name for name in names.STATES}.get(state.lower(), state)


def drawing(plan):
    """The SVG of a plan. Each move of its table that leads elsewhere has an arrow, and no arrow is without its move."""
    rows = [row for row in plan.table if row[0] != EVERY]
    loops = [row for row in rows if row[0] == row[2]]
    if {row[:3] for row in rows if row not in loops} != set(plan.arrows):
        raise Unread(f"{plan.file}: the arrows are not those of the table")
    body = [text for row in rows if row not in loops for text in svg.drawn(plan.arrows[row[:3]], row[1], *row[3:])]
    for state, place in plan.places.items():
        inside = next((label for at, _, _, label, _ in loops if at == state and label), "")
        body += svg.box(place, shown_name(state), inside)
    anywhere = {move: f"{label} [{tag}]" for state, move, _, label, tag in plan.table if state == EVERY}
    for n, note in enumerate(plan.notes):
        body.append(svg.text((40, plan.size[1] - 20 * (len(plan.notes) - n) - 5), note.format(**anywhere)))
    return "\n".join(svg.page(plan.size, plan.title, body)) + "\n"


# ---- the tables against the definitions

def main_edges(sequencer, core):
    """The moves of main, with the accept, which core makes at Idle alone, and RESET and INITIALIZE."""
    main, core = Machine(sequencer, "State", "with_state"), clauses_of(core)
    body = {name: core[name][0][1] for name in ("is_ready_of", "main_step_of", "reset_of", "fresh_of")}
    if "enter_by (class_in_of word)" not in main.single("accepted_of") or "main.accepted_of" not in body["main_step_of"]:
        raise Unread("accepted_of")
    if not body["is_ready_of"].startswith("is_idle c.main.state && "):
        raise Unread("is_ready_of")
    yield from main.checked("step_by")
    yield from (Edge("Idle", "accepted_of", after) for after in main.after(main.single("enter_by"), "Idle"))
    for name in ("reset_of", "fresh_of"):
        if re.search(r"\bmain = main\.idle_of;|▷ with_main main\.idle_of\b", body[name]):
            yield from (Edge(EVERY, name, after) for after in main.after(main.single("idle_of"), EVERY))


def branch_edges(branch):
    return Machine(branch, "Phase", "with_phase").checked("after_move")


def differences(plan, defined):
    """Rows that no definition has, moves without a row, tags that do not exist."""
    rows = [Edge(*row[:3]) for row in plan.table]
    tags = {line.split("\t")[0] for line in read(TOP / "docs/tags.txt").splitlines() if not line.startswith("#")}
    yield from (f"{plan.title}: twice in the table: {' '.join(row)}" for row in set(rows) if rows.count(row) > 1)
    yield from (f"{plan.title}: not in the definitions: {' '.join(row)}" for row in sorted(set(rows) - defined))
    yield from (f"{plan.title}: not in the table: {' '.join(row)}" for row in sorted(defined - set(rows)))
    yield from (f"{plan.title}: no such sentence: [{row[4]}]" for row in plan.table if row[4] not in tags)


def faults_of(sequencer, core, branch):
    """The faults of the tables, by the text of the definitions."""
    try:
        main = set(main_edges(sequencer, core))
        return [*differences(MAIN_DRAWING, main), *differences(BRANCH_DRAWING, branch_edges(branch))]
    except Unread as unread:
        return [f"a definition that this tool cannot read: {unread}"]


def main():
    check = asks_check(__doc__)
    faults = faults_of(*(read(TOP / path) for path in DEFINITIONS))
    if faults:
        print("\n".join(faults))
        return 1
    return max([keep(TOP / "docs" / plan.file, drawing(plan), check) for plan in (MAIN_DRAWING, BRANCH_DRAWING)])


if __name__ == "__main__":
    sys.exit(main())
