"""The moves of a machine, read from its definitions: which moves can act in a state, and the states that each leads to. A
definition of a form that is not known here is an error, never a guess."""
import re
import typing


class Edge(typing.NamedTuple):
    state: str
    move: str
    after: str


class Unread(Exception):
    """A definition that these readers do not understand."""


CLAUSE = re.compile(r"(\w+)((?: [^=\n]*)?) =(?: (.*))?")


def clauses_of(text):
    """The clauses of each definition: name → [(arguments, body)]. A body may go on in indented lines."""
    found, body = {}, None
    for line in re.sub(r"--.*", "", text).splitlines():
        if line.startswith(" "):
            if body is not None:
                body[1] += " " + line.strip()
            continue
        start = CLAUSE.fullmatch(line.rstrip())
        if not line.strip() and body is not None:
            continue
        body = [start[2].strip(), start[3] or ""] if start else None
        if start:
            found.setdefault(start[1], []).append(body)
    return {name: [(arguments, text.strip()) for arguments, text in bodies] for name, bodies in found.items()}


def constructors(text, name):
    """The constructors of a type that the file declares, one or more to a line."""
    block = re.search(rf"^pub data {name} : .* where\n((?:  .*\n)+)", text, re.M)
    if block is None:
        raise Unread(f"data {name}")
    return {word for line in block[1].splitlines() for word in line.split(" : ")[0].split()}


def variants(text, name):
    """The variants of a type of the code, from the lines that use them."""
    lists = re.findall(rf"^use \S*\.{name}\.TheVariants\.\{{(.*)\}}$", text, re.M)
    return {word.strip() for line in lists for word in line.split(",")}


def leaves(body):
    """The ends of a chain of if, then, else; a body without one is its own end."""
    chain = re.fullmatch(r"if (.+?) then (.+?) else (.+)", body)
    if chain is None:
        return [body]
    if chain[2].startswith("if "):
        raise Unread(body)
    return [chain[2], *leaves(chain[3])]


class Machine:
    """A file of definitions: its moves, its type of states, and the setter that changes a state."""

    def __init__(self, text, kind, setter):
        self.defs = clauses_of(text)
        self.setter = setter
        self.states = variants(text, kind)
        self.moves = constructors(text, "Move")

    def single(self, name):
        if len(self.defs.get(name, ())) != 1:
            raise Unread(name)
        return self.defs[name][0][1]

    def moves_in(self, body):
        """The moves that a clause of move_in can choose; a clause may hand the choice to a definition of its own."""
        for leaf in leaves(body):
            head = leaf.split()[0]
            if head in self.moves:
                yield leaf
            else:
                yield from self.moves_in(self.single(head))

    def named(self, text):
        """A state, or the states that a definition chooses from."""
        if text in self.states:
            return {text}
        ends = set(leaves(self.single(text)))
        if not ends <= self.states:
            raise Unread(text)
        return ends

    def set_by(self, leaf):
        """The states that one end of a body sets, its definitions opened; none where the state stays."""
        found = [self.named(name) for name in re.findall(rf"\b{self.setter} \(?(\w+)", leaf)]
        found += [{name} for name in re.findall(r"\bstate = (\w+);", leaf)]
        rest = re.sub(rf"\b{self.setter} (?:\w+|\(.*?\)\))", "", leaf)
        for name in re.findall(r"(?<!\.)\b\w+", rest):
            if name in self.defs:
                found += [states for _, body in self.defs[name] for end in leaves(body) for states in self.set_by(end)]
        return found

    def after(self, body, state):
        """Where a body leads from a state."""
        states = set()
        for leaf in leaves(body):
            found = self.set_by(leaf)
            if len(found) > 1:
                raise Unread(f"{leaf}: more than one state")
            states |= found[0] if found else {state}
        return states

    def body_of(self, table, move):
        """The clause of a table for a move, (fails_late l) for fails_late level2."""
        constructor = move.split()[0]
        bodies = [body for arguments, body in self.defs[table] if re.match(rf"\(?{constructor}\b", arguments)]
        if len(bodies) != 1:
            raise Unread(f"{table} {move}")
        return bodies[0]

    def edges(self, table):
        """Each state with each move that can act in it and each state that the move leads to."""
        for arguments, body in self.defs["move_in"]:
            state = arguments.split()[0]
            for move in self.moves_in(body):
                for after in self.after(self.body_of(table, move), state):
                    yield Edge(state, move, after)

    def checked(self, table):
        """The edges, with every state and every move of the definitions among them."""
        edges = set(self.edges(table))
        if {edge.state for edge in edges} != self.states or {edge.move.split()[0] for edge in edges} != self.moves:
            raise Unread(f"move_in: not every state and move of the definitions ({table})")
        return edges
