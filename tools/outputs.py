"""Outputs of the program, parted into answers and journals as docs/FORMATS.md says."""

from __future__ import annotations

import re
from dataclasses import dataclass, field
from typing import Iterator, Optional, Sequence

from scripts import Statement

DONE = re.compile(r"CREATE TABLE|INSERT 0 \d+|UPDATE \d+|DELETE \d+|COPY \d+|SET")
HEAD = re.compile(r"[a-z0-9_$?|]+|QUERY PLAN")
COUNT = re.compile(r"\((?:1 row|(\d+) rows)\)")
QUERIES = ("SELECT", "WITH", "EXPLAIN")
GROUP = re.compile(r"group (\d+) (?:node (\d+)|reference)")
ENTRY = re.compile(r"(\d+)\.(\d+) (\w+)(?: (\w+))?")


@dataclass(frozen=True)
class Answer:
    """A statement and the lines that answer it."""

    statement: Statement
    lines: Sequence[str]

    @property
    def is_error(self) -> bool:
        return self.lines[0].startswith("ERROR ")


@dataclass(frozen=True)
class Entry:
    """An entry of a journal: `detail` is what stands behind its kind, if anything does."""

    session: int
    statement: int
    kind: str
    detail: str


@dataclass(frozen=True)
class Move:
    """A move of a shard group to a node, which was done or given up."""

    statement: int
    node: int
    is_done: bool


@dataclass
class Group:
    """A shard group: the node that it is on, or none for that of a reference table, and its journal."""

    number: int
    node: Optional[int]
    entries: list[Entry] = field(default_factory=list)

    @property
    def moves(self) -> Iterator[Move]:
        """Its moves that came to an end."""
        node = 0
        for entry in self.entries:
            if entry.kind == "move":
                node = int(entry.detail)
            elif entry.kind in ("cutover", "stop"):
                yield Move(entry.statement, node, entry.kind == "cutover")


def lines_of(output: bytes) -> list[str]:
    """The lines of an output; what stands behind the last newline is one too."""
    lines = output.decode(errors="replace").split("\n")
    return lines[:-1] if lines[-1] == "" else lines


def answers(lines: Sequence[str], statements: Sequence[Statement]) -> Iterator[Answer]:
    """Parts an output, not of a run under --csv, into the answers of the statements, in the order of the answers, as far as they go."""
    at = 0
    heads = [head_of(before, statement) for before, statement in zip([None, *statements], statements)]
    for statement, head, next_head, behind in zip(statements, heads, [*heads[1:], None], [*statements[1:], None]):
        if head is not None:
            if at >= len(lines) or lines[at] != head:
                return
            at += 1
        end = answer_end(lines, at, statement, next_head, behind)
        if end is None:
            return
        yield Answer(statement, lines[at:end])
        at = end


def head_of(before: Optional[Statement], statement: Statement) -> Optional[str]:
    """The line in front of the answers of a session of a block, where the answer before is of another session or phase."""
    if statement.session == 0 or (before and (before.phase, before.session) == (statement.phase, statement.session)):
        return None
    return f"-- session {statement.session}"


def answer_end(lines: Sequence[str], at: int, statement: Statement, head: Optional[str], behind: Optional[Statement]) -> Optional[int]:
    """The index behind the answer that begins at a line, or none where there is no whole answer. Words: what comes behind it, a session's line or an answer."""
    if not may_begin(lines, at, statement):
        return None
    if statement.first_word not in QUERIES or lines[at].startswith("ERROR "):
        return at + 1
    has_one_column = "|" not in lines[at]
    for end in range(at + 1, len(lines)):
        # a text may look like the line that counts the rows, but then the rest looks like no further answer
        if is_count(lines[end], end - at - 1) and not (has_one_column and is_row(lines, end + 1, head, behind)):
            return end + 1
    return None


def is_count(line: str, rows: int) -> bool:
    found = COUNT.fullmatch(line)
    return found is not None and int(found[1] or 1) == rows


def is_row(lines: Sequence[str], at: int, head: Optional[str], behind: Optional[Statement]) -> bool:
    """Whether what stands at a line, behind a table or in it, is surely in it."""
    if at == len(lines) or lines[at] == "journal" or lines[at].startswith("FATAL "):
        return False
    if head is not None:
        return lines[at] != head
    return behind is None or not may_begin(lines, at, behind)


def may_begin(lines: Sequence[str], at: int, statement: Statement) -> bool:
    """Whether the answer of a statement may begin at a line."""
    if at >= len(lines):
        return False
    if lines[at].startswith("ERROR "):
        return True
    form = HEAD if statement.first_word in QUERIES else DONE
    return form.fullmatch(lines[at]) is not None


def journals(lines: Sequence[str]) -> Optional[list[Group]]:
    """The journals at the end of an output, or none where there are none."""
    if "journal" not in lines:
        return None
    begin = len(lines) - list(reversed(lines)).index("journal")
    groups: list[Group] = []
    for line in lines[begin:]:
        group = GROUP.fullmatch(line)
        entry = ENTRY.fullmatch(line)
        if group:
            groups.append(Group(int(group[1]), int(group[2]) if group[2] else None))
        elif entry and groups:
            groups[-1].entries.append(Entry(int(entry[1]), int(entry[2]), entry[3], entry[4] or ""))
        else:
            return None
    return groups
