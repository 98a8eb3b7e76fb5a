"""Scripts, cut into statements as docs/FORMATS.md says, and places in them."""

from __future__ import annotations

import re
from bisect import bisect_left
from dataclasses import dataclass
from typing import Iterator, Optional

BLANKS = b" \t\r\n"
FRONT = re.compile(rb"[ \t\r\n;]*")
STOP = re.compile(rb"[;']|--")
OPAQUE = re.compile(rb"'[^']*(?:'|\Z)|--[^\n]*")
CSV_FIELD = re.compile(rb'(?:"[^"]*(?:""[^"]*)*(?:"|\Z))?[^,\r\n]*')
DATA_END = re.compile(rb"^\\\.(?:\n|\Z)", re.MULTILINE)
BYTE_ORDER_MARK = b"\xef\xbb\xbf"
MOST_BYTES = 16_777_216
MOST_STATEMENTS = 20_000
MOST_SESSIONS = 8
DIRECTIVE = re.compile(rb"\\(?:(parallel|end)|session[ \t\r]+(\d+))[ \t\r]*")


@dataclass(frozen=True)
class CopyData:
    """The data of a COPY: where they begin, their bytes, and whether a line `\\.` ends them."""

    start: int
    text: bytes
    is_ended: bool


@dataclass(frozen=True)
class Statement:
    """A statement: its number from 1, the offset of its first token, its text up to the `;`, a COPY's data, its session in a block, 0 outside, and
    the number of the first statement of its phase, which is a serial statement or a block."""

    number: int
    start: int
    text: bytes
    data: Optional[CopyData] = None
    session: int = 0
    phase: int = 0

    @property
    def bare(self) -> bytes:
        """The text with blanks in the place of quoted texts and comments, so that offsets stay."""
        return OPAQUE.sub(lambda found: b" " * len(found.group()), self.text)

    @property
    def plain(self) -> bytes:
        """The text with blanks in the place of comments alone."""
        return OPAQUE.sub(lambda found: found.group() if found.group().startswith(b"'") else b" " * len(found.group()), self.text)

    @property
    def first_word(self) -> str:
        """The first word in upper case, or nothing where the text begins with a sign."""
        found = re.match(rb"[A-Za-z_][A-Za-z0-9_$]*", self.text)
        return found.group().decode().upper() if found else ""

    @property
    def is_csv(self) -> bool:
        """Whether it is a COPY of CSV."""
        return re.search(rb"(?i)\bformat\s+csv\b", self.bare) is not None

    @property
    def has_header(self) -> bool:
        """Whether it is a COPY whose first record is passed over."""
        return self.is_csv and re.search(rb"(?i)\bheader\b", self.bare) is not None


@dataclass
class Block:
    """A block that is read: the offset of its `\\parallel`, the number of its first statement, and the session of what follows."""

    start: int
    phase: int
    session: Optional[int] = None


@dataclass(frozen=True)
class Cut:
    """The statements of a script in the order of their texts, the offset at which something out of its place stops the reading, and what it is."""

    statements: list[Statement]
    stop: Optional[int] = None
    why: str = ""
    open_phase: Optional[int] = None

    @property
    def answered(self) -> list[Statement]:
        """The statements that run, in the order of their answers: those of a block by session."""
        run = (statement for statement in self.statements if statement.phase != self.open_phase)
        return sorted(run, key=lambda statement: (statement.phase, statement.session))


def cut(script: bytes) -> Cut:
    """Cuts a script into its statements, as many as are answered and one more."""
    statements: list[Statement] = []
    block: Optional[Block] = None
    at = 0

    def stopped(stop: Optional[int], why: str) -> Cut:
        return Cut(statements, stop, why, block.phase if block else None)

    while True:
        at = skip_front(script, at)
        if len(statements) > MOST_STATEMENTS:
            return stopped(None, "")
        if at == len(script):
            return stopped(block.start, r"no \end closes this block, and nothing of it runs") if block else Cut(statements)
        if script[at : at + 1] == b"\\" and is_line_start(script, at):
            end = line_end(script, at)
            found = DIRECTIVE.fullmatch(script, at, end)
            why = misplaced(found, block)
            if why or not found:
                return stopped(at, why)
            if found[1] == b"parallel":
                block = Block(at, len(statements) + 1)
            elif found[1] == b"end":
                block = None
            elif block:
                block.session = int(found[2])
            at = min(end + 1, len(script))
            continue
        if block and block.session is None:
            return stopped(at, r"this statement of a block has no session: a line \session 1 goes before it")
        number = len(statements) + 1
        place = (block.session or 0, block.phase) if block else (0, number)
        start, at = at, statement_end(script, at)
        statement = Statement(number, start, script[start:at], None, *place)
        at = min(at + 1, len(script))
        if statement.first_word == "COPY":
            rest = line_end(script, at)
            if script[at:rest].strip(BLANKS):
                return stopped(at, "behind the semicolon of a COPY its line is blank, and the data begin with the next one")
            data, at = copy_data(script, min(rest + 1, len(script)))
            statement = Statement(number, start, statement.text, data, *place)
        statements.append(statement)


def misplaced(found: Optional[re.Match[bytes]], block: Optional[Block]) -> str:
    """Why a line that begins with a backslash is out of its place, or nothing."""
    if found is None or (found[2] and int(found[2]) == 0):
        return r"this line is none of \parallel, \session N and \end, and psql's commands aren't there"
    if found[1] == b"parallel":
        return r"a block is open: \end closes it" if block else ""
    if block is None:
        return r"no block is open: \parallel opens one"
    return f"a block has at most {MOST_SESSIONS} sessions" if found[2] and int(found[2]) > MOST_SESSIONS else ""


def is_line_start(script: bytes, at: int) -> bool:
    return at == 0 or script[at - 1 : at] == b"\n"


def line_end(script: bytes, at: int) -> int:
    """The offset of the newline that ends the line, or of the script's end."""
    end = script.find(b"\n", at)
    return len(script) if end < 0 else end


def skip_front(script: bytes, at: int) -> int:
    """Passes over blanks, comments and semicolons."""
    while True:
        front = FRONT.match(script, at)
        at = front.end() if front else at
        if not script.startswith(b"--", at):
            return at
        at = line_end(script, at)


def statement_end(script: bytes, at: int) -> int:
    """The offset of the `;` that ends a statement, or of the script's end."""
    while True:
        found = STOP.search(script, at)
        if found is None:
            return len(script)
        if found.group() == b";":
            return found.start()
        if found.group() == b"--":
            at = line_end(script, found.end())
        else:
            close = script.find(b"'", found.end())
            if close < 0:
                return len(script)
            at = close + 1


def copy_data(script: bytes, start: int) -> tuple[CopyData, int]:
    """The data of a COPY that begin at a line, and the offset behind them."""
    found = DATA_END.search(script, start)
    if found is None:
        return CopyData(start, script[start:], False), len(script)
    return CopyData(start, script[start : found.start()], True), found.end()


def row_start(statement: Statement, number: int) -> Optional[int]:
    """The offset in the script at which a row of an INSERT or a COPY begins; rows count from 1."""
    if statement.data is not None:
        starts = csv_records(statement) if statement.is_csv else text_lines(statement.data.text)
        begin = statement.data.start
    else:
        starts = inserted_rows(statement.bare)
        begin = statement.start
    for count, start in enumerate(starts, 1):
        if count == number:
            return begin + start
    return None


def text_lines(data: bytes) -> Iterator[int]:
    at = 0
    while at < len(data):
        yield at
        at = line_end(data, at) + 1


def csv_records(statement: Statement) -> Iterator[int]:
    """Where the records of a COPY's data begin, without the one of the header."""
    assert statement.data is not None
    data = statement.data.text
    at = len(BYTE_ORDER_MARK) if data.startswith(BYTE_ORDER_MARK) else 0
    is_header = statement.has_header
    while at < len(data):
        if data[at] in b"\r\n":
            at += 1
            continue
        if not is_header:
            yield at
        is_header = False
        field = CSV_FIELD.match(data, at)
        while field is not None and data[field.end() : field.end() + 1] == b",":
            field = CSV_FIELD.match(data, field.end() + 1)
        at = len(data) if field is None else field.end()


def inserted_rows(bare: bytes) -> Iterator[int]:
    """Where the rows in brackets behind VALUES begin."""
    values = re.search(rb"(?i)\bvalues\b", bare)
    depth = 0
    for bracket in re.finditer(rb"[()]", bare[values.end() :]) if values else ():
        if bracket.group() == b")":
            depth -= 1
            continue
        if depth == 0 and values:
            yield values.end() + bracket.start()
        depth += 1


@dataclass(frozen=True)
class Place:
    """A place in a file as an editor counts: line and column from 1, and the line's text."""

    line: int
    column: int
    text: str


class Lines:
    """The lines of a script."""

    def __init__(self, script: bytes) -> None:
        self._script = script
        self._ends = [found.start() for found in re.finditer(rb"\n", script)]

    def place(self, at: int) -> Place:
        """The place of an offset."""
        line = bisect_left(self._ends, at)
        begin = self._ends[line - 1] + 1 if line else 0
        end = self._ends[line] if line < len(self._ends) else len(self._script)
        before = self._script[begin:at].decode(errors="replace")
        text = self._script[begin:end].decode(errors="replace")
        return Place(line + 1, len(before) + 1, text.rstrip("\r"))

    def start(self, line: int) -> int:
        """The offset at which a line begins; lines count from 1."""
        return self._ends[line - 2] + 1 if line > 1 else 0
