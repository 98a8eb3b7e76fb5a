"""The tables of a run and where their shards lie, from its script and its answers, by the rules of docs/FORMATS.md."""

from __future__ import annotations

import re
from dataclasses import dataclass, field
from typing import Iterable, Optional

from outputs import Answer

FIRST_SHARD = 102008
FIRST_COUNT = 32
TOKENS = 1 << 32
LEAST_TOKEN = -(1 << 31)
NAME = r"[A-Za-z_][A-Za-z0-9_$]*"
TEXT = r"'([^']*)'"
CALL = re.compile(rf"(?is)select\s+(create_distributed_table|create_reference_table)\s*\(\s*{TEXT}\s*(?:,\s*{TEXT}\s*)?(.*)\)")
SETTING = re.compile(r"(?i)set\s+citus\s*\.\s*shard_count\s+(?:to|=)\s*(\d+)")
WRITE = re.compile(rf"(?i)(insert\s+into|update|copy|delete\s+from)\s+({NAME})")


@dataclass
class Colocation:
    """A co-location group: the type of its distribution columns, its number of shards, and its first shard group."""

    number: int
    kind: str
    count: int
    first_group: int
    is_joinable: bool

    @property
    def groups(self) -> range:
        return range(self.first_group, self.first_group + self.count)


@dataclass
class Table:
    """A table whose rows lie in shards: by a column in those of a co-location group, or whole in the one of a reference group."""

    name: str
    first_shard: int
    groups: range
    column: Optional[str] = None
    colocation: Optional[Colocation] = None

    def shard(self, group: int) -> str:
        return f"{self.name}_{self.first_shard + group - self.groups.start}"


@dataclass
class Tables:
    """The tables that the statements so far have distributed."""

    shard_count: int = FIRST_COUNT
    kinds: dict[str, dict[str, str]] = field(default_factory=dict)
    distributed: list[Table] = field(default_factory=list)
    colocations: list[Colocation] = field(default_factory=list)
    next_shard: int = FIRST_SHARD
    next_group: int = 0

    def follow(self, answer: Answer) -> None:
        """What a statement that was done has changed."""
        text = answer.statement.plain.decode(errors="replace")
        setting = SETTING.match(text)
        call = CALL.match(text)
        if answer.statement.first_word == "CREATE":
            self._create(answer.statement.bare.decode(errors="replace"))
        elif setting:
            self.shard_count = int(setting[1])
        elif call and call[1].lower() == "create_reference_table":
            self._add(Table(call[2], self.next_shard, range(self.next_group, self.next_group + 1)))
            self.next_group += 1
        elif call:
            self._distribute(call[2], call[3], call[4])

    def _create(self, text: str) -> None:
        name = re.match(rf"(?i)create\s+table\s+({NAME})", text)
        if name:
            columns = re.findall(rf"(?i)[(,]\s*({NAME})\s+(bigint|int|integer|text)\b", text)
            kinds = {column.lower(): "integer" if kind.lower() == "int" else kind.lower() for column, kind in columns}
            self.kinds[name[1].lower()] = kinds

    def _distribute(self, name: str, column: str, options: str) -> None:
        beside = re.search(rf"(?i)colocate_with\s*=>\s*{TEXT}", options)
        count = re.search(r"(?i)shard_count\s*=>\s*(\d+)", options)
        colocation = self._colocation(
            self.kinds.get(name, {}).get(column, ""),
            beside[1] if beside else "default",
            int(count[1]) if count else None,
        )
        self._add(Table(name, self.next_shard, colocation.groups, column, colocation))

    def _colocation(self, kind: str, beside: str, count: Optional[int]) -> Colocation:
        """The co-location group that a new table joins, which may be a new one."""
        for table in self.distributed:
            if table.name == beside and table.colocation:
                return table.colocation
        is_joinable = beside == "default" and count is None
        for colocation in self.colocations if is_joinable else []:
            if colocation.is_joinable and colocation.kind == kind and colocation.count == self.shard_count:
                return colocation
        new = Colocation(len(self.colocations), kind, count or self.shard_count, self.next_group, is_joinable)
        self.colocations.append(new)
        self.next_group += new.count
        return new

    def _add(self, table: Table) -> None:
        self.distributed.append(table)
        self.next_shard += len(table.groups)

    def of_group(self, group: int) -> list[Table]:
        """The tables that have a shard in a group."""
        return [table for table in self.distributed if group in table.groups]

    def colocation_of(self, group: int) -> Optional[Colocation]:
        """The co-location group that a shard group is of, if it isn't that of a reference table."""
        return next((colocation for colocation in self.colocations if group in colocation.groups), None)


def tables_of(answers: Iterable[Answer]) -> Tables:
    """The tables that statements leave which were done."""
    tables = Tables()
    for answer in answers:
        tables.follow(answer)
    return tables


@dataclass(frozen=True)
class RowChange:
    """What each row that the journals count of a write does to its table: it is one more, one less, or another one."""

    table: str
    sign: int


def row_change(answer: Answer) -> Optional[RowChange]:
    """What a statement does to the rows of a table, if it writes."""
    found = WRITE.match(answer.statement.bare.decode(errors="replace"))
    if found is None:
        return None
    verb = found[1].lower()
    return RowChange(found[2].lower(), -1 if verb.startswith("delete") else 0 if verb == "update" else 1)
