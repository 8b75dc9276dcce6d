"""What queries give by the rules of docs/SELECT.md, with every mark: a second reading, for `marks_of_queries.py`.

An expression has its text and its value in a setting; a step makes a relation of relations. All values are whole
numbers or NULL, and those of conditions TRUE, FALSE or NULL.
"""
from functools import cmp_to_key
from typing import Any, NamedTuple, Optional

COMPARISONS = {
    "=": lambda a, b: a == b,
    "<": lambda a, b: a < b,
    ">=": lambda a, b: a >= b,
    "<>": lambda a, b: a != b,
}
AGGREGATES = {"COUNT": len, "SUM": sum, "MIN": min, "MAX": max}


class Marked(NamedTuple):
    """A value, and whether it is marked. None is NULL."""

    value: Any
    marked: bool


class Row(NamedTuple):
    id: str
    sure: bool
    values: list


class Relation(NamedTuple):
    columns: list
    rows: list
    is_open: bool
    is_loose: bool


class Setting(NamedTuple):
    """What names stand for: values by column, and in a core with groups the rows of the group too."""

    row: dict
    group: Optional[list] = None
    uncertain: bool = False


# ---- expressions: the text of each form, and its value

class Literal(NamedTuple):
    number: int

    def text(self):
        return str(self.number)

    def eval(self, setting):
        return Marked(self.number, False)


class Column(NamedTuple):
    name: str

    def text(self):
        return self.name

    def eval(self, setting):
        return setting.row[self.name]


class Caveat(NamedTuple):
    of: Any

    def text(self):
        return f"CAVEAT({self.of.text()}, 'm')"

    def eval(self, setting):
        return Marked(self.of.eval(setting).value, True)


class Plus(NamedTuple):
    left: Any
    right: Any

    def text(self):
        return f"({self.left.text()} + {self.right.text()})"

    def eval(self, setting):
        left, right = self.left.eval(setting), self.right.eval(setting)
        is_null = left.value is None or right.value is None
        return Marked(None if is_null else left.value + right.value, left.marked or right.marked)


class Comparison(NamedTuple):
    sign: str
    left: Any
    right: Any

    def text(self):
        return f"({self.left.text()} {self.sign} {self.right.text()})"

    def eval(self, setting):
        left, right = self.left.eval(setting), self.right.eval(setting)
        is_null = left.value is None or right.value is None
        value = None if is_null else COMPARISONS[self.sign](left.value, right.value)
        return Marked(value, left.marked or right.marked)


class Connective(NamedTuple):
    """AND, which FALSE decides, or OR, which TRUE decides: after such a left side the right one isn't looked at."""

    word: str
    left: Any
    right: Any

    def text(self):
        return f"({self.left.text()} {self.word} {self.right.text()})"

    def eval(self, setting):
        deciding = self.word == "OR"
        left = self.left.eval(setting)
        if left.value is deciding:
            return left
        right = self.right.eval(setting)
        if left.value is not None or right.value is deciding:
            value = right.value
        else:
            value = None
        return Marked(value, left.marked or right.marked)


class Not(NamedTuple):
    of: Any

    def text(self):
        return f"(NOT {self.of.text()})"

    def eval(self, setting):
        of = self.of.eval(setting)
        return Marked(None if of.value is None else not of.value, of.marked)


class IsNull(NamedTuple):
    of: Any

    def text(self):
        return f"({self.of.text()} IS NULL)"

    def eval(self, setting):
        of = self.of.eval(setting)
        return Marked(of.value is None, of.marked)


class Coalesce(NamedTuple):
    """The first value that isn't NULL, marked where one that was looked at is."""

    parts: tuple

    def text(self):
        return f"COALESCE({', '.join(part.text() for part in self.parts)})"

    def eval(self, setting):
        marked = False
        for part in self.parts:
            seen = part.eval(setting)
            marked = marked or seen.marked
            if seen.value is not None:
                return Marked(seen.value, marked)
        return Marked(None, marked)


class Case(NamedTuple):
    """The branch of a TRUE condition, else that of ELSE or NULL, marked where what was looked at is."""

    condition: Any
    answer: Any
    otherwise: Any

    def text(self):
        last = "" if self.otherwise is None else f" ELSE {self.otherwise.text()}"
        return f"CASE WHEN {self.condition.text()} THEN {self.answer.text()}{last} END"

    def eval(self, setting):
        condition = self.condition.eval(setting)
        branch = self.answer if condition.value is True else self.otherwise
        if branch is None:
            return Marked(None, condition.marked)
        answer = branch.eval(setting)
        return Marked(answer.value, condition.marked or answer.marked)


class CountAll(NamedTuple):
    def text(self):
        return "COUNT(*)"

    def eval(self, setting):
        return Marked(len(setting.group), setting.uncertain)


class Aggregate(NamedTuple):
    """COUNT, SUM, MIN or MAX: it skips NULLs, and has the mark of its operand in any row of the group."""

    word: str
    of: Any

    def text(self):
        return f"{self.word}({self.of.text()})"

    def eval(self, setting):
        seen = [self.of.eval(Setting(row)) for row in setting.group]
        values = [marked.value for marked in seen if marked.value is not None]
        value = AGGREGATES[self.word](values) if values or self.word == "COUNT" else None
        return Marked(value, setting.uncertain or any(marked.marked for marked in seen))


def has_aggregate(expression):
    if isinstance(expression, (CountAll, Aggregate)):
        return True
    return isinstance(expression, tuple) and any(has_aggregate(part) for part in expression)


# ---- values and keys

def literal(value):
    return "null" if value is None else str(value)


def compare(a, b):
    """The order of two values or keys of one length: NULL comes first."""
    for left, right in zip(a, b):
        if left != right:
            return -1 if left is None or (right is not None and left < right) else 1
    return 0


def key_of(row, places):
    return tuple(row.values[place].value for place in places)


def has_marked(row, places):
    return any(row.values[place].marked for place in places)


def bound(relation, row):
    return dict(zip(relation.columns, row.values))


# ---- the steps, in the order of the table in docs/SELECT.md

def joined(left, right, on, keeps_left):
    """JOIN: pairs whose ON is TRUE; LEFT JOIN: also each left row without a pair, in its place."""
    rows, is_open = [], left.is_open or right.is_open
    for row in left.rows:
        paired, marked = [], False
        for other in right.rows:
            condition = on.eval(Setting({**bound(left, row), **bound(right, other)}))
            marked = marked or condition.marked
            if condition.value is True:
                sure = row.sure and other.sure and not condition.marked
                paired.append(Row(f"({row.id},{other.id})", sure, row.values + other.values))
        if keeps_left and not paired:
            nulls = [Marked(None, False) for _ in right.columns]
            paired = [Row(f"({row.id},-)", row.sure and not right.is_open and not marked, row.values + nulls)]
        rows += paired
        is_open = is_open or marked
    return Relation(left.columns + right.columns, rows, is_open, left.is_loose or right.is_loose)


def filtered(relation, condition):
    """WHERE: a kept row with a marked condition is unsure, and a marked condition on any row opens the result."""
    rows, is_open = [], relation.is_open
    for row in relation.rows:
        seen = condition.eval(Setting(bound(relation, row)))
        is_open = is_open or seen.marked
        if seen.value is True:
            rows.append(Row(row.id, row.sure and not seen.marked, row.values))
    return Relation(relation.columns, rows, is_open, relation.is_loose)


def is_uncertain(relation, places):
    """Whether rows may be missing or be others, or belong to another group."""
    return relation.is_open or any(has_marked(row, places) for row in relation.rows)


def lots_of(relation, places):
    """For each key, in ascending order: the key, whether its group is sure, and its rows."""
    keys = sorted({key_of(row, places) for row in relation.rows}, key=cmp_to_key(compare))
    for key in keys:
        rows = [row for row in relation.rows if key_of(row, places) == key]
        yield key, any(row.sure and not has_marked(row, places) for row in rows), rows


def id_of_key(key):
    return f"[{','.join(map(literal, key))}]"


def grouped(relation, keys, having, items):
    """GROUP BY, HAVING and the items: without keys there is one group, which is sure and leaves the result closed."""
    places = [relation.columns.index(key) for key in keys]
    uncertain = is_uncertain(relation, places)
    lots = lots_of(relation, places) if keys else [((), True, relation.rows)]
    rows, is_open = [], bool(keys) and uncertain
    for key, sure, of_key in lots:
        certain = {name: Marked(value, False) for name, value in zip(keys, key)}
        setting = Setting(certain, [bound(relation, row) for row in of_key], uncertain)
        kept = Marked(True, False) if having is None else having.eval(setting)
        is_open = is_open or kept.marked
        if kept.value is True:
            rows.append(Row(id_of_key(key), sure and not kept.marked, [item.eval(setting) for item in items]))
    return Relation(output_names(items), rows, is_open, False)


def projected(relation, items):
    """The items: one value for each, ids kept; open and loose stay."""
    rows = []
    for row in relation.rows:
        setting = Setting(bound(relation, row))
        rows.append(Row(row.id, row.sure, [item.eval(setting) for item in items]))
    return Relation(output_names(items), rows, relation.is_open, relation.is_loose)


def distinct(relation):
    """DISTINCT: groups by all columns."""
    places = range(len(relation.columns))
    rows = [Row(id_of_key(key), sure, [Marked(value, False) for value in key])
            for key, sure, _ in lots_of(relation, places)]
    return Relation(relation.columns, rows, is_uncertain(relation, places), False)


def united(left, right):
    """UNION ALL: the left rows, then the right ones, under the left names."""
    rows = [row._replace(id="<" + row.id) for row in left.rows] + [row._replace(id=">" + row.id) for row in right.rows]
    return Relation(left.columns, rows, left.is_open or right.is_open, left.is_loose or right.is_loose)


def ordered(relation, keys):
    """ORDER BY places, each with whether it goes down: loose also where a sure row is placed by a marked value."""
    places = [place for place, _ in keys]
    rows = relation.rows
    for place, goes_down in reversed(keys):
        rows = sorted(rows, key=lambda row: cmp_to_key(compare)(key_of(row, [place])), reverse=goes_down)
    by_guess = any(row.sure and has_marked(row, places) for row in rows)
    return Relation(relation.columns, rows, relation.is_open, relation.is_loose or by_guess)


def limited(relation, most):
    """LIMIT: of an open or loose relation every row is unsure and the result open."""
    rows = relation.rows[:most]
    if not (relation.is_open or relation.is_loose):
        return relation._replace(rows=rows)
    return relation._replace(rows=[row._replace(sure=False) for row in rows], is_open=True)


def output_names(items):
    return [f"o{place}" for place in range(len(items))]
