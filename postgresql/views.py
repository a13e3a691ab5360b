"""The query of a view in viewd's words, from what `pg_get_viewdef` prints.

A column that may be NULL is two columns of each query that shows it, here as in tables. What stands in the first where it is NULL is
always the same, so DISTINCT, GROUP BY, UNION and EXCEPT take two NULLs for one, as PostgreSQL does.
"""
from collections.abc import Mapping
from typing import NamedTuple

from pglast import ast, enums

from kinds import KINDS, SUM, Column, name_ok
from predicate import Refused, Test, every, fit, negated, written
from translate import Node, Reader, Value, Words, parsed, said, type_of

COLUMNS, SOURCES, STEPS = 16, 8, 256  # viewd's limits
SETS = {(enums.SetOperation.SETOP_UNION, False): "union", (enums.SetOperation.SETOP_UNION, True): "union all",
        (enums.SetOperation.SETOP_EXCEPT, False): "except"}


class Source(NamedTuple):
    """A relation that viewd has, or will have."""

    name: str
    columns: Mapping[str, Column]
    steps: int = 1  # of its query, none left out


class View(NamedTuple):
    query: str
    columns: dict[str, Column]
    steps: int
    sources: int = 1


Relations = Mapping[tuple[str, str], Source]  # by schema and name


class ViewReader(Reader):
    """Expressions over the sources of a query, by their aliases."""

    def __init__(self, sources: Mapping[str, Source], words: Words):
        super().__init__({}, words, False)
        self.sources = sources

    def find(self, node: Node) -> tuple[str, Column]:
        fields = [getattr(it, "sval", "*") for it in node.fields]
        if len(fields) == 1:
            of = [alias for alias, it in self.sources.items() if fields[0] in it.columns]
            fields = [of[0], fields[0]] if len(of) == 1 else fields
        if len(fields) != 2 or fields[0] not in self.sources or fields[1] not in self.sources[fields[0]].columns:
            raise Refused(f"{said(node)} is not one that is followed")
        return ".".join(fields), self.sources[fields[0]].columns[fields[1]]


def view(query: str, relations: Relations, words: Words) -> View:
    """The query for `create_view`, with the columns that PostgreSQL's view has. Raises Refused."""
    try:
        made = _query(parsed(query), relations, words)
    except RecursionError:
        raise Refused("it is nested too deep") from None
    names = list(halves(made.columns))
    for name in names:
        if not name_ok(name):
            raise Refused(f"its column {name} has no name of viewd's: give it another one by AS")
    if len(set(names)) < len(names):
        raise Refused(f"its column {next(it for it in names if names.count(it) > 1)} twice, one of them for where another is NULL")
    if not 1 <= len(names) <= COLUMNS:
        raise Refused(f"{len(names)} columns, of which viewd can have {COLUMNS}")
    if made.steps > STEPS:
        raise Refused(f"up to {made.steps} steps with those of its views, of which viewd can have {STEPS}")
    if made.sources > SOURCES:
        raise Refused(f"{made.sources} sources, of which viewd can have {SOURCES}")
    return made._replace(query=fit(made.query))


def halves(columns: Mapping[str, Column]) -> list[str]:
    """The names of viewd's columns: two for one that may be NULL."""
    return [it for name, column in columns.items() for it in ([name, f"{name}_null"] if column.nullable else [name])]


def _query(node: Node, relations: Relations, words: Words) -> View:
    if not isinstance(node, ast.SelectStmt):
        raise Refused(said(node))
    for what, part in (("WITH", node.withClause), ("LIMIT", node.limitCount), ("OFFSET", node.limitOffset), ("HAVING", node.havingClause),
                       ("WINDOW", node.windowClause), ("VALUES", node.valuesLists), ("FOR UPDATE", node.lockingClause)):
        if part:
            raise Refused(what)
    # ORDER BY alone changes no bag, and stands nowhere where a view is read by SELECT
    if node.op == enums.SetOperation.SETOP_NONE:
        return _select(node, relations, words)
    word = SETS.get((node.op, bool(node.all)))
    if word is None:
        raise Refused(node.op.name.removeprefix("SETOP_") + (" ALL" if node.all else ""))
    if not node.all:
        ViewReader({}, words).printed(node.op.name.removeprefix("SETOP_"))
    if node.rarg.op != enums.SetOperation.SETOP_NONE:
        raise Refused("a set operation on the right of another")
    left, right = _query(node.larg, relations, words), _query(node.rarg, relations, words)
    for (name, one), other in zip(left.columns.items(), right.columns.values()):
        if one.kind.family != other.kind.family:
            raise Refused(f"{node.op.name.removeprefix('SETOP_')}: its column {name} is of two kinds")
        if one.nullable != other.nullable:
            raise Refused(f"{node.op.name.removeprefix('SETOP_')}: its column {name} may be NULL on one side alone")
    columns = {name: both(one, other) for (name, one), other in zip(left.columns.items(), right.columns.values())}
    return View(f"{left.query} {word} {right.query}", columns, left.steps + right.steps + 2, left.sources + right.sources)


def both(one: Column, other: Column) -> Column:
    """A column of a set operation: of two collations none is its own, and the number has the wider size or more."""
    kind = one.kind if one.kind == other.kind else one.kind._replace(size=8)
    return one._replace(kind=kind, collation=one.collation if one.collation == other.collation else "two")


def _conjuncts(node: Node) -> list[Node]:
    if node is None:
        return []
    if isinstance(node, ast.BoolExpr) and node.boolop == enums.BoolExprType.AND_EXPR:
        return [it for arg in node.args for it in _conjuncts(arg)]
    return [node]


class From:
    """The sources of a query, in their order, and what has to be true of their rows together."""

    def __init__(self, node: Node, relations: Relations, words: Words):
        self.words = words
        self.sources: dict[str, Source] = {}
        self.conditions: list[Node] = []
        self.relations = relations
        for it in node.fromClause or ():
            self.add(it)
        if not self.sources:
            raise Refused("a SELECT without FROM")
        self.conditions += _conjuncts(node.whereClause)

    def add(self, node: Node) -> None:
        match node:
            case ast.RangeVar():
                self.relation(node)
            case ast.JoinExpr(jointype=enums.JoinType.JOIN_INNER):
                if node.alias or node.join_using_alias:
                    raise Refused("an alias of a join")
                start = len(self.sources)
                self.add(node.larg)
                middle = len(self.sources)
                self.add(node.rarg)
                aliases = list(self.sources)
                for using in node.usingClause or ():
                    ViewReader({}, self.words).printed("USING")
                    sides = aliases[start:middle], aliases[middle:]
                    one, other = ([a for a in part if using.sval in self.sources[a].columns] for part in sides)
                    if len(one) != 1 or len(other) != 1:
                        raise Refused(f"USING ({using.sval})")
                    left, right = (ast.ColumnRef(fields=(ast.String(it), ast.String(using.sval))) for it in (one[0], other[0]))
                    equal = ast.A_Expr(kind=enums.A_Expr_Kind.AEXPR_OP, name=(ast.String("="),), lexpr=left, rexpr=right)
                    self.conditions.append(equal)
                self.conditions += _conjuncts(node.quals)
            case ast.JoinExpr():
                raise Refused(node.jointype.name.removeprefix("JOIN_") + " JOIN")
            case ast.RangeSubselect():
                raise Refused("a subquery in FROM")
            case _:
                raise Refused(said(node))

    def relation(self, node: Node) -> None:
        found = self.relations.get((node.schemaname, node.relname))
        if found is None:
            raise Refused(f"{node.schemaname + '.' if node.schemaname else ''}{node.relname} is not followed, or is left out")
        alias = node.alias.aliasname if node.alias else node.relname
        if node.alias and node.alias.colnames:
            raise Refused("new names of columns in FROM")
        if not name_ok(alias):
            raise Refused(f"the alias {alias}")
        if alias in self.sources:
            raise Refused(f"the alias {alias} twice")
        self.sources[alias] = found


def tie(it: Node, reader: ViewReader) -> tuple[Value, Value] | None:
    """Two columns of two sources that have to be equal, casts aside that change nothing."""
    if not isinstance(it, ast.A_Expr) or it.kind != enums.A_Expr_Kind.AEXPR_OP or it.lexpr is None or [w.sval for w in it.name] != ["="]:
        return None
    try:
        reader.agreed("=", [it.lexpr, it.rexpr])
        one, other = reader.pair("=", it.lexpr, it.rexpr)
    except Refused:
        return None
    return (one, other) if one.column and other.column and source(one) != source(other) else None


def source(side: Value) -> str:
    return side.column.split(".")[0]


def _joined(tables: From, reader: ViewReader) -> str:
    """`from` with its joins and `where`. Joins of equals may stand in any order: the next source is one that is tied to those before."""
    order = list(tables.sources)
    text = f"{tables.sources[order[0]].name} {order[0]}"
    seen, waiting = {order[0]}, order[1:]
    left = [(it, tie(it, reader)) for it in tables.conditions]
    rest: list[Test] = []
    while waiting:
        for alias in waiting:
            ties = [(it, pair) for it, pair in left if pair and (of := {source(side) for side in pair}) - seen == {alias} and of & seen]
            if ties:
                break
        else:
            raise Refused(f"{waiting[0]} is joined without a column that is equal to one of the others")
        text += f" join {tables.sources[alias].name} {alias} on " + " and ".join(f"{a.text} = {b.text}" for _, (a, b) in ties)
        rest += [negated(side.null) for _, pair in ties for side in pair]  # what stands in a column where it is NULL is equal too
        left = [it for it in left if all(it[0] is not used for used, _ in ties)]
        seen.add(alias)
        waiting.remove(alias)
    where = written(every([*rest, *(reader.says(it, True) for it, _ in left)]))
    return text if where == "true" else f"{text} where {where}"


def _select(node: Node, relations: Relations, words: Words) -> View:
    tables = From(node, relations, words)
    reader = ViewReader(tables.sources, words)
    text = _joined(tables, reader)
    columns: dict[str, Column] = {}
    items: list[str] = []
    aggregates = 0
    for target in node.targetList:
        if isinstance(target.val, ast.FuncCall):
            aggregates += 1
            name, column, item = _aggregate(target.val, reader)
        else:
            name, column, item = _shown(target.val, reader)
        name = target.name or name
        if name in columns:
            raise Refused(f"the column {name} twice")
        columns[name] = column
        items += [f"{item} as {name}", *([f"{item}_null as {name}_null"] if column.nullable else [])]
    distinct = ""
    if node.distinctClause or node.groupClause:
        reader.printed("DISTINCT" if node.distinctClause else "GROUP BY")
    if node.distinctClause:
        if node.distinctClause != (None,):
            raise Refused("DISTINCT ON")
        distinct = "distinct "
    if node.groupClause:
        keys = _keys(node.groupClause, reader)
        if alone := [it for it in items if "(" not in it and it.split(" as ")[0] not in keys]:
            raise Refused(f"{alone[0].split(' as ')[0]} is shown and not in GROUP BY")
        text += " group by " + ", ".join(keys)
    elif aggregates:
        raise Refused("sum or count without GROUP BY")
    steps = sum(it.steps + 1 for it in tables.sources.values()) + 4
    return View(f"select {distinct}{', '.join(items)} from {text}", columns, steps, len(tables.sources))


def _keys(nodes: tuple[Node, ...], reader: ViewReader) -> list[str]:
    keys = []
    for it in nodes:
        if not isinstance(it, ast.ColumnRef):
            raise Refused("GROUP BY something else than columns")
        name, column = reader.find(it)
        keys += [name, f"{name}_null"] if column.nullable else [name]
    return keys


def _shown(node: Node, reader: ViewReader) -> tuple[str, Column, str]:
    found = reader.operand(node)
    if not found.column:
        raise Refused(f"{found.text} in the list of columns")
    if isinstance(node, ast.TypeCast) and not isinstance(node.arg, ast.ColumnRef):
        raise Refused(said(node))
    if not isinstance(node, (ast.ColumnRef, ast.TypeCast)):
        raise Refused(said(node))
    name, column = reader.find(node.arg if isinstance(node, ast.TypeCast) else node)
    if isinstance(node, ast.TypeCast):
        column = column._replace(kind=found.kind, collation=found.collation)
        if type_of(node) in ("int2", "int4", "int8"):
            column = column._replace(kind=KINDS["bigint"])
    return name.split(".")[1], column, name


def _aggregate(node: Node, reader: ViewReader) -> tuple[str, Column, str]:
    name = ".".join(it.sval for it in node.funcname)
    if name not in ("count", "sum"):
        raise Refused(said(node))
    if node.agg_filter or node.agg_distinct or node.agg_order or node.over:
        raise Refused(f"{name} with FILTER, DISTINCT, ORDER BY or OVER")
    if node.agg_star:
        return name, Column(KINDS["bigint"]), "count(*)"
    found = reader.operand(node.args[0]) if len(node.args or ()) == 1 else None
    if found is None or not found.column:
        raise Refused(said(node))
    if reader.find(node.args[0].arg if isinstance(node.args[0], ast.TypeCast) else node.args[0])[1].nullable:
        raise Refused(f"{name} of {found.column}, which may be NULL")
    if name == "count":  # never NULL, so all are counted
        return name, Column(KINDS["bigint"]), "count(*)"
    if found.kind.family != "int":
        raise Refused(f"sum of {found.kind.family}")
    return name, Column(SUM if found.kind.size == 8 else KINDS["bigint"]), f"sum({found.column})"
