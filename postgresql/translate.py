"""Expressions of PostgreSQL in viewd's words: those of policies, and those in a view's query.

The texts are those that PostgreSQL prints (`pg_get_expr`, `pg_get_viewdef`), with nothing but pg_catalog on the search path: so
what has no schema in front is PostgreSQL's own. They are read by PostgreSQL's own parser (libpg_query, by pglast), and
what is not known here is refused: nothing is left out and nothing is guessed.

PostgreSQL's logic has three values, and viewd's has two. A column that may be NULL is two in viewd, and an expression becomes the
predicate that is true exactly where it is true, or exactly where it is false (`Reader.says`). Where neither is, it is unknown.
"""
import operator
from collections.abc import Callable, Iterable, Mapping, Sequence
from typing import Any, NamedTuple

import pglast
from pglast import ast, enums

from kinds import BYTEWISE, CASTS, KINDS, Column, Kind, constant
from predicate import FALSE, OPPOSITE, TRUE, Atom, Refused, Test, every, negated, some

Node = Any  # pglast has no types
OPERATORS: dict[str, Callable[[Any, Any], bool]] = {"=": operator.eq, "<>": operator.ne, "<": operator.lt, "<=": operator.le,
                                                    ">": operator.gt, ">=": operator.ge}
USER = "current_user"  # who the user of a session is
STEPS = 20_000  # looks at a part of an expression, after which it is refused
TESTS = enums.BoolTestType
PARTS = ("distinctClause", "intoClause", "fromClause", "whereClause", "groupClause", "havingClause", "windowClause", "valuesLists", "sortClause", "limitOffset",
         "limitCount", "lockingClause", "withClause", "op")  # of a SELECT, beside what it asks


class Words(NamedTuple):
    """What an expression may speak of, beside columns."""

    collation: str = "C"  # the database's
    enums: Mapping[str, Kind] = {}  # by schema.name
    equality: bool = False  # the database has an operator = of its own, which may be meant if none is printed
    casts: bool = False  # and a cast of its own
    users: Mapping[str, Kind | None] = {}  # calls that tell who the user of a session is, as `call` writes them: what each answers
    names: Sequence[str] = ()  # the users


class Value(NamedTuple):
    """An operand. `null` says if it is NULL."""

    text: str
    kind: Kind
    null: Test = FALSE
    collation: str = ""
    explicit: bool = False  # by COLLATE: it decides whatever the other side is
    column: str = ""


def said(node: Node) -> str:
    """The name of a form that is not known, for a refusal."""
    match node:
        case ast.FuncCall():
            return f"the function {'.'.join(it.sval for it in node.funcname)}"
        case ast.SubLink():
            return "a subquery"
        case ast.CaseExpr():
            return "CASE"
        case ast.CoalesceExpr():
            return "COALESCE"
        case ast.A_Expr(kind=enums.A_Expr_Kind.AEXPR_NULLIF):
            return "NULLIF"
        case ast.A_Expr():
            return f"the operator {'.'.join(it.sval for it in node.name)}"
        case ast.SQLValueFunction():
            return str(node.op.name.removeprefix("SVFOP_"))
        case ast.ColumnRef():
            return "the column " + ".".join(getattr(it, "sval", "*") for it in node.fields)
        case ast.NullTest():
            return "IS NULL"
        case ast.TypeCast():
            return f"a cast to {type_of(node)}"
        case None:
            return "nothing"
    return type(node).__name__


def type_of(cast: Node) -> str:
    names = [it.sval for it in cast.typeName.names]
    return ".".join(names[1:] if names[0] == "pg_catalog" else names) + ("[]" if cast.typeName.arrayBounds else "")


def parsed(text: str) -> Node:
    try:
        return pglast.parse_sql(text)[0].stmt
    except pglast.parser.ParseError as why:
        raise Refused(f"it cannot be read: {why}") from None


def call(node: Node) -> str | None:
    """A call whose arguments are constants, in one form."""
    if not isinstance(node, ast.FuncCall) or node.agg_star or node.over or node.agg_filter:
        return None
    said_of = []
    for it in node.args or ():
        it = it.arg if isinstance(it, ast.TypeCast) and type_of(it) == "text" else it
        match it:
            case ast.A_Const(isnull=False, val=ast.String()):
                said_of.append(repr(it.val.sval))
            case ast.A_Const(isnull=False, val=ast.Boolean()):
                said_of.append(str(it.val.boolval).lower())
            case _:
                return None
    return f"{'.'.join(it.sval for it in node.funcname)}({', '.join(said_of)})"


def plain_subquery(node: Node) -> Node:
    """The one expression of a subquery that has nothing else."""
    if not isinstance(node, ast.SubLink) or node.subLinkType != enums.SubLinkType.EXPR_SUBLINK or any(getattr(node.subselect, it) for it in PARTS):
        return None
    asked = [it.val for it in node.subselect.targetList or ()]
    return asked[0] if len(asked) == 1 else None


def user_call(text: str) -> str:
    """The form of a call that the configuration names. Raises Refused if it is none."""
    node = parsed(f"select {text}")
    found = call(node.targetList[0].val) if isinstance(node, ast.SelectStmt) and len(node.targetList or ()) == 1 else None
    if found is None:
        raise Refused(f"{text} is no call with constants alone")
    return found


class Reader:
    """Expressions over columns."""

    def __init__(self, columns: Mapping[str, Column], words: Words, policy: bool):
        self.columns, self.words, self.policy, self.steps = columns, words, policy, 0
        self.as_uuid = False  # who the user is, is asked for as a uuid

    def find(self, node: Node) -> tuple[str, Column]:
        """The text of a column that a reference means."""
        fields = [getattr(it, "sval", "*") for it in node.fields]
        if len(fields) != 1 or fields[0] not in self.columns:
            raise Refused(f"{said(node)} is not one that is followed")
        return fields[0], self.columns[fields[0]]

    def says(self, node: Node, value: bool) -> Test:
        """What says that the expression is true, or that it is false."""
        self.steps += 1
        if self.steps > STEPS:
            raise Refused("it is too long")
        match node:
            case ast.BoolExpr(boolop=enums.BoolExprType.NOT_EXPR):
                return self.says(node.args[0], not value)
            case ast.BoolExpr():
                joined = every if (node.boolop == enums.BoolExprType.AND_EXPR) == value else some
                return joined([self.says(it, value) for it in node.args])
            case ast.BooleanTest():
                return self.tested(node, value)
            case ast.NullTest() if not node.argisrow:
                null = self.unknown(node.arg) if self.is_boolean(node.arg) else self.null(node.arg)
                return null if (node.nulltesttype == enums.NullTestType.IS_NULL) == value else negated(null)
            case ast.A_Expr(kind=enums.A_Expr_Kind.AEXPR_OP) if node.lexpr is not None:
                return self.compared(self.operator(node), node.lexpr, node.rexpr, value)
            case ast.A_Expr(kind=enums.A_Expr_Kind.AEXPR_DISTINCT | enums.A_Expr_Kind.AEXPR_NOT_DISTINCT):
                self.printed("IS DISTINCT FROM")
                self.operator(node)
                same = self.same(node.lexpr, node.rexpr)
                return same if (node.kind == enums.A_Expr_Kind.AEXPR_NOT_DISTINCT) == value else negated(same)
            case ast.A_Expr(kind=enums.A_Expr_Kind.AEXPR_OP_ANY | enums.A_Expr_Kind.AEXPR_OP_ALL):
                op, elements = self.operator(node), self.elements(node.rexpr)
                self.agreed(op, [node.lexpr, *elements])
                joined = some if (node.kind == enums.A_Expr_Kind.AEXPR_OP_ANY) == value else every
                return joined([self.compared(op, node.lexpr, it, value) for it in elements])
            case ast.CaseExpr():
                return self.cases(node, value)
            case ast.CoalesceExpr():
                return self.first(node.args, self.unknown, lambda it: self.says(it, value))
        found = self.operand(node)
        if found.kind.viewd != "flag":
            raise Refused(said(node))
        if found.null == TRUE:
            return FALSE
        if found.text in ("true", "false"):
            return TRUE if (found.text == "true") == value else FALSE
        return every([negated(found.null), Atom(found.text, "=", str(value).lower())])

    def unknown(self, node: Node) -> Test:
        return negated(some([self.says(node, True), self.says(node, False)]))

    def null(self, node: Node) -> Test:
        if isinstance(node, ast.CoalesceExpr):
            return every([self.null(it) for it in node.args])
        return self.operand(node).null

    def tested(self, node: Node, value: bool) -> Test:
        """IS TRUE and its kin, which are never unknown."""
        match node.booltesttype:
            case TESTS.IS_TRUE | TESTS.IS_NOT_TRUE:
                test = self.says(node.arg, True)
            case TESTS.IS_FALSE | TESTS.IS_NOT_FALSE:
                test = self.says(node.arg, False)
            case _:
                test = self.unknown(node.arg)
        plain = node.booltesttype in (TESTS.IS_TRUE, TESTS.IS_FALSE, TESTS.IS_UNKNOWN)
        return test if plain == value else negated(test)

    def cases(self, node: Node, value: bool) -> Test:
        """The first case whose condition is true decides; without ELSE it is unknown."""
        if node.arg is not None:
            self.printed("CASE .. WHEN a value")
        found: list[Test] = []
        before: Test = TRUE
        for it in node.args:
            when = self.says(it.expr, True) if node.arg is None else self.compared("=", node.arg, it.expr, True)
            found.append(every([before, when, self.says(it.result, value)]))
            before = every([before, negated(when)])
        return some([*found, *([every([before, self.says(node.defresult, value)])] if node.defresult else [])])

    @staticmethod
    def first(nodes: Iterable[Node], null: Callable[[Node], Test], test: Callable[[Node], Test]) -> Test:
        """COALESCE: the first that is not NULL decides."""
        found: list[Test] = []
        before: Test = TRUE
        for it in nodes:
            found.append(every([before, test(it)]))
            before = every([before, null(it)])
        return some(found)

    def printed(self, what: str) -> None:
        """Forms that compare by an operator whose name PostgreSQL does not print."""
        if self.words.equality:
            raise Refused(f"{what}: the database has an operator = of its own, which may be meant")

    def operator(self, node: Node) -> str:
        if len(node.name) != 1 or node.name[0].sval not in OPERATORS:
            raise Refused(said(node))
        return str(node.name[0].sval)

    def elements(self, node: Node) -> list[Node]:
        """Those of an array that is written out."""
        match node:
            case ast.A_ArrayExpr():
                return list(node.elements or ())
            case ast.TypeCast(arg=ast.A_ArrayExpr()) if self.plain(node) and len(node.typeName.arrayBounds or ()) == 1:
                of = ast.TypeName(names=node.typeName.names, typemod=-1)
                return [ast.TypeCast(arg=it, typeName=of) for it in node.arg.elements or ()]
        raise Refused("an array that is not written out" if isinstance(node, ast.TypeCast) else said(node))

    def is_boolean(self, node: Node) -> bool:
        match node:
            case ast.BoolExpr() | ast.BooleanTest() | ast.NullTest():
                return True
            case ast.A_Expr():
                return node.lexpr is not None and node.kind != enums.A_Expr_Kind.AEXPR_NULLIF
            case ast.CaseExpr():
                return self.is_boolean(node.args[0].result)
            case ast.CoalesceExpr():
                return self.is_boolean(node.args[0])
        return self.operand(node).kind.viewd == "flag"

    def compared(self, op: str, left: Node, right: Node, value: bool) -> Test:
        """What says that a comparison is true, or that it is false; it is neither if a side is NULL."""
        if self.is_boolean(left) or self.is_boolean(right):
            return some([every([self.says(left, one), self.says(right, other)])
                         for one in (False, True) for other in (False, True) if OPERATORS[op](one, other) == value])
        self.agreed(op, [left, right])
        if isinstance(left, ast.CoalesceExpr):
            return self.first(left.args, self.null, lambda it: self.compared(op, it, right, value))
        if isinstance(right, ast.CoalesceExpr):
            return self.first(right.args, self.null, lambda it: self.compared(op, left, it, value))
        one, other = self.pair(op, left, right)
        return every([negated(one.null), negated(other.null), Atom(one.text, op if value else OPPOSITE[op], other.text)])

    def agreed(self, op: str, sides: Sequence[Node]) -> None:
        """PostgreSQL answers with an error if columns of two collations, neither of them the database's, are compared."""
        found = [it for side in sides for it in self.values(side)]
        if len({it.collation for it in found if it.collation}) > 1 and not any(it.explicit for it in found):
            raise Refused(f"{f' {op} '.join(it.text for it in found)}: of two collations, which PostgreSQL does not compare")

    def values(self, node: Node) -> list[Value]:
        if isinstance(node, ast.CoalesceExpr):
            return [it for one in node.args for it in self.values(one)]
        return [] if self.is_boolean(node) else [self.operand(node)]

    def same(self, left: Node, right: Node) -> Test:
        """Where two are not distinct: both NULL, or equal."""
        if self.is_boolean(left) or self.is_boolean(right):
            return some([*(every([self.says(left, it), self.says(right, it)]) for it in (True, False)),
                         every([self.unknown(left), self.unknown(right)])])
        self.agreed("=", [left, right])
        one, other = self.pair("=", left, right)
        equal = every([negated(one.null), negated(other.null), Atom(one.text, "=", other.text)])
        return some([equal, every([one.null, other.null])])

    def pair(self, op: str, left: Node, right: Node) -> tuple[Value, Value]:
        """Two operands that viewd compares as PostgreSQL does."""
        one, other = self.operand(left), self.operand(right)
        if one.kind.family != other.kind.family:
            raise Refused(f"{one.text} {op} {other.text}: of two kinds")
        if op in ("=", "<>"):
            return one, other
        if not (one.kind.ordered and other.kind.ordered):
            raise Refused(f"{one.text} {op} {other.text}: viewd orders {one.kind.family} by the bytes of its texts")
        if one.kind.family == "text":
            names = {it.collation for it in (one, other) if it.explicit} or {it.collation for it in (one, other) if it.collation} or {""}
            if not all((it or self.words.collation) in BYTEWISE for it in names):
                raise Refused(f"{one.text} {op} {other.text}: viewd orders texts by their bytes; say COLLATE \"C\"",
                              tuple(it.column for it in (one, other) if it.column))
        return one, other

    @staticmethod
    def plain(node: Node) -> bool:
        """A type without a modifier, which would cut or round."""
        return not node.typeName.typmods and not node.typeName.setof and node.typeName.typemod in (-1, None)

    def operand(self, node: Node) -> Value:
        match node:
            case ast.ColumnRef():
                text, column = self.find(node)
                null = Atom(f"{text}_null", "=", "true") if column.nullable else FALSE
                return Value(text, column.kind, null, column.collation, column=text)
            case ast.A_Const(isnull=False, val=ast.Integer()):
                return self.number(node.val.ival or 0)
            case ast.A_Const(isnull=False, val=ast.Float()):  # a number with a point, or beyond 32 bits
                text = str(node.val.fval)
                return self.number(int(text)) if text.isdigit() else Value(constant(KINDS["numeric"], text), KINDS["numeric"])
            case ast.A_Const(isnull=False, val=ast.Boolean()):
                return Value("true" if node.val.boolval else "false", KINDS["boolean"])
            case ast.A_Const(isnull=False, val=ast.String()):
                return Value(constant(KINDS["text"], node.val.sval), KINDS["text"])
            case ast.A_Const(isnull=True):
                raise Refused("NULL without a type")
            case ast.SQLValueFunction(op=enums.SQLValueFunctionOp.SVFOP_CURRENT_USER | enums.SQLValueFunctionOp.SVFOP_CURRENT_ROLE
                                      | enums.SQLValueFunctionOp.SVFOP_USER) if self.policy and not self.words.users:
                return Value(USER, KINDS["text"], collation="C")
            case ast.FuncCall() if self.policy and call(node) in self.words.users:
                return self.user(self.words.users[call(node) or ""])
            case ast.SubLink() if self.policy and call(plain_subquery(node)) in self.words.users:
                return self.operand(plain_subquery(node))
            case ast.CollateClause():
                found = self.operand(node.arg)
                name = ".".join(it.sval for it in node.collname)  # with a schema it is not PostgreSQL's own
                if found.kind.family != "text" or name not in BYTEWISE + ("default",):
                    raise Refused(f"COLLATE {name}")
                return found._replace(collation=name.replace("default", ""), explicit=True)
            case ast.TypeCast():
                return self.cast(node)
            case ast.A_Expr(kind=enums.A_Expr_Kind.AEXPR_OP, lexpr=None) if [it.sval for it in node.name] == ["-"]:  # -5::bigint is -(5::bigint)
                found = self.operand(node.rexpr)
                if found.kind.family == "int" and found.text.isdigit():
                    return self.number(-int(found.text))
        raise Refused(said(node))

    def user(self, kind: Kind | None) -> Value:
        if kind is None:
            raise Refused("a call that answers neither a text nor a uuid")
        self.as_uuid |= kind.family == "uuid"
        return Value(USER, kind)

    @staticmethod
    def number(number: int) -> Value:
        size = 2 if -(1 << 15) <= number < 1 << 15 else 4 if -(1 << 31) <= number < 1 << 31 else 8
        return Value(constant(KINDS["bigint"], str(number)), Kind("int", "int", size=size))

    def cast(self, node: Node) -> Value:
        """Casts that change nothing: to a wider number, among texts, of an enum or uuid to text, and of constants."""
        name = type_of(node)
        kind = CASTS.get(name) or self.words.enums.get(name)
        if not self.plain(node) or name.endswith("[]"):
            raise Refused(f"a cast to {name} with a length" if not name.endswith("[]") else said(node))
        if isinstance(node.arg, ast.A_Const):
            if node.arg.isnull and kind:
                return Value({"int": "0", "flag": "false"}.get(kind.viewd, "''"), kind, TRUE)
            if isinstance(node.arg.val, ast.String):
                text = node.arg.val.sval
                if name == "name" and len(text.encode()) <= 63:
                    return Value(constant(KINDS["text"], text), KINDS["text"], collation="C")
                if kind:
                    return Value(constant(kind, text), kind)
        found = self.operand(node.arg)
        if found.text == USER and name == "uuid" and self.words.users and not self.words.casts:
            return self.user(kind)
        if found.text == USER and name not in ("text", "varchar", "name"):
            raise Refused(f"a cast of the user's name to {name}: in viewd it is a text")
        if name == "name" and found.kind.family == "text" and not found.column:
            return found._replace(collation="C", explicit=False)
        if kind is None:
            raise Refused(said(node))
        if found.kind.family == kind.family and kind.size >= found.kind.size:
            return found
        if kind.family == "text" and (found.kind.family == "uuid" or found.kind.labels) and not self.words.casts:
            return found._replace(kind=kind)
        if kind.family == "numeric" and found.kind.family == "int" and not found.column:
            return Value(constant(kind, found.text), kind)
        raise Refused(said(node))


def says(expression: str, columns: Mapping[str, Column], words: Words) -> tuple[Test, bool]:
    """What a policy says: true exactly where the expression is true, USER being who the user is; and whether that is asked for as a uuid.
    Raises Refused."""
    try:
        reader = Reader(columns, words, True)
        return reader.says(parsed(f"select where {expression}").whereClause, True), reader.as_uuid
    except RecursionError:
        raise Refused("it is nested too deep") from None
