"""Small changes of a program, one at a time, by its syntax tree."""

import ast
from typing import Callable, Iterator, List, NamedTuple, Optional, Set, Tuple

COMPARISONS = {
    ast.Lt: (ast.LtE, ast.GtE), ast.LtE: (ast.Lt, ast.Gt), ast.Gt: (ast.GtE, ast.LtE), ast.GtE: (ast.Gt, ast.Lt),
    ast.Eq: (ast.NotEq,), ast.NotEq: (ast.Eq,), ast.In: (ast.NotIn,), ast.NotIn: (ast.In,),
}  # fmt: skip
OPERATIONS = {
    ast.Add: (ast.Sub,), ast.Sub: (ast.Add,), ast.Mult: (ast.Add,), ast.FloorDiv: (ast.Mult,), ast.LShift: (ast.RShift,),
    ast.RShift: (ast.LShift,), ast.BitAnd: (ast.BitOr,), ast.BitOr: (ast.BitAnd,), ast.BitXor: (ast.BitOr,),
}  # fmt: skip

#: Calls that only say what is wrong: nothing within them is changed.
MESSAGES = ("err_raiser", "Fails", "EvalScriptError", "VerifyScriptError", "CheckTransactionError", "CScriptInvalidError",
            "CScriptTruncatedPushDataError")  # fmt: skip


RELAY = ("SCRIPT_VERIFY_NULLDUMMY", "SCRIPT_VERIFY_CLEANSTACK", "SCRIPT_VERIFY_DISCOURAGE_UPGRADABLE_NOPS")


class Change(NamedTuple):
    """A change: where, what becomes of it, and how it is made and taken back."""

    line: int
    what: str
    make: Callable[[], None]
    undo: Callable[[], None]


def _set(owner: object, field: str, index: Optional[int], new: object) -> Tuple[Callable[[], None], Callable[[], None]]:
    """Sets a field, or a place of a list that is one."""
    old = getattr(owner, field) if index is None else getattr(owner, field)[index]

    def put(value: object) -> None:
        if index is None:
            setattr(owner, field, value)
        else:
            getattr(owner, field)[index] = value

    return (lambda: put(new)), (lambda: put(old))


def changes(tree: ast.Module, names: Optional[Set[str]] = None) -> Iterator[Change]:
    """All changes of a module; of the functions of these names alone."""
    for node in tree.body:
        yield from _within(node, names)


def _within(node: ast.AST, names: Optional[Set[str]]) -> Iterator[Change]:
    if isinstance(node, ast.ClassDef):
        for inner in node.body:
            yield from _within(inner, names)
    elif isinstance(node, ast.FunctionDef):
        if names is None or node.name in names:
            yield from _walk(node, set())
    elif names is None and isinstance(node, (ast.Assign, ast.AnnAssign)):
        yield from _walk(node, set())


def _walk(node: ast.AST, known: Set[str]) -> Iterator[Change]:
    """The changes of a node's parts, and of all below them. known: the names that are assigned by then."""
    for field, value in ast.iter_fields(node):
        if field in ("annotation", "returns", "decorator_list", "ctx", "args") and not isinstance(node, ast.Call):
            if field == "args" and isinstance(value, ast.arguments):
                known |= {a.arg for a in value.args}
            continue
        for index, part in enumerate(value) if isinstance(value, list) else ((None, value),):
            if isinstance(part, ast.AST) and not _is_relay(part):
                place = (node, field, index)
                for what, new in _others(part, known):
                    make, undo = _set(*place, new)
                    yield Change(getattr(part, "lineno", getattr(node, "lineno", 0)), what, make, undo)
                if not _is_message(part):
                    yield from _walk(part, known)


def _is_relay(node: ast.AST) -> bool:
    """Whether it is a condition on a rule of relay, which no row has, words for a message, or the program's test of itself."""
    if isinstance(node, ast.Assert) or isinstance(node, ast.Raise) and "AssertionError" in ast.dump(node):
        return True
    if isinstance(node, ast.Assign) and isinstance(node.targets[0], ast.Name):
        return node.targets[0].id == "pushdata_type"
    names = {n.id for n in ast.walk(node.test) if isinstance(n, ast.Name)} if isinstance(node, ast.If) else set()
    return any(name in names for name in RELAY)


def _is_message(node: ast.AST) -> bool:
    if isinstance(node, ast.Raise):
        return True
    if isinstance(node, ast.Expr) and isinstance(node.value, ast.Constant):
        return True
    called = node.func if isinstance(node, ast.Call) else None
    name = getattr(called, "id", getattr(called, "attr", ""))
    return name in MESSAGES


def _others(node: ast.AST, known: Set[str]) -> "List[Tuple[str, ast.AST]]":
    """What may stand in a node's place."""
    found: List[Tuple[str, ast.AST]] = []
    if isinstance(node, ast.Compare):
        for k, op in enumerate(node.ops):
            for other in COMPARISONS.get(type(op), ()):
                ops = node.ops[:k] + [other()] + node.ops[k + 1 :]
                found.append((f"{type(op).__name__} to {other.__name__}", ast.Compare(node.left, ops, node.comparators)))
    elif isinstance(node, ast.BoolOp):
        other_op = ast.Or() if isinstance(node.op, ast.And) else ast.And()
        found.append((f"to {type(other_op).__name__}", ast.BoolOp(other_op, node.values)))
        if len(node.values) > 1:
            for k in range(len(node.values)):
                rest = node.values[:k] + node.values[k + 1 :]
                found.append((f"without part {k}", rest[0] if len(rest) == 1 else ast.BoolOp(node.op, rest)))
    elif isinstance(node, ast.UnaryOp) and not isinstance(node.operand, ast.Constant):
        found.append((f"without {type(node.op).__name__}", node.operand))
    elif isinstance(node, ast.BinOp):
        for new_op in OPERATIONS.get(type(node.op), ()):
            found.append((f"{type(node.op).__name__} to {new_op.__name__}", ast.BinOp(node.left, new_op(), node.right)))
    elif isinstance(node, ast.Constant):
        found += [(f"{node.value!r} to {v!r}", ast.Constant(v)) for v in _values(node.value)]
    elif isinstance(node, ast.Slice):
        if node.lower is not None:
            found.append(("without the lower end", ast.Slice(None, node.upper, node.step)))
        if node.upper is not None:
            found.append(("without the upper end", ast.Slice(node.lower, None, node.step)))
    elif isinstance(node, (ast.If, ast.IfExp, ast.While)):
        yes, no = ast.Constant(True), ast.Constant(False)
        if isinstance(node, ast.If):
            found += [("if always", ast.If(yes, node.body, node.orelse)), ("if never", ast.If(no, node.body, node.orelse))]
        elif isinstance(node, ast.IfExp):
            found += [("the first always", node.body), ("the second always", node.orelse)]
        else:
            found.append(("while never", ast.While(no, node.body, node.orelse)))
    return found + [(what, new) for what, new in _statements(node, known)]


def _statements(node: ast.AST, known: Set[str]) -> "List[Tuple[str, ast.AST]]":
    """Statements that may be left out without a name that is missing then."""
    if isinstance(node, ast.Expr) and not isinstance(node.value, (ast.Constant, ast.Yield)):
        return [("left out", ast.Pass())]
    if isinstance(node, (ast.AugAssign, ast.Raise, ast.Delete, ast.Continue)):
        return [("left out", ast.Pass())]
    if isinstance(node, ast.Assign):
        target = node.targets[0]
        names = {n.id for n in ast.walk(target) if isinstance(n, ast.Name)}
        is_known = not isinstance(target, ast.Name) or target.id in known
        known |= names
        return [("left out", ast.Pass())] if is_known and not isinstance(target, ast.Tuple) else []
    return []


def _values(value: object) -> List[object]:
    if isinstance(value, bool):
        return [not value]
    if isinstance(value, int):
        return [value + 1, value - 1]
    if isinstance(value, bytes):
        return [value[:-1] + bytes([value[-1] ^ 1])] if value else [b"\1"]
    return []
