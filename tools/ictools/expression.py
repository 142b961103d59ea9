"""Expressions on the values of components, as `bank.cash + bank.paid == 100`."""

from __future__ import annotations

import ast
import operator
from typing import Any, Callable, Dict

Values = Dict[str, Dict[str, int]]

OPERATORS: Dict[type, Callable[[Any, Any], Any]] = {
    ast.Add: operator.add, ast.Sub: operator.sub, ast.Mult: operator.mul, ast.FloorDiv: operator.floordiv, ast.Mod: operator.mod,
    ast.Lt: operator.lt, ast.LtE: operator.le, ast.Eq: operator.eq, ast.NotEq: operator.ne, ast.GtE: operator.ge, ast.Gt: operator.gt}
RULES = ("numbers, COMPONENT.NAME, + - * // %, comparisons, and, or, not, parentheses; besides inputs, outputs and history, "
         "which are counts")


class BadExpression(Exception):
    """The text is no expression, or names what isn't there."""


class Expression:
    def __init__(self, text: str) -> None:
        self.text = text
        try:
            self.tree = ast.parse(text, mode="eval").body
        except (SyntaxError, ValueError):
            raise BadExpression("`%s` is no expression. It has %s." % (text, RULES)) from None

    def value(self, values: Values, counts: Dict[str, int]) -> Any:
        """Its value; `BadExpression` where it has what isn't allowed, or a name that isn't there."""
        try:
            return self.of(self.tree, values, counts)
        except ZeroDivisionError:
            raise BadExpression("`%s` divides by 0" % self.text) from None

    def of(self, node: ast.AST, values: Values, counts: Dict[str, int]) -> Any:
        def inner(part: ast.AST) -> Any:
            return self.of(part, values, counts)

        if isinstance(node, ast.Constant) and type(node.value) is int:
            return node.value
        if isinstance(node, ast.Name):
            if node.id not in counts:
                raise BadExpression("there is no `%s`; the counts are %s" % (node.id, ", ".join(counts)))
            return counts[node.id]
        if isinstance(node, ast.Attribute) and isinstance(node.value, ast.Name):
            of = values.get(node.value.id, {})
            if node.attr not in of:
                raise BadExpression("there is no value `%s.%s`" % (node.value.id, node.attr))
            return of[node.attr]
        if isinstance(node, ast.BinOp) and type(node.op) in OPERATORS:
            return OPERATORS[type(node.op)](inner(node.left), inner(node.right))
        if isinstance(node, ast.Compare) and all(type(op) in OPERATORS for op in node.ops):
            parts = [inner(part) for part in [node.left] + node.comparators]
            return all(OPERATORS[type(op)](left, right) for op, left, right in zip(node.ops, parts, parts[1:]))
        if isinstance(node, ast.BoolOp):
            parts = [bool(inner(part)) for part in node.values]
            return all(parts) if isinstance(node.op, ast.And) else any(parts)
        if isinstance(node, ast.UnaryOp) and isinstance(node.op, (ast.Not, ast.USub)):
            return not inner(node.operand) if isinstance(node.op, ast.Not) else -inner(node.operand)
        raise BadExpression("`%s` has something that isn't allowed. It may have %s." % (self.text, RULES))
