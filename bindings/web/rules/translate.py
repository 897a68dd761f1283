"""Translates the rules of the conformance tests into one JavaScript script: translate.py FOLDER MODULE..

The rules are written in Python, and the web page checks logs with the same rules. The output needs
bindings/web/rules/python.js, which implements Python's values. Only the subset of Python that the rules use is
supported; any other syntax is an error.
"""

from __future__ import annotations

import ast
import json
import sys
from pathlib import Path
from typing import Callable, Dict, List, Optional, Set, Tuple

PACKAGE = "hidlog_conformance"
# Modules that are only used in type annotations, and decorators that the class statement handles.
SKIPPED_MODULES = ("__future__", "typing", "dataclasses", "functools")
GENERIC_TYPES = ("Tuple", "Dict", "List", "Optional", "Callable")
BUILTIN_NAMES = (
    "len isinstance bool any all bytes set range int str dict max min sum list tuple next map enumerate sorted repr zip "
    "abs ord getattr Exception KeyError TypeError ValueError IndexError AttributeError UnicodeDecodeError TypeVar"
).split()
RESERVED_WORDS = set(
    "new in of this function var let const delete case default switch do void with class arguments".split()
)
BINARY_OPERATORS = {
    ast.Add: "add",
    ast.Sub: "sub",
    ast.Mult: "mul",
    ast.FloorDiv: "floorDiv",
    ast.Mod: "mod",
    ast.Pow: "pow",
    ast.LShift: "shiftLeft",
    ast.RShift: "shiftRight",
    ast.BitAnd: "and",
    ast.BitOr: "or",
    ast.BitXor: "xor",
}
COMPARISONS = {
    ast.Eq: "$.eq({0}, {1})",
    ast.NotEq: "!$.eq({0}, {1})",
    ast.Lt: "$.lt({0}, {1})",
    ast.LtE: "$.le({0}, {1})",
    ast.Gt: "$.lt({1}, {0})",
    ast.GtE: "$.le({1}, {0})",
    ast.In: "$.contains({1}, {0})",
    ast.NotIn: "!$.contains({1}, {0})",
    ast.Is: "({0} === {1})",
    ast.IsNot: "({0} !== {1})",
}


class UntranslatableError(Exception):
    """The syntax at a line is not supported."""


def rename(name: str) -> str:
    """Returns a name that is valid in JavaScript."""
    return f"{name}_" if name in RESERVED_WORDS else name


def list_stored_names(nodes: List[ast.stmt]) -> Set[str]:
    """Returns the names that a function's body binds, except names in comprehensions and nested functions."""
    found: Set[str] = set()
    waiting: List[ast.AST] = list(nodes)
    while waiting:
        node = waiting.pop()
        if isinstance(node, (ast.FunctionDef, ast.ClassDef)):
            continue
        if isinstance(node, ast.Name) and isinstance(node.ctx, ast.Store):
            found.add(node.id)
        if isinstance(node, ast.ExceptHandler) and node.name:
            found.add(node.name)
        if not isinstance(node, (ast.Lambda, ast.ListComp, ast.SetComp, ast.DictComp, ast.GeneratorExp)):
            waiting += ast.iter_child_nodes(node)
    return found


class Expressions:
    """Writes expressions."""

    def __init__(self) -> None:
        self.temporaries = 0

    def new_name(self) -> str:
        """Returns a new name."""
        self.temporaries += 1
        return f"$t{self.temporaries}"

    def write_expression(self, node: ast.expr) -> str:
        """Writes an expression."""
        write: Optional[Callable[[ast.expr], str]] = getattr(self, f"write_{type(node).__name__}", None)
        if write is None:
            raise UntranslatableError(f"line {node.lineno}: unsupported syntax: {type(node).__name__}")
        return write(node)

    def write_condition(self, node: ast.expr) -> str:
        """Writes a condition."""
        if isinstance(node, ast.BoolOp):
            word = " && " if isinstance(node.op, ast.And) else " || "
            return "(" + word.join(self.write_condition(part) for part in node.values) + ")"
        if isinstance(node, ast.UnaryOp) and isinstance(node.op, ast.Not):
            return f"!{self.write_condition(node.operand)}"
        if isinstance(node, ast.Compare):
            return f"({self.write_expression(node)})"
        return f"$.isTruthy({self.write_expression(node)})"

    def write_list(self, nodes: List[ast.expr]) -> str:
        """Writes a list of expressions. A starred expression becomes spread syntax."""
        return ", ".join(
            f"...$.iter({self.write_expression(node.value)})"
            if isinstance(node, ast.Starred)
            else self.write_expression(node)
            for node in nodes
        )

    def write_Constant(self, node: ast.Constant) -> str:
        value = node.value
        if value is None or isinstance(value, bool):
            return {None: "null", True: "true", False: "false"}[value]
        if isinstance(value, bytes):
            return f'$.parseHex("{value.hex()}")'
        if isinstance(value, str):
            return json.dumps(value)
        if isinstance(value, int):
            return str(value) if value < 2**53 else f"{value}n"
        raise UntranslatableError(f"line {node.lineno}: unsupported constant: {value!r}")

    def write_Name(self, node: ast.Name) -> str:
        return rename(node.id)

    def write_Attribute(self, node: ast.Attribute) -> str:
        if isinstance(node.value, ast.Name) and node.value.id == "self":
            return f"$.getMember(self, {json.dumps(node.attr)})"
        return f"$.getAttribute({self.write_expression(node.value)}, {json.dumps(node.attr)})"

    def write_Subscript(self, node: ast.Subscript) -> str:
        if isinstance(node.slice, ast.Slice):
            assert node.slice.step is None, "a step"
            low, high = (
                self.write_expression(item) if item else "null" for item in (node.slice.lower, node.slice.upper)
            )
            return f"$.getSlice({self.write_expression(node.value)}, {low}, {high})"
        return f"$.getItem({self.write_expression(node.value)}, {self.write_expression(node.slice)})"

    def write_Tuple(self, node: ast.Tuple) -> str:
        return f"$.Tuple.of({self.write_list(node.elts)})"

    def write_List(self, node: ast.List) -> str:
        return f"[{self.write_list(node.elts)}]"

    def write_Set(self, node: ast.Set) -> str:
        return f"$.makeSet([{self.write_list(node.elts)}])"

    def write_Dict(self, node: ast.Dict) -> str:
        pairs = [
            f"...$.pairs({self.write_expression(value)})"
            if key is None
            else f"[{self.write_expression(key)}, {self.write_expression(value)}]"
            for key, value in zip(node.keys, node.values)
        ]
        return f"$.makeDict([{', '.join(pairs)}])"

    def write_UnaryOp(self, node: ast.UnaryOp) -> str:
        if isinstance(node.op, ast.Not):
            return f"!{self.write_condition(node.operand)}"
        if isinstance(node.op, ast.USub):
            return f"$.sub(0, {self.write_expression(node.operand)})"
        raise UntranslatableError(f"line {node.lineno}: unsupported operator: {ast.dump(node.op)}")

    def write_BinOp(self, node: ast.BinOp) -> str:
        return f"$.{BINARY_OPERATORS[type(node.op)]}({self.write_expression(node.left)}, {self.write_expression(node.right)})"

    def write_BoolOp(self, node: ast.BoolOp) -> str:
        *first, last = (self.write_expression(part) for part in node.values)
        text = last
        for part in reversed(first):
            name = self.new_name()
            chosen = f"{text} : {name}" if isinstance(node.op, ast.And) else f"{name} : {text}"
            text = f"($.isTruthy({name} = {part}) ? {chosen})"
        return text

    def write_Compare(self, node: ast.Compare) -> str:
        if len(node.ops) == 1:
            return COMPARISONS[type(node.ops[0])].format(
                self.write_expression(node.left), self.write_expression(node.comparators[0])
            )
        parts, before = [], self.write_expression(node.left)
        for operator, right in zip(node.ops, node.comparators):
            name = self.new_name()
            # The right side is stored for the next comparison.
            parts.append(
                f"({name} = {self.write_expression(right)}, {COMPARISONS[type(operator)].format(before, name)})"
            )
            before = name
        if not parts[0].count("$.l") and not isinstance(node.left, (ast.Name, ast.Constant, ast.Attribute, ast.Call)):
            raise UntranslatableError(f"line {node.lineno}: unsupported chained comparison")
        return "(" + " && ".join(parts) + ")"

    def write_IfExp(self, node: ast.IfExp) -> str:
        return f"({self.write_condition(node.test)} ? {self.write_expression(node.body)} : {self.write_expression(node.orelse)})"

    def write_JoinedStr(self, node: ast.JoinedStr) -> str:
        parts = ['""']
        for part in node.values:
            if isinstance(part, ast.Constant):
                parts.append(json.dumps(part.value))
                continue
            assert isinstance(part, ast.FormattedValue)
            spec = self.write_format_spec(part.format_spec)
            value = self.write_expression(part.value)
            parts.append(f"$.repr({value})" if part.conversion == 114 else f"$.format({value}, {json.dumps(spec)})")
        return "(" + " + ".join(parts) + ")"

    def write_format_spec(self, node: Optional[ast.expr]) -> str:
        """Returns the format specification of a value."""
        if node is None:
            return ""
        assert isinstance(node, ast.JoinedStr) and all(isinstance(item, ast.Constant) for item in node.values)
        return "".join(str(other_value.value) for other_value in node.values if isinstance(other_value, ast.Constant))

    def write_Lambda(self, node: ast.Lambda) -> str:
        return f"(({self.write_parameters(node.args)}) => {self.write_expression(node.body)})"

    def write_Call(self, node: ast.Call) -> str:
        """Writes a call. A method is called by name, any other function by value."""
        words, keywords = self.write_list(node.args), ""
        if node.keywords:
            keywords = (
                "{"
                + ", ".join(f"{keyword.arg}: {self.write_expression(keyword.value)}" for keyword in node.keywords)
                + "}"
            )
        if isinstance(node.func, ast.Attribute):
            if isinstance(node.func.value, ast.Call) and self.write_expression(node.func.value.func) == "super":
                return f"super.{node.func.attr}({words})"
            name = json.dumps(node.func.attr)
            return f"$.call({self.write_expression(node.func.value)}, {name}, [{words}]{', ' + keywords if keywords else ''})"
        return f"$.apply({self.write_expression(node.func)}, [{words}]{', ' + keywords if keywords else ''})"

    def write_ListComp(self, node: ast.ListComp) -> str:
        return self.write_comprehension(node.generators, "$r.push({})", self.write_expression(node.elt), "$r")

    def write_SetComp(self, node: ast.SetComp) -> str:
        return self.write_comprehension(
            node.generators, "$r.push({})", self.write_expression(node.elt), "$.makeSet($r)"
        )

    def write_DictComp(self, node: ast.DictComp) -> str:
        pair = f"[{self.write_expression(node.key)}, {self.write_expression(node.value)}]"
        return self.write_comprehension(node.generators, "$r.push({})", pair, "$.makeDict($r)")

    def write_GeneratorExp(self, node: ast.GeneratorExp) -> str:
        return f"(function* () {{ {self.write_loops(node.generators, 'yield ' + self.write_expression(node.elt))} }})()"

    def write_comprehension(self, generators: List[ast.comprehension], push: str, value: str, result: str) -> str:
        """Writes a comprehension that is evaluated immediately."""
        return f"(() => {{ const $r = []; {self.write_loops(generators, push.format(value))} return {result}; }})()"

    def write_loops(self, generators: List[ast.comprehension], inside: str) -> str:
        """Writes a comprehension's loops."""
        for part in reversed(generators):
            tests = "".join(f"if (!{self.write_condition(test)}) {{ continue; }} " for test in part.ifs)
            value = self.new_name()
            names = sorted(list_stored_names([ast.Expr(part.target)]))
            bound = f"let {', '.join(map(rename, names))}; " + self.write_assignment(part.target, value)
            inside = f"for (const {value} of $.iter({self.write_expression(part.iter)})) {{ {bound}{tests}{inside}; }}"
        return inside

    def write_assignment(self, target: ast.expr, value: str) -> str:
        """Writes an assignment to a target."""
        if isinstance(target, ast.Name):
            return f"{rename(target.id)} = {value}; "
        if isinstance(target, ast.Attribute):
            return f"{self.write_expression(target.value)}.{target.attr} = {value}; "
        if isinstance(target, ast.Subscript):
            return f"$.setItem({self.write_expression(target.value)}, {self.write_expression(target.slice)}, {value}); "
        if isinstance(target, (ast.Tuple, ast.List)) and not any(isinstance(elt, ast.Starred) for elt in target.elts):
            name = self.new_name()
            parts = [self.write_assignment(element, f"{name}[{place}]") for place, element in enumerate(target.elts)]
            return f"{name} = $.unpackItems({value}, {len(parts)}); " + "".join(parts)
        raise UntranslatableError(f"line {target.lineno}: unsupported assignment target: {ast.dump(target)}")

    def write_parameters(self, arguments: ast.arguments, skip: int = 0) -> str:
        """Writes parameters with their defaults."""
        assert not arguments.kwonlyargs and not arguments.kwarg, "keyword-only parameters"
        defaults: List[Optional[ast.expr]] = [None] * (len(arguments.args) - len(arguments.defaults))
        pairs = list(zip(arguments.args, [*defaults, *arguments.defaults]))[skip:]
        found = [
            rename(argument.arg) + (f" = {self.write_expression(default)}" if default else "")
            for argument, default in pairs
        ]
        return ", ".join(found + ([f"...{arguments.vararg.arg}"] if arguments.vararg else []))


class Statements(Expressions):
    """Writes statements."""

    def __init__(self) -> None:
        super().__init__()
        self.caught: List[str] = []

    def write_block(self, nodes: List[ast.stmt]) -> str:
        """Writes statements, without the docstring."""
        return "".join(self.write_statement(node) for node in nodes)

    def write_statement(self, node: ast.stmt) -> str:
        """Writes a statement."""
        write: Optional[Callable[[ast.stmt], str]] = getattr(self, f"write_{type(node).__name__}", None)
        if write is None:
            raise UntranslatableError(f"line {node.lineno}: unsupported syntax: {type(node).__name__}")
        return write(node)

    def write_Expr(self, node: ast.Expr) -> str:
        return "" if isinstance(node.value, ast.Constant) else f"{self.write_expression(node.value)};\n"

    def write_Pass(self, node: ast.Pass) -> str:
        return ""

    def write_Continue(self, node: ast.Continue) -> str:
        return "continue;\n"

    def write_Break(self, node: ast.Break) -> str:
        return "break;\n"

    def write_Return(self, node: ast.Return) -> str:
        return f"return {self.write_expression(node.value) if node.value else 'null'};\n"

    def write_Assign(self, node: ast.Assign) -> str:
        if isinstance(node.value, ast.Subscript) and ast.unparse(node.value.value) in GENERIC_TYPES:
            return ""
        value = self.write_expression(node.value)
        if len(node.targets) == 1 and isinstance(node.targets[0], ast.Name):
            return self.write_assignment(node.targets[0], value) + "\n"
        name = self.new_name()
        return f"{name} = {value}; " + "".join(self.write_assignment(target, name) for target in node.targets) + "\n"

    def write_AnnAssign(self, node: ast.AnnAssign) -> str:
        return self.write_assignment(node.target, self.write_expression(node.value)) + "\n" if node.value else ""

    def write_AugAssign(self, node: ast.AugAssign) -> str:
        value = f"$.{BINARY_OPERATORS[type(node.op)]}({self.write_expression(self.write_target(node.target))}, {self.write_expression(node.value)})"
        return self.write_assignment(node.target, value) + "\n"

    def write_target(self, target: ast.expr) -> ast.expr:
        """Returns an assignment target as an expression that reads the value."""
        return ast.parse(ast.unparse(target), mode="eval").body

    def write_If(self, node: ast.If) -> str:
        if isinstance(node.test, ast.Name) and node.test.id == "TYPE_CHECKING":
            return ""
        text = f"if ({self.write_condition(node.test)}) {{\n{self.write_block(node.body)}}}"
        return text + (f" else {{\n{self.write_block(node.orelse)}}}\n" if node.orelse else "\n")

    def write_While(self, node: ast.While) -> str:
        assert not node.orelse
        return f"while ({self.write_condition(node.test)}) {{\n{self.write_block(node.body)}}}\n"

    def write_For(self, node: ast.For) -> str:
        assert not node.orelse
        value = self.new_name()
        bound = self.write_assignment(node.target, f"{value}$")
        return f"for (const {value}$ of $.iter({self.write_expression(node.iter)})) {{\n{bound}\n{self.write_block(node.body)}}}\n"

    def write_Raise(self, node: ast.Raise) -> str:
        return f"throw {self.write_expression(node.exc) if node.exc else self.caught[-1]};\n"

    def write_Assert(self, node: ast.Assert) -> str:
        return f"$.assertTrue({self.write_condition(node.test)});\n"

    def write_Delete(self, node: ast.Delete) -> str:
        found = [target for target in node.targets if isinstance(target, ast.Subscript)]
        assert len(found) == len(node.targets), "del of a name"
        return "".join(
            f"$.deleteItem({self.write_expression(result.value)}, {self.write_expression(result.slice)});\n"
            for result in found
        )

    def write_Try(self, node: ast.Try) -> str:
        assert not node.orelse and not node.finalbody
        name = self.new_name() + "e"
        self.caught.append(name)
        text = f"try {{\n{self.write_block(node.body)}}} catch ({name}) {{\n"
        for handler in node.handlers:
            assert handler.type is not None
            bound = f"{rename(handler.name)} = {name};\n" if handler.name else ""
            text += f"if ($.isinstance({name}, {self.write_expression(handler.type)})) {{\n{bound}{self.write_block(handler.body)}}} else "
        self.caught.pop()
        return text + f"{{ throw {name}; }}\n}}\n"

    def write_FunctionDef(self, node: ast.FunctionDef) -> str:
        names = json.dumps([arg.arg for arg in node.args.args])
        text = f"function {rename(node.name)}({self.write_parameters(node.args)}) {{\n{self.write_body(node, 0)}}}\n"
        for decorator in node.decorator_list:
            if isinstance(decorator, ast.Call) and ast.unparse(decorator.func) == "lru_cache":
                size = ast.unparse(decorator.keywords[0].value)
                text += f"{rename(node.name)} = $.makeCached({rename(node.name)}, {size});\n"
        return text + f"{rename(node.name)}.$names = {names};\n"

    def write_body(self, node: ast.FunctionDef, skip: int) -> str:
        """Writes a function's body, preceded by the declarations of the names that it binds."""
        before, self.temporaries = self.temporaries, 0
        text = self.write_block(node.body)
        given = {arg.arg for arg in node.args.args}
        names = sorted(map(rename, list_stored_names(node.body) - given)) + [
            f"$t{n + 1}" for n in range(self.temporaries)
        ]
        self.temporaries = before
        bound = f"let {', '.join(names)};\n" if names else ""
        return ("const self = this;\n" if skip else "") + bound + text + "return null;\n"

    def write_ClassDef(self, node: ast.ClassDef) -> str:
        """Writes a class; for a dataclass also its __init__."""
        base = self.write_expression(node.bases[0]) if node.bases else "$.Object"
        methods = [each for each in node.body if isinstance(each, ast.FunctionDef)]
        said = [ast.unparse(element) for element in node.decorator_list]
        text, names = f"class {node.name} extends {base} {{\n", {}
        if any(item.startswith("dataclass") for item in said):
            found, names["__init__"] = self.write_dataclass_init(node)
            text += found
        for method in methods:
            is_property = any(ast.unparse(decorator) == "property" for decorator in method.decorator_list)
            names[method.name] = [arg.arg for arg in method.args.args[1:]]
            word = "get " if is_property else ""
            text += f"{word}{method.name}({self.write_parameters(method.args, 1)}) {{\n{self.write_body(method, 1)}}}\n"
        text += f"}}\n{node.name}.$names = {json.dumps(names)};\n"
        if said == ["dataclass"]:
            text += f"{node.name}.$fields = {json.dumps(names['__init__'])};\n"
        return text

    def write_dataclass_init(self, node: ast.ClassDef) -> Tuple[str, List[str]]:
        """Writes the __init__ of a dataclass: each field with its default."""
        fields = [item for item in node.body if isinstance(item, ast.AnnAssign)]
        base = node.bases[0].id if node.bases and isinstance(node.bases[0], ast.Name) else ""
        names = [other_field.target.id for other_field in fields if isinstance(other_field.target, ast.Name)]
        inherited = self.fields.get(base, [])
        self.fields[node.name] = inherited + [(name, field.value) for name, field in zip(names, fields)]
        words = [rename(name) + self.write_default(value) for name, value in self.fields[node.name]]
        body = "".join(f"this.{name} = {rename(name)};\n" for name, _ in self.fields[node.name])
        return f"__init__({', '.join(words)}) {{\n{body}}}\n", [name for name, _ in self.fields[node.name]]

    fields: Dict[str, List[Tuple[str, Optional[ast.expr]]]] = {}

    def write_default(self, value: Optional[ast.expr]) -> str:
        """Writes a field's default."""
        if value is None:
            return ""
        if isinstance(value, ast.Call) and isinstance(value.func, ast.Name) and value.func.id == "field":
            return f" = $.apply({self.write_expression(value.keywords[0].value)}, [])"
        return f" = {self.write_expression(value)}"

    def write_Import(self, node: ast.Import) -> str:
        return "".join(
            f"{name.name} = $.module({json.dumps(name.name)});\n"
            for name in node.names
            if name.name not in SKIPPED_MODULES
        )

    def write_ImportFrom(self, node: ast.ImportFrom) -> str:
        if node.module in SKIPPED_MODULES:
            return ""
        assert node.module is not None
        if node.module == PACKAGE:
            return "".join(
                f"{other_name.asname or other_name.name} = $.module({json.dumps(other_name.name)});\n"
                for other_name in node.names
            )
        name = json.dumps(node.module.removeprefix(PACKAGE + "."))
        return "".join(f"{item.asname or item.name} = $.module({name}).{item.name};\n" for item in node.names)


def list_imported_names(nodes: List[ast.stmt]) -> Set[str]:
    """Returns the names that imports bind, including imports inside functions."""
    found: Set[str] = set()
    for node in nodes:
        for part in ast.walk(node):
            if isinstance(part, ast.Import) or (
                isinstance(part, ast.ImportFrom) and part.module not in SKIPPED_MODULES
            ):
                found |= {name.asname or name.name for name in part.names if name.name not in SKIPPED_MODULES}
    return found


def translate_module(path: Path) -> str:
    """Writes a module as a function that is executed once."""
    tree = ast.parse(path.read_text(encoding="utf-8"))
    writer = Statements()
    text = writer.write_block(tree.body)
    made = {item.name for item in tree.body if isinstance(item, (ast.FunctionDef, ast.ClassDef))}
    bound = list_imported_names(tree.body) | list_stored_names(tree.body)
    names = sorted(map(rename, bound)) + [f"$t{n + 1}" for n in range(writer.temporaries)]
    exported = ", ".join(sorted(map(rename, made | list_stored_names(tree.body))))
    head = f"let {', '.join(names)};\n" if names else ""
    return f'$.modules["{path.stem}"] = () => {{\n{head}{text}return {{ {exported} }};\n}};\n'


def main() -> int:
    folder, *names = sys.argv[1:]
    print(
        "// Generated by bindings/web/build.sh from conformance/hidlog_conformance: the page's rules for judging a log."
    )
    print('(() => {\n"use strict";\nconst $ = globalThis.hidlogPython;')
    print(f"const {{ {', '.join(BUILTIN_NAMES)} }} = $.builtins;")
    for name in names:
        try:
            print(translate_module(Path(folder, f"{name}.py")))
        except (UntranslatableError, AssertionError) as fault:
            print(f"translate.py: {name}.py: {fault}", file=sys.stderr)
            return 1
    print("})();")
    return 0


if __name__ == "__main__":
    sys.exit(main())
