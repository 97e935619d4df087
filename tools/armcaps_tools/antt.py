"""Reads the tables in the definitions of the proved crates (crates/*/specs/*.antt), so that no tool keeps a table of
its own.

It knows as much of the language as tables are written in: equations by cases, application, records and their
updates, lists, numbers, strings, `codes`, `pos` and `negsuc`, and a row's place by its name. A definition is read
only when its value is asked for.
"""

import pathlib
import re

TOKEN = re.compile(
    r"""\s+ | --[^\n]* | (?P<string>"[^"]*") | (?P<number>0x[0-9a-fA-F]+|\d+)
      | (?P<word>[^\W\d][\w'-]*(?:\.[\w'-]+)*) | (?P<sign>\[\]|∷|\+\+|[(){};=.λ|,×→:≡∧∨&*^%+<>≤/-]|\S)""",
    re.VERBOSE,
)
KEYWORDS = ("abbrev", "unfoldable", "pub", "record", "data", "use", "ghost")


class Unreadable(Exception):
    """A definition has a form that tables do not have."""


def tokens(text):
    found = []
    for match in TOKEN.finditer(text):
        if match.lastgroup:
            found.append((match.lastgroup, match.group(match.lastgroup)))
    return found


class Parser:
    """Terms, by the tokens of one equation."""

    def __init__(self, items):
        self.items, self.place = items, 0

    def peek(self):
        return self.items[self.place] if self.place < len(self.items) else (None, None)

    def take(self, text=None):
        item = self.peek()
        if text is not None and item[1] != text:
            raise Unreadable(f"{item[1]!r} where {text!r} is expected")
        self.place += 1
        return item

    def term(self):
        left = self.application()
        if self.peek()[1] in ("∷", "++"):
            sign = self.take()[1]
            return ("join", sign, left, self.term())
        return left

    def application(self):
        parts = [self.atom()]
        while self.peek()[0] in ("string", "number", "word") or self.peek()[1] in ("(", "[]"):
            parts.append(self.atom())
        return parts[0] if len(parts) == 1 else ("apply", parts[0], parts[1:])

    def atom(self):
        kind, text = self.take()
        if kind == "string":
            return ("value", text[1:-1])
        if kind == "number":
            return ("value", int(text, 0))
        if text == "[]":
            return ("value", [])
        if text == "(":
            inner = self.term()
            self.take(")")
            while self.peek()[1] == ".":
                self.take()
                inner = ("part", inner, self.take()[1])
            return inner
        if text == "record":
            return self.record()
        if kind == "word":
            return ("name", text)
        raise Unreadable(f"{text!r}")

    def record(self):
        base = None if self.peek()[1] == "{" else self.atom()
        self.take("{")
        fields = []
        while self.peek()[1] != "}":
            name = self.take()[1]
            self.take("=")
            fields.append((name, self.term()))
            if self.peek()[1] == ";":
                self.take()
        self.take("}")
        return ("record", base, fields)


class Definitions:
    """The definitions of some files: each name's equations, in their order."""

    def __init__(self, *paths):
        self.equations, self.constructors = {}, set()
        for path in paths:
            self._read(pathlib.Path(path).read_text(encoding="utf-8"))

    def _read(self, text):
        for block in re.split(r"\n(?=[^\s}])", text):
            head = re.match(r"[^\W\d][\w'-]*", block)
            if re.match(r"(pub )?data ", block):
                self.constructors.update(re.findall(r"^ +(?:pub )?([^\W\d][\w'-]*) :", block, re.MULTILINE))
            if head and head.group() not in KEYWORDS:
                self.equations.setdefault(head.group(), []).append(block)

    def names(self):
        return list(self.equations)

    def value(self, name, *arguments):
        """What a definition is at arguments."""
        for equation in self.equations[name]:
            head, _, _ = equation.partition("=")
            patterns = [text for _, text in tokens(head)][1:]
            if len(patterns) > len(arguments):
                raise Unreadable(f"{name} wants {len(patterns)} arguments")
            scope = self._match(patterns, arguments)
            if scope is not None:
                parser = Parser(tokens(equation[len(head) + 1 :]))
                term = parser.term()
                if parser.peek()[0]:
                    raise Unreadable(f"{name}: {parser.peek()[1]!r}")
                return self._apply(self._evaluate(term, scope), list(arguments[len(patterns) :]))
        raise Unreadable(f"{name} has no case for {arguments}")

    def cases(self, name):
        """The constructors by which a definition of one argument goes, in their order."""
        return [tokens(equation.partition("=")[0])[1][1] for equation in self.equations[name]]

    def _match(self, patterns, arguments):
        scope = {}
        for pattern, argument in zip(patterns, arguments):
            if pattern[0].isupper() or pattern in self.constructors:
                if argument != pattern:
                    return None
            elif pattern != "_":
                scope[pattern] = argument
        return scope

    def _apply(self, function, arguments):
        if not arguments:
            return function
        if isinstance(function, str) and function[:1].isupper():
            return (function, *arguments)
        raise Unreadable(f"{function!r} is applied")

    def _evaluate(self, term, scope):
        kind = term[0]
        if kind == "value":
            return term[1]
        if kind == "name":
            return self._named(term[1], [], scope)
        if kind == "apply":
            arguments = [self._evaluate(part, scope) for part in term[2]]
            if term[1][0] == "name":
                return self._named(term[1][1], arguments, scope)
            return self._apply(self._evaluate(term[1], scope), arguments)
        if kind == "join":
            left, right = self._evaluate(term[2], scope), self._evaluate(term[3], scope)
            return [left] + right if term[1] == "∷" else left + right
        if kind == "part":
            return self._evaluate(term[1], scope)[term[2]]
        base = dict(self._evaluate(term[1], scope)) if term[1] else {}
        return {**base, **{name: self._evaluate(part, scope) for name, part in term[2]}}

    def _named(self, name, arguments, scope):
        if name in scope:
            return self._apply(scope[name], arguments)
        if "." in name and name.split(".")[0] in scope:
            value = scope[name.split(".")[0]]
            for part in name.split(".")[1:]:
                value = value[part]
            return self._apply(value, arguments)
        if name in ("codes", "pos") and len(arguments) == 1:
            return arguments[0]
        if name == "negsuc" and len(arguments) == 1:
            return -1 - arguments[0]
        if name in ("true", "false") and not arguments:
            return name == "true"
        if name == "has_name" and len(arguments) == 1:
            return arguments[0]
        if name == "position_or_len" and len(arguments) == 2:
            names = [row["name"] for row in arguments[1]]
            return names.index(arguments[0]) if arguments[0] in names else len(names)
        if name in self.constructors and not arguments:
            return name
        if name in self.equations:
            return self.value(name, *arguments)
        if name.rsplit(".", 1)[-1][:1].isupper():
            return self._apply(name.rsplit(".", 1)[-1], arguments)
        raise Unreadable(f"{name} is not known")
