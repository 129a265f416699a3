"""Reads definitions of specs/*.antt and evaluates them: clauses with patterns, records, lists,
booleans and numbers, as the files of t1_core use them."""

import re

TOKEN = re.compile(r"\s+|--[^\n]*|(\[\]|\+\+|==|[∷=λ→(){};,:.+*]|\d+|[^\W\d][\w]*)", re.UNICODE)
NAMES = {"true": True, "false": False, "zero": 0}


def tokens(text):
    at, out = 0, []
    while at < len(text):
        found = TOKEN.match(text, at)
        if not found:
            raise SyntaxError(text[at : at + 40])
        if found.group(1):
            out.append(found.group(1))
        at = found.end()
    return out


class Clause:
    """`name pattern .. = expression`."""

    def __init__(self, text):
        self.rest = tokens(text)
        self.name = self.next()
        self.patterns = []
        while self.rest[0] != "=":
            self.patterns.append(self.pattern())
        self.next()
        self.body = self.expression()
        if self.rest:
            raise SyntaxError(text)

    def next(self, wanted=None):
        token = self.rest.pop(0)
        if wanted and token != wanted:
            raise SyntaxError(f"{token} is not {wanted} in {self.name}")
        return token

    def pattern(self):
        token = self.next()
        if token == "[]":
            return ("nil",)
        if self.rest[0] == ".":  # a variant of the code
            token = self.rest.pop(1)
            self.next()
        if token != "(":
            return ("con", token, []) if token[0].isupper() or token in NAMES else ("var", token)
        inner = [self.pattern()]
        if self.rest[0] == "∷":
            self.next()
            inner.append(self.pattern())
            self.next(")")
            return ("cons", *inner)
        while self.rest[0] != ")":
            inner.append(self.pattern())
        self.next(")")
        head = inner[0]
        return ("con", head[1], inner[1:])

    def expression(self):
        if self.rest[0] == "let":
            self.next()
            name = self.next()
            while self.next() != "=":
                pass
            value = self.expression()
            self.next("in")
            return ("let", name, value, self.expression())
        if self.rest[0] == "if":
            self.next()
            test = self.expression()
            self.next("then")
            yes = self.expression()
            self.next("else")
            return ("if", test, yes, self.expression())
        left = self.sums()
        if self.rest and self.rest[0] == "==":
            self.next()
            return ("==", left, self.sums())
        return left

    def sums(self):
        left = self.call()
        if self.rest and self.rest[0] in ("++", "∷", "+", "*"):
            return (self.next(), left, self.sums())
        return left

    def call(self):
        parts = [self.atom()]
        while self.rest and (self.rest[0] in ("(", "[]", "record") or self.rest[0][0].isalnum()):
            if self.rest[0] in ("then", "else", "in"):
                break
            parts.append(self.atom())
        return ("call", parts[0], parts[1:]) if len(parts) > 1 else parts[0]

    def atom(self):
        token = self.next()
        if token == "(":
            value = self.expression()
            self.next(")")
        elif token == "[]":
            return ("nil",)
        elif token == "record":
            base = None if self.rest[0] == "{" else self.atom()
            self.next("{")
            fields = {}
            while self.rest[0] != "}":
                name = self.next()
                self.next("=")
                fields[name] = self.expression()
                if self.rest[0] == ";":
                    self.next()
            self.next("}")
            value = ("record", base, fields)
        elif token.isdigit():
            return ("number", int(token))
        else:
            value = ("name", token)
        while self.rest and self.rest[0] == ".":
            self.next()
            value = ("field", value, self.next())
        return value


class Record(dict):
    """A value of a record. Nothing changes it, so its hash is computed once."""

    hashed = None

    def __hash__(self):
        if self.hashed is None:
            self.hashed = hash(tuple(self.values()))
        return self.hashed


class Definitions:
    """All clauses of these files, as functions of Python. `fixed` replaces a definition by a
    value."""

    def __init__(self, texts, fixed):
        clauses, self.fixed, self.functions = {}, {**NAMES, **fixed}, {"Record": Record}
        for text in texts:
            for chunk in re.split(r"\n(?=\S)", re.sub(r"--[^\n]*", "", text)):
                if not re.match(r"(use|abbrev|pub|data)\b", chunk) and chunk.strip():
                    clause = Clause(chunk)
                    clauses.setdefault(clause.name, []).append(clause)
        for name, of in clauses.items():
            exec("\n".join(self.function(name, of)), self.functions)

    def __call__(self, name, *values):
        return self.functions[f"of_{name}"](*values)

    def function(self, name, clauses):
        """The lines of a function: it returns the value of the first clause that takes its
        arguments."""
        yield f"def of_{name}(*a):"
        for clause in clauses:
            tests, names = [f"len(a) >= {len(clause.patterns)}"], set()
            for at, pattern in enumerate(clause.patterns):
                tests += tests_of(pattern, f"a[{at}]", names)
            yield f"    if {' and '.join(tests)}: return {self.text(clause.body, names)}"
        yield f"    raise ValueError(f'no clause of {name} takes {{a}}')"

    def text(self, e, names):
        """An expression in Python, where `names` are variables."""
        kind, rest = e[0], e[1:]
        if kind in ("number", "nil"):
            return str(rest[0] if rest else ())
        if kind == "name":
            return self.named(rest[0], names)
        if kind == "let":
            inner = self.text(rest[2], {*names, rest[0]})
            return f"(lambda v_{rest[0]}: {inner})({self.text(rest[1], names)})"
        if kind == "field":
            return f"{self.text(rest[0], names)}[{rest[1]!r}]"
        if kind == "record":
            base = [f"**{self.text(rest[0], names)}"] if rest[0] else []
            fields = [f"{name!r}: {self.text(it, names)}" for name, it in rest[1].items()]
            return f"Record({{{', '.join(base + fields)}}})"
        if kind == "call":
            return self.called(rest[0], [self.text(it, names) for it in rest[1]], names)
        parts = [self.text(it, names) for it in rest]
        if kind == "if":
            return FORMS["cond"].format(*parts)
        return f"(({parts[0]},) + {parts[1]})" if kind == "∷" else \
            f"({parts[0]} {kind.replace('++', '+')} {parts[1]})"

    def named(self, name, names):
        if name in names:
            return f"v_{name}"
        if name in self.fixed:
            return str(self.fixed[name])
        return f"({name!r},)" if name[0].isupper() else f"of_{name}()"

    def called(self, head, values, names):
        name = head[1]
        if head[0] != "name" or name in names:
            return f"{self.text(head, names)}({', '.join(values)})"
        if name in FORMS:
            return FORMS[name].format(*values)
        if name[0].isupper():
            return f"({name!r}, {', '.join(values)})"
        return f"of_{name}({', '.join(values)})"


# What the files use and do not define.
FORMS = {"cond": "({1} if {0} else {2})", "take": "{1}[:{0}]", "drop": "{1}[{0}:]",
         "not": "(not {0})", "length": "len({0})", "nat_lt": "({0} < {1})"}


def tests_of(pattern, at, names):
    """Tests in Python of whether the value `at` fits, which set the variables of the pattern."""
    kind = pattern[0]
    if kind == "var":
        names.add(pattern[1])
        yield f"[v_{pattern[1]} := {at}]"
    elif kind == "nil":
        yield f"{at} == ()"
    elif kind == "cons":
        yield f"{at} != ()"
        yield from tests_of(pattern[1], f"{at}[0]", names)
        yield from tests_of(pattern[2], f"{at}[1:]", names)
    elif pattern[1] in NAMES:
        yield f"({at}, type({at})) == ({NAMES[pattern[1]]}, {type(NAMES[pattern[1]]).__name__})"
    elif pattern[1] == "suc":
        yield f"{at} > 0"
        yield from tests_of(pattern[2][0], f"({at} - 1)", names)
    else:
        yield f"{at}[0] == {pattern[1]!r}"
        for number, part in enumerate(pattern[2], 1):
            yield from tests_of(part, f"{at}[{number}]", names)
