"""Finds the comments of a source, in each language of the repository, for words.py."""

import ast
import io
import re
import tokenize

SCRIPT = (".js", ".ts")
C_LIKE = (".rt", ".rs", ".c", ".h", ".hpp", ".cc", ".cs", ".go")
LEXED = re.compile(
    r"""(?P<line>//[^\n]*)
    | (?P<block>/\*.*?\*/)
    | b?r(?P<raw>\#*)".*?"(?P=raw)
    | "(?:\\.|[^"\\])*"
    | '(?:\\[^']+|[^'\\\n])'
    | [^/"'br]+ | .""",
    re.S | re.X,
)
# Texts of JavaScript may be in back quotes, and in single ones be longer than one character.
OF_SCRIPT = re.compile(r"`(?:\\.|[^`\\])*` | '(?:\\.|[^'\\\n])*' | "
                       + LEXED.pattern.replace("/\"'br", "/\"'`br"), re.S | re.X)
ANTT = re.compile(r"""(?P<line>(?<!\S)--(?=\s|$)[^\n]*)|"(?:\\.|[^"\\\n])*"|[^"-]+|.""", re.S)
BEFORE_STATEMENTS = (tokenize.NEWLINE, tokenize.INDENT, tokenize.DEDENT)
MARK = re.compile(r"//[/!]|//|--|/\*+|\*/|\*|#")


def is_python(path, text):
    return path.endswith(".py") or text.startswith("#!/usr/bin/env python")


def is_shell(path, text):
    return path.endswith(".sh") or re.match(r"#!\S*(?:/| )(?:env )?(?:ba)?sh\b", text) is not None


def is_cut(path, text):
    """Whether this file is in a language that can be cut."""
    is_known = path.endswith((*C_LIKE, *SCRIPT, ".antt"))
    return is_known or is_python(path, text) or is_shell(path, text)


def comments(path, text):
    """The line and the text of each comment, in order. A docstring counts as one."""
    if path.endswith(".antt"):
        yield from lexed(ANTT, text)
    elif path.endswith(SCRIPT):
        yield from lexed(OF_SCRIPT, text)
    elif path.endswith(C_LIKE):
        yield from lexed(LEXED, text)
    elif is_python(path, text):
        yield from of_python(text)
    elif is_shell(path, text):
        yield from of_shell(text)


def lexed(pattern, text):
    line, last = 1, 0
    for it in pattern.finditer(text):
        if it.lastgroup in ("line", "block"):
            line += text.count("\n", last, it.start())
            last = it.start()
            yield line, it[0]


def of_python(text):
    """Comments, and strings that are statements, as docstrings are."""
    before = tokenize.NEWLINE
    for it in tokenize.generate_tokens(io.StringIO(text).readline):
        if it.type == tokenize.COMMENT:
            yield it.start[0], it.string
        elif it.type == tokenize.STRING and before in BEFORE_STATEMENTS:
            yield it.start[0], ast.literal_eval(it.string)
        if it.type not in (tokenize.COMMENT, tokenize.NL):
            before = it.type


def of_shell(text):
    """Whole lines that begin with `#`, also those in texts. Any other `#` may be code."""
    for number, line in enumerate(text.splitlines(), 1):
        if line.lstrip().startswith("#") and not line.startswith("#!"):
            yield number, line.strip()


def blocks(path, text):
    """Comments without their marks: each as its first line and its lines of text. Line comments
    that follow one another and stand alone with the same mark are one block."""
    lines = text.splitlines()
    found, last = [], (0, "")
    for line, said in comments(path, text):
        first = said.split("\n")[0]
        mark = MARK.match(first.strip())
        mark = mark[0] if mark else ""
        alone = line <= len(lines) and lines[line - 1].strip().startswith(first.strip())
        parts = said.removesuffix("*/").split("\n")
        stripped = [MARK.sub("", part.strip(), count=1) for part in parts]
        if "\n" not in said and alone and last == (line - 1, mark) and mark:
            found[-1][1].extend(stripped)
        else:
            found.append((line, stripped))
        last = (line, mark) if alone and "\n" not in said else (0, "")
    return found
