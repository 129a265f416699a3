"""The style of comments and documents: phrases that have a plainer form (phrases.txt), sentences of
more than 35 words, and cells of tables of more than 300 characters. In documents outside crates/ a
sentence has at most 25 words. README, and these documents together, have a limit in bytes. For the
texts that tools in C print, their strings and *.help, it checks the phrases alone.

It looks at the files that plain.txt lists: those that have been rewritten. Code in fences and
spans is ignored; a span, or a row of them, counts as one word."""

import re

from comments import LEXED, blocks, is_cut
from findings import Finding

PHRASES = "checks/house/phrases.txt"
DONE = "checks/house/plain.txt"
MOST_WORDS = 35
MOST_IN_DOCUMENTS = 25
MOST_CHARACTERS = 300
FIRST_WORDS = 5
README = "README.md"
README_BYTES = 7_300
SIZED = re.compile(r"README\.md|docs/.*\.md|(?:bindings|bench|checks|examples)/(?:.*/)?README\.md")
SIZED_BYTES = 223_000

# A full stop, and the start of the next sentence. Two dots are an omission, not an end.
SENTENCE_END = re.compile(r"""(?<!\.)[.!?][)"'*_]*\s+(?=[^a-z\s])""")
SPAN = re.compile(r"(`+).+?\1")
LINK = re.compile(r"\[([^\]]*)\]\([^)]*\)")
ITEM = re.compile(r"^\s*(?:[-*+]|\d+\.)\s+")
# A source of a program in C, whose strings are printed. Tests also have the names of their helpers.
TOOL = re.compile(r"(?:.*/)?(?:tools|examples)/[^/]+\.c")


def listed(text):
    """The lines of a list, without comments, each with its number."""
    for number, line in enumerate(text.splitlines(), 1):
        if line.strip() and not line.startswith("#"):
            yield number, line.strip()


def is_in(path, place):
    return path == place or (place.endswith("/") and path.startswith(place))


def paragraphs(first, lines):
    """The first line and the text of each paragraph, heading, item and cell, and whether it is a
    cell. Code in fences is ignored."""
    fenced, found = False, []
    after = None
    for number, line in enumerate(lines, first):
        said = line.strip()
        if said.startswith(("```", "~~~")):
            fenced, after = not fenced, None
        elif fenced or not said:
            after = None
        elif said.startswith("|"):
            after = None
            if not re.fullmatch(r"[|\s:-]+", said):
                for cell in cells(said):
                    found.append([number, cell, True])
        elif said.startswith("#") or ITEM.match(line) or after is None:
            found.append([number, ITEM.sub("", said), False])
            after = None if said.startswith("#") else found[-1]
        else:
            after[1] += "\n" + said
    return found


def cells(row):
    """The cells of a row. A stroke in a span of code, or after a backslash, is part of a cell."""
    hidden = SPAN.sub(lambda it: "\0" * len(it[0]), row.replace("\\|", "\0\0"))
    places = [at for at, sign in enumerate(hidden) if sign == "|"] + [len(row)]
    return [row[a + 1 : b].strip() for a, b in zip(places, places[1:]) if row[a + 1 : b].strip()]


def read(path, text):
    if path.endswith(".md"):
        yield from paragraphs(1, text.splitlines())
    elif is_cut(path, text):
        for line, lines in blocks(path, text):
            yield from paragraphs(line, lines)


def printed(path, text):
    """The first line and the text of each text that a tool prints. Strings in C that follow one
    another are one text."""
    if path.endswith(".help"):
        yield 1, text
    elif TOOL.fullmatch(path):
        found, is_open = [], False
        for it in LEXED.finditer(text):
            if it[0].startswith('"') and is_open:
                found[-1][1] += it[0][1:-1]
            elif it[0].startswith('"'):
                found.append([text.count("\n", 0, it.start()) + 1, it[0][1:-1]])
            is_open = it[0].startswith('"') or (is_open and it[0].isspace())
        for line, said in found:
            yield line, said.replace("\\n", "\n")


def sentences(text):
    start = 0
    for it in SENTENCE_END.finditer(text):
        yield start, text[start : it.end()]
        start = it.end()
    yield start, text[start:]


def count_words(text):
    text = re.sub(r"`x`(?:[\s,;:/.]+(?:and |or )?`x`)+", "`x`", text)
    return sum(any(sign.isalnum() for sign in word) for word in text.split())


def of_paragraph(path, line, text, is_cell, phrases):
    begins = " ".join(text.split()[:FIRST_WORDS])
    if is_cell and len(text) > MOST_CHARACTERS:
        what = f"a cell of {len(text)} characters: '{begins} ..'"
        yield Finding("cell", path, line, begins, what)
    is_document = path.endswith(".md") and not path.startswith("crates/")
    most = MOST_IN_DOCUMENTS if is_document else MOST_WORDS
    plain = without_spans(LINK.sub(r"\1", text))
    yield from of_phrases(path, line, plain, phrases)
    for start, sentence in sentences(plain):
        if (count := count_words(sentence)) > most:
            at = line + plain.count("\n", 0, start)
            begins = " ".join(sentence.split()[:FIRST_WORDS])
            what = f"a sentence of {count} words: '{begins} ..'"
            yield Finding("sentence", path, at, begins, what)


def without_spans(text):
    return SPAN.sub(lambda it: "`x`" + "\n" * it[0].count("\n"), text)


def of_phrases(path, line, plain, phrases):
    said = " ".join(plain.lower().split())
    for pattern, phrase, better in phrases:
        # the plain text is found faster
        for it in pattern.finditer(plain) if phrase in said else ():
            at = line + plain.count("\n", 0, it.start())
            yield Finding("phrase", path, at, phrase, f"'{phrase}': write {better}")


def read_phrases(text):
    """The patterns of the list: `PHRASE: WHAT TO WRITE`. They match whole words, over lines too."""
    found = []
    for _, line in listed(text):
        phrase, _, better = line.partition(": ")
        words = r"\s+".join(re.escape(word) for word in phrase.split())
        found.append((re.compile(rf"(?<![\w-]){words}(?![\w-])", re.I), phrase.lower(), better))
    return found


def of_sizes(texts):
    sizes = {path: len(text.encode()) for path, text in texts.items() if SIZED.fullmatch(path)}
    if (count := sizes.get(README, 0)) > README_BYTES:
        yield Finding("size", README, 1, README, f"{count} bytes, of at most {README_BYTES}")
    if (count := sum(sizes.values())) > SIZED_BYTES:
        what = f"documents of {count} bytes, of at most {SIZED_BYTES}"
        yield Finding("size", README, 1, "documents", what)


def findings(repository):
    yield from of_sizes(repository.texts)
    phrases = read_phrases(repository.texts.get(PHRASES, ""))
    done = list(listed(repository.texts.get(DONE, "")))
    for number, place in done:
        if not any(is_in(path, place) for path in repository.texts):
            yield Finding("list", DONE, number, place, f"fits nothing: {place}")
    for path, text in repository.texts.items():
        if any(is_in(path, place) for _, place in done):
            for line, said, is_cell in read(path, text):
                yield from of_paragraph(path, line, said, is_cell, phrases)
            for line, said in printed(path, text):
                yield from of_phrases(path, line, without_spans(said), phrases)
