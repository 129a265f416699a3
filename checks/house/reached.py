"""Lemmas and definitions that nothing reaches.

A declaration is needed if it is reached from code, from answers and invariants (which the prover
finds by itself), or from vectors (rows that are computed for their own sake). A name reaches the
declaration of that name in its own file, or in the file that it is imported from. Since this goes
by names alone, equal names can hide an unreached declaration. What it lists can be removed."""

from collections import defaultdict

from findings import Finding
from sources import IN_CODE, WORD, code_without_comments, crate_of

# Files of proofs that the prover finds without a name.
TAKEN_UP = ("/Answers.antt", "/Invariants.antt", "/Proof.antt", "/TheSendSync/Send.antt")


def is_root(path):
    return path.endswith(TAKEN_UP) or path.endswith("Vectors.antt")


def reached(repository):
    """The declarations that are reached, by path and line."""
    defined = defaultdict(list)
    for it in repository.declarations():
        for name in it.names:
            defined[it.path, name].append(it)
    seen = set()
    left = []

    def reach(path, name):
        for it in defined.get((path, name), ()):
            if (it.path, it.line) not in seen:
                seen.add((it.path, it.line))
                left.append(it)

    def reach_words(path, words):
        imports = repository.imports.get(path, {})
        for word in words:
            reach(path, word)
            for it in imports.get(word, ()):
                if it.name is not None:
                    reach(repository.path_of(it.module), it.name)
        # a module that is imported whole, and its names after a dot
        for name, found in imports.items():
            for it in found:
                if it.name is None and name in words:
                    for word in words:
                        reach(repository.path_of(it.module), word)

    for path, text in repository.code(".rt"):
        said = code_without_comments(text)
        reach_words(path, set(WORD.findall(said)))
        for it in IN_CODE.finditer(said):
            module = f"Rattle.{crate_of(path)}.{it[1].replace('::', '.')}"
            reach(repository.path_of(module), it[2])
    for it in repository.declarations():
        if is_root(it.path):
            reach(it.path, it.name)
    while left:
        it = left.pop()
        reach_words(it.path, it.words)
    return seen


def findings(repository):
    seen = reached(repository)
    for it in repository.declarations():
        if it.path.endswith("/Lib.antt") or (it.path, it.line) in seen:
            continue
        yield Finding("unreached", it.path, it.line, it.name, f"nothing reaches {it.name}")
