"""The look of the pages that the programs write: the colours of `trace_explain --html`, light and
dark, and a table that becomes a list on a narrow screen."""

import html
from typing import Iterable, Sequence

STYLE = """\
:root { color-scheme: light dark; --ink: #1b2430; --soft: #5b6776; --page: #f5f6f8;
  --box: #ffffff; --line: #ccd3db; --to: #0b5fae; --from: #1d7a46; --bad: #b3261e;
  --warn: #8a5a00; }
@media (prefers-color-scheme: dark) { :root { --ink: #e4e8ee; --soft: #9aa6b5; --page: #14181d;
  --box: #1d232b; --line: #3a4451; --to: #7db7f5; --from: #74cf9b; --bad: #ff8a80;
  --warn: #f0b95b; } }
body { max-width: 72rem; margin: 0 auto; padding: 1rem; background: var(--page);
  color: var(--ink); font: 15px/1.45 system-ui, sans-serif; }
h1 { font-size: 1.3rem; margin: 0 0 .8rem; }
table { border-collapse: collapse; background: var(--box); }
th, td { border: 1px solid var(--line); padding: .2rem .5rem; text-align: left;
  vertical-align: top; }
td:nth-last-child(-n + 2) { overflow-wrap: anywhere; }
.outcome { font-weight: 600; }
.unmet, .wrong, .twice, .failed, .hung, .crashed, .unsure { font-weight: 600; color: var(--bad); }
svg { border: 1px solid var(--line); max-width: 100%; height: auto; }
@media (max-width: 40rem) { tr, td { display: block; } th { display: none; }
  tr { border-bottom: 2px solid var(--soft); } }
"""


def begin(title: str) -> str:
    """The page up to its heading.

    >>> begin("Trials").endswith("<h1>Trials</h1>\\n")
    True
    """
    return ('<!DOCTYPE html><html lang="en"><meta charset="utf-8"/>\n'
            '<meta name="viewport" content="width=device-width, initial-scale=1"/>\n'
            f"<title>{title}</title>\n<style>\n{STYLE}</style><h1>{title}</h1>\n")


def table(head: Sequence[str], rows: Iterable[tuple[str, Sequence[str]]],
          has_ends: bool = True) -> str:
    """A table of texts, in which each row has a class. HTML needs no ends of cells and rows.

    >>> table(["a"], [("wrong", ["<"])])
    '<table><tr><th>a</th></tr>\\n<tr class="wrong"><td>&lt;</td></tr>\\n</table>'
    >>> table(["a"], [("wrong", ["<"])], has_ends=False)
    '<table><tr><th>a\\n<tr class="wrong"><td>&lt;\\n</table>'
    """
    th, td, tr = ("</th>", "</td>", "</tr>") if has_ends else ("", "", "")
    lines = [f"<tr>{''.join(f'<th>{it}{th}' for it in head)}{tr}\n"]
    for kind, cells in rows:
        made = "".join(f"<td>{html.escape(it)}{td}" for it in cells)
        lines.append(f'<tr class="{kind}">{made}{tr}\n')
    return f"<table>{''.join(lines)}</table>"
