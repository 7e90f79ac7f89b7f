"""What `rt check` prints about a crate, taken apart into blocks and told in fewer words. rt says all it knows, thousands of
characters for each fact that is not proved; a maintainer in the loop wants the errors, the open goals and the functions that are
left.
"""
import re
from dataclasses import dataclass

LINE, WHOLE, FIRST = 900, 14000, 300  # how many characters are shown: of a line, of all, of an error's first line

KINDS = [
    ("wanted", r"note: `\S+` of \S+ (must prove|may be false):"),
    ("note", r"note:|warning:|\S+: note:|hides "),
    ("file", r"help: write \S+ with these lines"),
    ("help", r"help:"),
    ("verdict", r"(fn|struct|enum|impl|trait) \S+: "),
    ("goal", r"\S+: goal \?"),
    ("holed", r".* is not admitted: has-holes"),
    ("account", r"logic[ =]|(library|statements|crate|checked|axioms|wrote) |(holes|started|only|tests)=|so far:|by-macro:|\s*$"),
    ("account", r"rt: (chose |rt |waiting |\S+: (begins with|another copy))"),
]


@dataclass
class Block:
    """A line of rt's that starts at the margin, with the indented lines below it."""
    kind: str
    lines: list

    @property
    def first(self):
        return self.lines[0]

    @property
    def text(self):
        return "\n".join(self.lines)


def blocks(text):
    """rt's text in blocks; what is of no known kind is an error."""
    found = []
    for line in text.split("\n"):
        if found and (line[:1].isspace() or not line):
            found[-1].lines.append(line)
            continue
        kind = next((kind for kind, form in KINDS if re.match(form, line)), "error")
        found.append(Block(kind, [line]))
    return found


def of_kind(text, *kinds):
    return [block for block in blocks(text) if block.kind in kinds]


def proved(verdict):
    return re.search(r": (proved|no holes)\b[^;]*$", verdict.first) is not None


def of_another(verdict):
    """Whether a verdict is of a crate below, proved on the way: past holes rt says `no holes`."""
    return verdict.first.endswith(": proved")


def unproved(text):
    """The functions and types that are not proved yet."""
    return [re.match(r"\S+ (\S+):", block.first).group(1) for block in of_kind(text, "verdict") if not proved(block)]


def holes(text):
    """The open goals, as FILE.NAME; FILE below proofs/ or specs/, and a function's folder for its proof."""
    found = {}
    for block in of_kind(text, "goal", "wanted"):
        file = re.search(r"(?:proofs|specs)/(\S+?)(?:/(?:Answers|Invariants|Proof))?\.antt", block.first)
        found[f"{file.group(1) if file else ''}.{declared(block)}"] = True
    return list(found)


def declared(block):
    """The name of the declaration that a goal or an error is about."""
    found = re.search(r"goal \?\S* in `([^`]+)`|error: `([^`]+)`:|^note: `([^`]+)` of", block.first)
    return next(filter(None, found.groups())) if found else None


# ---- told in fewer words

def cut(shown, where):
    """Lines as a text, cut where it gets too long."""
    text = "\n".join(shown)
    if len(text) <= WHOLE:
        return text
    return f"{text[:WHOLE]}\n.. cut here; the whole text is in {where}"


def told(text, where):
    """Verdicts, goals and errors, without the notes on what was tried."""
    shown = []
    for block in blocks(text):
        if block.kind == "file":
            shown.append(f"no file yet: {block.first.split()[2]}")
        elif block.kind == "account":
            shown += [line for line in block.lines if line.startswith("holes=")]
        elif block.kind in ("goal", "wanted", "error") or (block.kind == "verdict" and not of_another(block)):
            shown += [line[:LINE] for line in block.lines if line.strip()]
    return cut(shown, where)


def errors(text, where):
    """The errors, each cut, and the names of the open goals."""
    shown = [block.text.rstrip()[:LINE] for block in of_kind(text, "error")]
    return below(cut(shown, where), f"goals: {' '.join(holes(text)) or 'none'}")


def short(text, where):
    """The first line of each error, and what is not proved yet."""
    shown = [block.first[:FIRST] for block in of_kind(text, "error")]
    left = " ".join(unproved(text)) or "none"
    return below(cut(shown, where), f"errors: {len(shown)}\nfunctions not proved: {left}")


def below(text, line):
    return f"{text}\n{line}" if text else line


def goal(text, name):
    """The goals of a declaration, whole, and its errors; None if there are none."""
    found = [block.text.rstrip() for block in of_kind(text, "goal", "wanted", "error") if declared(block) == name]
    return "\n".join(found) or None
