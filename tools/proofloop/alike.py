"""Laws that may stand twice: those of two files whose statements end alike, whatever their names and bound names are. The
premises are left to the reader, since one law may ask more than another that says the same.
"""
import re
from collections import defaultdict

LAW = re.compile(r"(?:pub )?([^\s:({][^\s:]*) : (.*)")
OTHER = ("--", "let ", "use ", "infix", "abbrev ", "unfoldable ", "pub abbrev ", "pub unfoldable ")
BINDER = re.compile(r"[({]([^(){}:]+) : ")
WORD = re.compile(r"[^\s(){}]+|[(){}]")


def depth(line):
    return len(line) - len(line.lstrip())


def blocks(text):
    """A file's blocks: the number of the first line, its depth, and the lines joined up to the next at no greater depth."""
    lines = [(number, line) for number, line in enumerate(text.splitlines(), 1) if line.strip()]
    for i, (number, line) in enumerate(lines):
        body = [line.strip()]
        for _, behind in lines[i + 1:]:
            if depth(behind) <= depth(line) or behind.lstrip().startswith(("unfolding", "where")):
                break
            body.append(behind.strip())
        yield number, depth(line), " ".join(body)


def laws(text):
    """The laws of a file: number of the line, name, what stands before it in parameters, statement. Fields are no laws."""
    around, within = [], None
    for number, at, body in blocks(text):
        around = [(d, words) for d, words in around if d < at]
        if within is not None and at > within:
            continue
        within = at if re.match(r"(pub )?(record|data) ", body) else None
        if body.startswith("module _ "):
            around.append((at, body.partition(" where")[0]))
        law = None if within is not None or body.startswith(OTHER) else LAW.match(body)
        if law:
            yield number, law[1], " ".join(words for _, words in around), law[2]


def end(statement):
    """What a statement says behind its premises and the names that it binds."""
    deep, last = 0, 0
    for i, sign in enumerate(statement):
        deep += (sign in "({") - (sign in ")}")
        if sign == "→" and deep == 0:
            last = i + 1
    return re.sub(r"^(\s*[({][^(){}:]+ : [^(){}]*[)}])+", "", statement[last:]).strip()


def numbered(words, bound):
    """The words with the bound names numbered as they come."""
    order = {}
    return " ".join(order.setdefault(word, f"x{len(order)}") if word in bound else word for word in WORD.findall(words))


def found(texts):
    """The ends that laws of two files have; texts are (file, text). An end that is hardly more than names says nothing."""
    same = defaultdict(list)
    for file, text in texts:
        for number, name, around, statement in laws(text):
            bound = {word for group in BINDER.findall(f"{around} {statement}") for word in group.split()}
            said = numbered(end(statement), bound)
            if len(said) > 14:
                same[said].append((file, number, name))
    return [(said, places) for said, places in sorted(same.items()) if len({file for file, _, _ in places}) > 1]
