"""Scripts and styles of the page without what only those who read them need: comments, the blanks before lines, and those that part no words.

Texts, templates and patterns stay as they are, and so do lines, at whose ends statements end.
"""
import re

COMMENT = re.compile(r"^[ \t]*(?://.*|/\*(?:[^*]|\*(?!/))*\*/[ \t]*)\n", re.M)
QUOTED = re.compile(r'"(?:\\.|[^"\\\n])*"|\'(?:\\.|[^\'\\\n])*\'')
PATTERN = re.compile(r"/(?:\\.|\[(?:\\.|[^\]\\\n])*\]|[^/\\\n\[])+/[a-z]*")

# Behind which signs a slash begins a pattern: there a value is wanted, and nothing is there to be divided.
WANTS_VALUE = "(,=:[!&|?{};>\n"


class Unread(Exception):
    """What isn't understood of a script."""


def script(text: str) -> str:
    """A module that is lean."""
    if any(line.count("`") % 2 for line in text.splitlines()):
        raise Unread("a text goes on over the end of a line")
    return closed("\n".join(line.lstrip() for line in COMMENT.sub("", text).splitlines() if line.strip()))


def closed(text: str) -> str:
    """A script without the blanks that part no words."""
    parts, k, before = [], 0, "\n"
    while k < len(text):
        end = max(literal_end(text, k, before), k + 1)
        if text[k] != " " or parts_words(before, text[end:end + 1]):
            parts.append(text[k:end])
        before, k = last_of(text[k:end], before), end
    return "".join(parts)


def last_of(piece: str, before: str) -> str:
    """The last sign that is no blank, after one more piece."""
    return before if piece == " " else piece[-1]


def literal_end(text: str, k: int, before: str) -> int:
    """Where the text, template or pattern ends that begins at a place; that place where none does. `before` is the last sign that is no blank."""
    if text[k] == "`":
        return template_end(text, k)
    kind = QUOTED if text[k] in "\"'" else PATTERN if text[k] == "/" and before in WANTS_VALUE else None
    if kind is None:
        return k
    found = kind.match(text, k)
    if found is None:
        raise Unread(f"what begins with {text[k:k + 20]!r}")
    return found.end()


def template_end(text: str, k: int) -> int:
    """Where a template ends, in whose values others may stand."""
    k += 1
    while text[k] != "`":
        if text.startswith("${", k):
            k = value_end(text, k + 2)
        else:
            k += 2 if text[k] == "\\" else 1
    return k + 1


def value_end(text: str, k: int) -> int:
    """Where a value in a template ends, behind its brace."""
    depth, before = 1, "{"
    while depth > 0:
        end = max(literal_end(text, k, before), k + 1)
        if end == k + 1:
            depth += {"{": 1, "}": -1}.get(text[k], 0)
        before, k = last_of(text[k:end], before), end
    return k


def parts_words(before: str, after: str) -> bool:
    """Whether two signs would be read as one word, or as another sign, without a blank between them."""
    return (is_of_word(before) and is_of_word(after)) or (before == after and before in "+-") or "/" in (before, after)


def is_of_word(sign: str) -> bool:
    return sign.isalnum() or sign in ("_", "$", "#", "\\") or ord(sign or " ") > 127


def style(text: str) -> str:
    """A style that is lean: a blank stays where it stands between selectors or values."""
    parts = re.split(r'("(?:\\.|[^"\\\n])*")', text)
    return "".join(part if k % 2 else re.sub(r" ?([{};]) ?|([:,]) (?=[^)\n]*[;}\n])", r"\1\2", part) for k, part in enumerate(parts))
