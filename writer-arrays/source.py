"""Rattle sources as items: functions, constants, types and imports, module by module. Whatever it does not know is an error."""

import re
from pathlib import Path

TOKEN = re.compile(
    r"""
    //[^\n]* | \s+                                            # nothing
    | b?"(?:\\.|[^"\\])*" | b?'(?:\\.|[^'\\])' | '[a-z]+\b    # bytes, a byte, a lifetime
    | [A-Za-z_]\w* | \d\w*                                   # names and numbers
    | :: | -> | => | \.\.=? | << | >> | && | \|\| | [-+*/%&|^<>=!]=
    | .
    """,
    re.DOTALL | re.VERBOSE,
)
CLOSING = {"(": ")", "[": "]", "{": "}"}
# the traits that a type may have by hand: words show where their functions run, which `==`, `for` or a drop doesn't
TRAITS = {"From", "TryFrom"}


class Unknown(Exception):
    """Something in the sources that can't be followed."""


def tokens(text):
    """The words of a source, without spaces, comments and lifetimes."""
    found = [m.group() for m in TOKEN.finditer(text)]
    return [t for t in found if not t.isspace() and not t.startswith("//") and not re.fullmatch(r"'[a-z]+", t)]


def group_end(words, i):
    """The place of the bracket that closes the one at i."""
    depth = 0
    for j in range(i, len(words)):
        if words[j] in CLOSING:
            depth += 1
        elif words[j] in CLOSING.values():
            depth -= 1
            if depth == 0:
                return j
    raise Unknown(f"a bracket is not closed: {' '.join(words[i:i + 8])}")


def angle_end(words, i):
    """The place of the angle bracket that closes the one at i, among the parameters of a type."""
    depth = 0
    for j in range(i, len(words)):
        depth += {"<": 1, ">": -1, ">>": -2}.get(words[j], 0)
        if depth <= 0:
            return j
    raise Unknown(f"an angle bracket is not closed: {' '.join(words[i:i + 8])}")


def split(words, mark):
    """The parts of a list of words between marks outside of all brackets."""
    parts, depth = [[]], 0
    for word in words:
        depth += (word in CLOSING) - (word in CLOSING.values())
        if word == mark and depth == 0:
            parts.append([])
        else:
            parts[-1].append(word)
    return parts


class Module:
    """The items of one module. `path` has the crate's name first."""

    def __init__(self, path):
        self.path = path
        self.uses, self.modules = {}, set()
        self.functions, self.constants, self.types = {}, {}, {}

    def has(self, name):
        """Whether a path that begins with this name begins with an import or an item of this module."""
        return name in {*self.uses, *self.types, *self.modules} or (None, name) in {*self.functions, *self.constants}

    def read(self, words, owner=None):
        """Takes up all items; those of an `impl` under their type's name."""
        i = 0
        while i < len(words):
            i = self.item(words, i, owner)

    def item(self, words, i, owner):
        word = words[i]
        if word in ("pub", "extern", '"C"'):
            return i + 1
        if word == "ghost":
            return words.index(";", i) + 1
        if word == "#":
            return group_end(words, i + 1) + 1
        if word == "use":
            end = words.index(";", i)
            self.use(words[i + 1 : end])
            return end + 1
        if word == "mod" and words[i + 2] == ";":
            self.modules.add(words[i + 1])
            return i + 3
        if word == "const":
            return self.constant(words, i, owner)
        if word in ("struct", "enum"):
            return self.type(words, i)
        if word == "impl":
            return self.impl(words, i)
        if word == "type" and owner:
            return words.index(";", i) + 1
        if word == "fn":
            return self.function(words, i, owner)
        raise Unknown(f"{'::'.join(self.path)}: an item that begins with '{word}'")

    def impl(self, words, i):
        """Takes up an `impl` of a type's own or of a trait whose calls can be followed, under the type's name."""
        at = words.index("{", i)
        head = words[i + 1 : at]
        if len(head) > 1 and (head[0] not in TRAITS or head[-2] != "for"):
            raise Unknown(f"{'::'.join(self.path)}: impl {' '.join(head)}")
        end = group_end(words, at)
        self.read(words[at + 1 : end], head[-1])
        return end + 1

    def use(self, words):
        """Takes up an import, and each of those that stand between braces."""
        if "as" in words or "*" in words:
            raise Unknown(f"{'::'.join(self.path)}: use {' '.join(words)}")
        if words[-1] == "}":
            start = words.index("{")
            for part in split(words[start + 1 : -1], ","):
                if part:
                    self.use([*words[:start], *part])
            return
        path = [w for w in words if w != "::"]
        self.uses[path[-1]] = path

    def constant(self, words, i, owner):
        end = i
        while words[end] != ";":
            end = group_end(words, end) + 1 if words[end] in CLOSING else end + 1
        kind, value = split(words[i + 3 : end], "=")
        self.constants[(owner, words[i + 1])] = (kind, value)
        return end + 1

    def type(self, words, i):
        """A type is the names of its variants, for an enum, and all other words of its declaration, those of its parameters too."""
        at = angle_end(words, i + 2) + 1 if words[i + 2] == "<" else i + 2
        if words[at] not in ("{", "("):
            raise Unknown(f"{'::'.join(self.path)}: {' '.join(words[i : at + 1])}")
        end = group_end(words, at)
        parts = [part for part in split(words[at + 1 : end], ",") if part]
        variants = {part.pop(0) for part in parts} if words[i] == "enum" else set()
        self.types[words[i + 1]] = (variants, [*words[i + 2 : at], *(word for part in parts for word in [*part, ","])])
        return end + 1 + (words[end + 1 : end + 2] == [";"])

    def function(self, words, i, owner):
        """A function is the words of its signature and of its body, without the contract between them; those of a trait's functions that a type has
        more than once, as `from`, are put together."""
        name, at = words[i + 1], group_end(words, words.index("(", i)) + 1
        start = at
        while words[at] not in ("{", "requires", "ensures"):
            at = group_end(words, at) + 1 if words[at] in CLOSING else at + 1
        signature = words[i + 2 : start] + words[start:at]
        while words[at] in ("requires", "ensures"):
            at = group_end(words, words.index("{", at)) + 1
        if words[at] != "{":
            raise Unknown(f"{'::'.join(self.path)}::{name}: '{words[at]}' before its body")
        end = group_end(words, at)
        if "impl" in words[at:end]:
            raise Unknown(f"{'::'.join(self.path)}::{name}: 'impl' within a function")
        before = self.functions.get((owner, name), ([], []))
        self.functions[(owner, name)] = ([*before[0], *signature], [*before[1], *words[at + 1 : end]])
        return end + 1


def read_sources(top):
    """The text of every source file, by its path below the top folder."""
    files = sorted(Path(top).glob("crates/*/src/**/*.rt"))
    return {str(f.relative_to(top)): f.read_text(encoding="utf-8") for f in files}


def modules(sources):
    """The modules of all crates, by path."""
    found = {}
    for name, text in sources.items():
        _, crate, _, *rest = Path(name).with_suffix("").parts
        path = (crate, *rest) if rest not in (["lib"], ["main"]) else (crate,)
        found[path] = Module(path)
        found[path].read(tokens(text))
    return found
