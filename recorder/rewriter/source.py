"""Preprocessed text as tokens with their files and lines."""
import bisect
import re
from dataclasses import dataclass

TOKEN = re.compile(r'''
    (?P<directive>^[ \t]*\#[^\n]*)
  | (?P<space>[ \t\r\f\v\n]+)
  | (?P<raw>(?:u8|[uUL])?R"(?P<delimiter>[^()\\ \n]*)\(.*?\)(?P=delimiter)")
  | (?P<string>(?:u8|[uUL])?"(?:[^"\\\n]|\\.)*")
  | (?P<character>(?:u8|[uUL])?'(?:[^'\\\n]|\\.)*')
  | (?P<number>\.?[0-9](?:[eEpP][+-]|'[0-9a-zA-Z]|[0-9a-zA-Z_.])*)
  | (?P<name>[A-Za-z_$\u0080-\U0010ffff][A-Za-z0-9_$\u0080-\U0010ffff]*)
  | (?P<digraph><%|%>|:>|<:(?!:(?![:>])))
  | (?P<operator><<=|>>=|->\*|\.\.\.|->|::|\+\+|--|<<|[-+*/%&|^<>=!]=|&&|\|\||.)
''', re.X | re.S | re.M)
MARK = re.compile(r'[ \t]*#(?:line)?[ \t]+(\d+)[ \t]+"((?:[^"\\]|\\.)*)"([ \d]*)$')
OPEN = {"(": ")", "[": "]", "{": "}"}
DIGRAPHS = {"<%": "{", "%>": "}", "<:": "[", ":>": "]"}


@dataclass(frozen=True)
class Keyword:
    """`name`: as <cilk/cilk.h> spells it; `elision`: what it is to a serial compiler; `refusal`: why it may not stand where it does."""
    name: str
    elision: str
    refusal: str


def misplaced(where):
    return "stands where it may not: " + where


OPENCILK = "a reducer of OpenCilk, which clang does not compile; take one of Cilk Plus (<cilk/reducer_opadd.h> and others)"
# The one list of them. <cilk/cilk.h> defines the names (a test compares), and the wrapper the elisions.
KEYWORDS = {
    "_Cilk_spawn": Keyword("cilk_spawn", "", misplaced("it begins a statement, or stands behind the = of one")),
    "_Cilk_sync": Keyword("cilk_sync", "do {} while (0)", misplaced("it is a statement of its own")),
    "_Cilk_for": Keyword("cilk_for", "for", misplaced("it begins a statement in a function")),
    "_Cilk_scope": Keyword("cilk_scope", "", misplaced("it begins a statement in a function")),
    "_Cilk_reducer": Keyword("cilk_reducer", "", OPENCILK),
    "_Hyperobject": Keyword("_Hyperobject", "", OPENCILK),
}
ANY_KEYWORD = re.compile(rf"\b(?:{'|'.join(KEYWORDS)})\b")
# Options with which clang reads the user's text as the serial elision. (It warns of variadic macros.)
ELISION = [f"-D{word}{'(identity,reduce)' if keyword.refusal == OPENCILK else ''}={keyword.elision}" for word, keyword in KEYWORDS.items()]
WIDEST = 500                                                # such lines come from macros
JUMPS = {"return", "break", "continue", "goto", "co_return", "co_yield", "co_await"}


class Refused(Exception):
    """What the rewriter does not understand, with its place."""

    def __init__(self, file, line, why):
        super().__init__(f"{file}:{line}: {why}")
        self.file, self.line, self.why = file, line, why


def user_files(text):
    """The files that the preprocessor does not call system headers. A macro of a system header is marked as one, in the user's file."""
    found = set()
    for mark in re.finditer(r'^#(?:line)?[ \t]+\d+[ \t]+"((?:[^"\\]|\\.)*)"([ \d]*)$', text, re.M):
        if "3" not in mark.group(2).split():
            found.add(mark.group(1))
    return found


def parts(text):
    """The text in parts: (is a system header's, text). A mark in the middle of a line, as for a system header's macro, is taken out."""
    users = user_files(text)
    out, lines, system, file, last, joined = [], [], False, None, 0, False

    def end_part():
        if lines:
            out.append((system, "\n".join(lines) + "\n"))
            lines.clear()
    for line in text.removesuffix("\n").split("\n"):
        mark = MARK.match(line) if line[:1] in "# \t" else None
        if mark is None:
            if joined and line.lstrip().startswith("#"):    # a pragma, of a macro
                lines.append(f'# {last} "{file}"')
                joined, last = False, last - 1
            if joined:
                lines[-1] += " " + line
                joined = False
            else:
                lines.append(line)
                last += 1
            continue
        number, name, flags = int(mark.group(1)), mark.group(2), mark.group(3).split()
        now_system = "3" in flags and name not in users
        if not now_system and not system and name == file and number == last and lines and not lines[-1].lstrip().startswith("#") and "1" not in flags and "2" not in flags:
            joined = True                                   # back to the line that was just written
            continue
        if now_system != system:
            end_part()
            system = now_system
        joined = False
        lines.append(line if now_system else f'# {number} "{name}"' + "".join(" " + flag for flag in flags if flag in "12"))
        file, last = name, number - 1
    end_part()
    if out and not text.endswith("\n"):
        out[-1] = (out[-1][0], out[-1][1][:-1])
    return out


class Source:
    """Tokens of a text, with what is asked about them: brackets, keywords, places.

    A column is that of the preprocessed line. The preprocessor keeps the column of a line's first token; behind a macro or several blanks the
    columns are its own.
    """

    def __init__(self, text):
        self.tokens, self.kinds, self.places = [], [], []
        self.pairs, self.keywords, self.jumps = {}, [], []
        self.following = []
        file, line, stack = "?", 1, []
        for is_system, part in parts(text):
            if is_system:
                self.add("directive", part, file, line, 1)
                continue
            start = 0                                       # of the line, in the part
            for found in TOKEN.finditer(part):
                kind, token = found.lastgroup, found.group()
                if kind == "delimiter":
                    kind = "raw"
                elif kind == "digraph":
                    kind, token = "operator", DIGRAPHS[token]
                at = len(self.tokens)
                self.add(kind, token, file, line, found.start() - start + 1)
                if "\n" in token:
                    line += token.count("\n")
                    start = found.start() + token.rindex("\n") + 1
                if kind == "directive":
                    mark = MARK.match(token)
                    if mark:
                        file, line = mark.group(2), int(mark.group(1)) - 1
                elif kind == "name":
                    if token in KEYWORDS:
                        self.keywords.append(at)
                    elif token in JUMPS:
                        self.jumps.append(at)
                elif kind == "operator":
                    if token in OPEN:
                        stack.append(at)
                    elif token in ")]}":
                        if stack and OPEN.get(self.tokens[stack[-1]]) == token:
                            self.pairs[stack.pop()] = at
                        else:
                            stack.append(at)                # never closed: whatever is around it stays unpaired
        self.add("end", "", file, line, 1)
        after = len(self.tokens) - 1
        self.following = [0] * len(self.tokens)
        for at in range(len(self.tokens) - 1, -1, -1):
            if self.kinds[at] not in ("space", "directive"):
                after = at
            self.following[at] = after
        self.count = 0

    def add(self, kind, token, file, line, column):
        self.kinds.append(kind)
        self.tokens.append(token)
        self.places.append((file, line, column))

    def refuse(self, at, why):
        raise Refused(*self.places[at][:2], why)

    def solid(self, at):
        """The first token at or behind `at` that is one; the end is one."""
        return self.following[min(at, len(self.following) - 1)]

    def before(self, at):
        """The last token before `at` that is one, or -1."""
        at -= 1
        while at >= 0 and self.kinds[at] in ("space", "directive"):
            at -= 1
        return at

    def closing(self, at):
        if at not in self.pairs:
            self.refuse(at, f"a {self.tokens[at]} without its other")
        return self.pairs[at]

    def has(self, begin, end, places=None):
        """Whether a keyword, or one of `places`, is among the tokens."""
        places = self.keywords if places is None else places
        at = bisect.bisect_left(places, begin)
        return at < len(places) and places[at] < end

    def contains(self, begin, end, word):
        return any(self.tokens[at] == word and self.kinds[at] == "name" for at in range(begin, end))

    def text(self, begin, end):
        return "".join(self.tokens[begin:end])

    def words(self, begin, end):
        return [self.tokens[at] for at in self.solids(begin, end)]

    def solids(self, begin, end):
        return [at for at in range(begin, min(end, len(self.tokens))) if self.kinds[at] not in ("space", "directive")]

    def inner(self, begin, end):
        """The text without white space around it; a directive in it keeps its own line."""
        text = self.text(begin, end)
        if any(self.kinds[at] == "directive" for at in range(begin, end)):
            return "\n" + text + "\n"
        return text.strip()

    def split(self, begin, end, separator):
        """The parts between separators that stand in no bracket; [(begin, end)]."""
        out, at, start = [], begin, begin
        while at < end:
            if self.kinds[at] == "operator":
                if self.tokens[at] in OPEN:
                    at = self.closing(at)
                elif self.tokens[at] == separator:
                    out.append((start, at))
                    start = at + 1
            at += 1
        out.append((start, end))
        return out

    def semicolon(self, begin):
        """The `;` that ends the statement which begins there."""
        at = begin
        while at < len(self.tokens):
            if self.kinds[at] == "operator":
                if self.tokens[at] in OPEN:
                    at = self.closing(at)
                elif self.tokens[at] == ";":
                    return at
                elif self.tokens[at] in ")]}":
                    break
            at += 1
        self.refuse(begin, "a statement that no ; ends")

    def fresh(self):
        self.count += 1
        return f"cilkcheck_{self.count}_"

    def line_mark(self, at):
        """Behind it begins the line of the token."""
        file, line, _ = self.places[at]
        return f'\n# {line} "{file}"\n'

    def back_to(self, at):
        """What comes before the token, so that the compiler sees it at its line and column."""
        column = self.places[at][2]
        return self.line_mark(at) + " " * (column - 1 if column < WIDEST else 0)
