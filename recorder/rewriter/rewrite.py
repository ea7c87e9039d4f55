"""The structure of a text: declarations, functions, statements. Spawns and loops are in files of their own.

What holds no keyword is copied as it is. In a function that spawns each return, and the end of the body, is preceded by a sync: the value
of a return is computed before it, and the locals of the function end behind it, as in Cilk Plus.
"""
import re
import sys
from dataclasses import dataclass, replace
from pathlib import Path

from . import loops, openmp, reducers, spawns
from .source import ANY_KEYWORD, KEYWORDS, Refused, Source

PRELUDE = Path(__file__).resolve().parent.parent / "include" / "cilkcheck"
CLASSES = {"class", "struct", "union"}
# parentheses behind these are no parameters
PREFIXES = {"__attribute__", "__attribute", "alignas", "_Alignas", "decltype", "__typeof__", "typeof", "__decltype", "noexcept", "requires", "__declspec", "explicit", "__asm__", "asm", "__asm"}


@dataclass(frozen=True)
class Context:
    """What a statement stands in. `syncs`: a function that spawns; `outlined`: the body of a cilk_for or a spawned block, out of which no
    jump leads; `breaks`, `continues`: a break or continue stays inside; `labels`: where a goto may lead from an outlined body."""
    syncs: bool = False
    outlined: str = ""
    breaks: bool = True
    continues: bool = True
    labels: frozenset = frozenset()


class Rewriter:
    def __init__(self, source, cxx):
        self.source, self.cxx = source, cxx
        self.spawns = 0                                     # those of C, by which a mark and its end are a pair
        self.kinds = {"do": self.do, "case": self.case, "default": self.default, "return": self.returned, "break": self.broken, "continue": self.continued,
                      "goto": self.gone, "_Cilk_spawn": self.spawn, "_Cilk_sync": self.sync, "_Cilk_for": self.loop, "_Cilk_scope": self.scope}
        self.kinds |= dict.fromkeys(("if", "while", "for", "switch"), self.controlled)
        if cxx:
            self.kinds["try"] = self.tried

    # ---- declarations ----

    def declarations(self, begin, end):
        """Tokens of a file, namespace or class."""
        source, out, at = self.source, [], begin
        while at < end:
            if source.kinds[at] in ("space", "directive"):
                out.append(source.tokens[at])
                at += 1
                continue
            text, at = self.declaration(at, end)
            out.append(text)
        return "".join(out)

    def declaration(self, begin, end):
        source, at, out, copied = self.source, begin, [], begin
        while at < end:
            token, kind = source.tokens[at], source.kinds[at]
            if kind != "operator" or token not in "([{;" or token == "":
                at += 1
                continue
            if token == ";":
                return "".join(out) + self.expression(copied, at + 1, Context()), at + 1
            close = source.closing(at) if at in source.pairs else end - 1
            if not source.has(at, close):
                if token == "{" and self.ends_there(begin, at, close, end):
                    return "".join(out) + source.text(copied, close + 1), close + 1
                at = close + 1
                continue
            source.closing(at)
            opening = at
            if token != "{":
                out.append(source.text(copied, at) + self.expression(at, close + 1, Context()))
                at = copied = close + 1
                continue
            what = self.brace(begin, at)
            out.append(self.expression(copied, at, Context()))
            if what == "scope":
                out.append("{" + self.declarations(at + 1, close) + "}")
            elif what == "function":
                out.append(self.body(at))
            else:
                out.append(self.expression(at, close + 1, Context()))
            at = copied = close + 1
            if self.ends_there(begin, opening, close, end, what):
                return "".join(out), at
        return "".join(out) + self.expression(copied, end, Context()), end

    def ends_there(self, begin, opening, close, end, what=None):
        """Whether a declaration ends with the `}` at `close`: a function or a namespace, no class and no initializer."""
        source = self.source
        if what is None:
            what = self.brace(begin, opening)
        if what == "scope":
            return not CLASSES & set(source.words(begin, opening)) or "namespace" in source.words(begin, opening)
        if what != "function":
            return False
        follows = source.solid(close + 1)
        return not (follows < end and source.tokens[follows] == "catch")

    def brace(self, begin, opening):
        """What the `{` begins, in a file, namespace or class: a scope, a function, or an initializer."""
        source = self.source
        at, words, parameters = begin, [], False
        if source.tokens[begin] == "template":              # its parameters say nothing about the brace
            at = self.behind_angles(begin, opening)
        while at < opening:
            if source.kinds[at] in ("space", "directive"):
                at += 1
                continue
            token = source.tokens[at]
            if source.kinds[at] == "operator" and token in OPENINGS:
                close = source.closing(at)
                if token == "(" and not (words and words[-1] in PREFIXES):
                    parameters = True
                at = close + 1
                words.append(token)
                continue
            words.append(token)
            at += 1
        if not words:
            return "function"                               # C before 1989: the parameters' declarations come before the body
        if "namespace" in words or (words[:1] == ["extern"] and len(words) == 2):
            return "scope"
        heads = [word for word in words if word not in ("static", "typedef", "const", "volatile", "extern", "inline", "constexpr", "friend", "__extension__", "[")]
        if heads and heads[0] in CLASSES and (not parameters or ":" in words) or CLASSES & set(heads) and not parameters and "=" not in words:
            return "scope"
        if not parameters or "enum" in heads[:1]:
            return "initializer"
        if ":" in words and words[-1] not in ("(", "{", "try") and words[-1] != "override":
            return "initializer"                            # of a member, behind a constructor's :
        if "=" in words and "operator" not in words:
            return "initializer"
        return "function"

    def behind_angles(self, begin, end):
        at, depth = begin + 1, 0
        while at < end:
            token = self.source.tokens[at]
            depth += (token == "<") - (token == ">") - 2 * (token == ">>")
            at += 1
            if depth == 0 and token in (">", ">>"):
                return self.source.solid(at)
        return end

    # ---- functions and statements ----

    def body(self, opening):
        """A function's body."""
        source, close = self.source, self.source.closing(opening)
        if not source.has(opening, close):
            return source.text(opening, close + 1)
        if self.cxx:
            for at in source.jumps:
                if opening < at < close and source.tokens[at].startswith("co_"):
                    source.refuse(at, "a coroutine with a keyword of Cilk")
        syncs = source.contains(opening, close, "_Cilk_spawn")
        inside = self.statements(opening + 1, close, Context(syncs=syncs))
        return "{" + inside + ("__cilkcheck_mark_sync(); " if syncs else "") + "}"

    def statements(self, begin, end, context):
        source, out, at = self.source, [], begin
        while at < end:
            if source.kinds[at] in ("space", "directive"):
                out.append(source.tokens[at])
                at += 1
                continue
            text, following = self.statement(at, context)
            out.append(text if text == source.text(at, following) else text + source.back_to(following))
            at = following
        return "".join(out)

    def plain(self, begin, end, context):
        """Whether the statement may stay as it is."""
        source = self.source
        return not source.has(begin, end) and not ((context.syncs or context.outlined) and source.has(begin, end, source.jumps))

    def statement(self, at, context):
        """The statement that begins at `at`: its text, and where the next begins."""
        source = self.source
        token, kind = source.tokens[at], source.kinds[at]
        if kind == "operator":
            if token == "{":
                return self.block(at, context)
            if spawns.begins_attribute(source, at):
                behind = source.closing(at) + 1
                follows = source.tokens[source.solid(behind)]
                if follows in self.kinds or follows in ("[", "{", ";"):
                    return self.prefixed(at, behind, context)
            return self.simple(at, context)
        if kind != "name":
            return self.simple(at, context)
        if token in self.kinds:
            return self.kinds[token](at, context)
        follows = source.solid(at + 1)
        if source.tokens[follows] == ":" and source.kinds[follows] == "operator":
            return self.prefixed(at, follows + 1, context)
        return self.simple(at, context)

    def prefixed(self, at, behind, context):
        """A label or an attribute, and its statement where one follows."""
        source = self.source
        following = source.solid(behind)
        if source.tokens[following] == "}" or source.kinds[following] == "end":
            return source.text(at, behind), behind
        text, end = self.statement(following, context)
        return source.text(at, following) + text, end

    def block(self, at, context):
        source, close = self.source, self.source.closing(at)
        if self.plain(at, close, context):
            return source.text(at, close + 1), close + 1
        return "{" + self.statements(at + 1, close, context) + "}", close + 1

    def part(self, begin, context):
        """A statement that is a part of another; the text before it is kept."""
        source, following = self.source, self.source.solid(begin)
        text, end = self.statement(following, context)
        if text != source.text(following, end):
            text = f"{{{text}}}{source.back_to(end)}"
        return source.text(begin, following) + text, end

    def controlled(self, at, context):
        """if, while, for, switch: parentheses and a statement."""
        source, token = self.source, self.source.tokens[at]
        opening = source.solid(at + 1)
        while source.tokens[opening] == "!" or source.kinds[opening] == "name":      # if constexpr, if not consteval
            opening = source.solid(opening + 1)
        if source.tokens[opening] == "{":
            return self.consteval(at, opening, context)
        close = source.closing(opening)
        text = source.text(at, opening) + self.expression(opening, close + 1, context)
        inner = context
        if token in ("while", "for"):
            inner = replace(context, breaks=True, continues=True)
        elif token == "switch":
            inner = replace(context, breaks=True)
        more, end = self.part(close + 1, inner)
        text += more
        return self.otherwise(text, end, context) if token == "if" else (text, end)

    def consteval(self, at, opening, context):
        text, end = self.block(opening, context)
        return self.otherwise(self.source.text(at, opening) + text, end, context)

    def otherwise(self, text, end, context):
        """The text, and the `else` that may follow."""
        source, follows = self.source, self.source.solid(end)
        if source.tokens[follows] != "else":
            return text, end
        more, behind = self.part(follows + 1, context)
        return text + source.text(end, follows + 1) + more, behind

    def do(self, at, context):
        source = self.source
        text, end = self.part(at + 1, replace(context, breaks=True, continues=True))
        semicolon = source.semicolon(end)
        return "do" + text + self.expression(end, semicolon + 1, context), semicolon + 1

    def tried(self, at, context):
        """A try block that spawns ends with a sync, before its locals end."""
        source = self.source
        opening = source.solid(at + 1)
        close = source.closing(opening)
        text, end = self.block(opening, context)
        if source.contains(opening, close, "_Cilk_spawn"):
            text = text[:text.rindex("}")] + "__cilkcheck_mark_sync(); }"
        text = source.text(at, opening) + text
        while source.tokens[source.solid(end)] == "catch":
            follows = source.solid(end)
            block = source.solid(source.closing(source.solid(follows + 1)) + 1)
            more, behind = self.block(block, context)
            text, end = text + source.text(end, block) + more, behind
        return text, end

    def case(self, at, context):
        source, end, questions = self.source, at, 0
        while not (source.tokens[end] == ":" and questions == 0):
            if source.tokens[end] in ("{", "}", ";") or source.kinds[end] == "end":
                source.refuse(at, "a case without its :")
            questions += (source.tokens[end] == "?") - (source.tokens[end] == ":")
            end += 1
        return self.prefixed(at, end + 1, context)

    def default(self, at, context):
        return self.prefixed(at, self.source.solid(at + 1) + 1, context)

    def returned(self, at, context):
        source, semicolon = self.source, self.source.semicolon(at)
        if context.outlined:
            source.refuse(at, f"a return out of {context.outlined}")
        text = "return" + self.expression(at + 1, semicolon + 1, context)
        if not context.syncs:
            return text, semicolon + 1
        name = source.fresh()
        text = source.back_to(at) + text
        if self.cxx:
            return f"{{ __cilkcheck_syncs {name}; {text} }}", semicolon + 1
        return f"{{ char {name} __attribute__((cleanup(__cilkcheck_mark_sync_left))); {text} }}", semicolon + 1

    def broken(self, at, context):
        if context.outlined and not context.breaks:
            self.source.refuse(at, f"a break out of {context.outlined}")
        return self.simple(at, context)

    def continued(self, at, context):
        if context.outlined and not context.continues:
            self.source.refuse(at, f"a continue out of {context.outlined}")
        return self.simple(at, context)

    def gone(self, at, context):
        source, label = self.source, self.source.solid(at + 1)
        if context.outlined and (source.kinds[label] != "name" or source.tokens[label] not in context.labels):
            source.refuse(at, f"a goto out of {context.outlined}")
        return self.simple(at, context)

    def spawn(self, at, context):
        return spawns.statement(self, at, at, context)

    def sync(self, at, context):
        source = self.source
        semicolon = source.solid(at + 1)
        if source.tokens[semicolon] != ";":
            source.refuse(at, "cilk_sync stands alone, with a ; behind it")
        return "__cilkcheck_mark_sync()" + source.text(at + 1, semicolon + 1), semicolon + 1

    def loop(self, at, context):
        return loops.statement(self, at)

    def scope(self, at, context):
        return loops.scope(self, at, context)

    def simple(self, at, context):
        """A declaration or an expression, up to its `;`."""
        source, semicolon = self.source, self.source.semicolon(at)
        if not source.has(at, semicolon):
            return source.text(at, semicolon + 1), semicolon + 1
        spawn = self.top_level(at, semicolon, "_Cilk_spawn")
        if spawn is not None:
            return spawns.statement(self, at, spawn, context)
        return self.expression(at, semicolon + 1, context), semicolon + 1

    def top_level(self, begin, end, word):
        """Where the word stands in no bracket, or None."""
        source, at = self.source, begin
        while at < end:
            if source.tokens[at] in OPENINGS and source.kinds[at] == "operator":
                at = source.closing(at)
            elif source.tokens[at] == word and source.kinds[at] == "name":
                return at
            at += 1
        return None

    # ---- expressions ----

    def expression(self, begin, end, context):
        """An expression or a declaration: the bodies of lambdas, local classes and statements in it are rewritten."""
        source, out, at = self.source, [], begin
        if not source.has(begin, end):
            return source.text(begin, end)
        while at < end:
            token, kind = source.tokens[at], source.kinds[at]
            if kind == "name" and token in KEYWORDS:
                keyword = KEYWORDS[token]
                source.refuse(at, f"{keyword.name}{' ' if keyword.refusal.startswith('stands') else ': '}{keyword.refusal}")
            if kind == "operator" and token == "[" and self.begins_lambda(at):
                opening = self.lambda_body(at, end)
                if opening is not None:
                    text = self.expression(at + 1, opening, context)
                    out.append("[" + text + self.body(opening))
                    at = source.closing(opening) + 1
                    continue
            if kind == "operator" and token == "{":
                close = source.closing(at)
                previous = source.before(at)
                if source.has(at, close):
                    if previous >= 0 and source.tokens[previous] == "(":
                        out.append(self.block(at, context)[0])
                        at = close + 1
                        continue
                    if CLASSES & set(source.words(begin, at)):
                        out.append("{" + self.declarations(at + 1, close) + "}")
                        at = close + 1
                        continue
            out.append(token)
            at += 1
        return "".join(out)

    def begins_lambda(self, at):
        source = self.source
        if not self.cxx:
            return False
        previous = source.before(at)
        if previous < 0:
            return True
        if source.kinds[previous] in ("number", "string", "raw", "character"):
            return False
        if source.kinds[previous] == "name":
            return source.tokens[previous] in ("return", "_Cilk_spawn", "co_return", "co_await", "co_yield", "throw", "case", "else", "do")
        return source.tokens[previous] not in (")", "]")

    def lambda_body(self, at, end):
        """The `{` of the lambda's body, or None where it is none."""
        source = self.source
        at = source.solid(source.closing(at) + 1)
        if source.tokens[at] == "<":
            at = self.behind_angles(at - 1, end)
        while at < end:
            token = source.tokens[at]
            if token == "{":
                return at
            if token == "(":
                at = source.closing(at)
            elif token in (";", ",", ")", "]", "}", "="):
                return None
            at = source.solid(at + 1)
        return None


OPENINGS = {"(", "[", "{"}


def rewrite(text, cxx, openmp_on=False):
    """The text with marks for the compiler pass in place of the keywords. Raises Refused. `openmp_on`: the user gave -fopenmp."""
    has_keywords = ANY_KEYWORD.search(text) is not None
    if cxx:
        text = STRINGS.sub(lambda found: "\n" * found.group().count("\n"), text)
    has_views = not cxx and reducers.USE in text
    has_directives = re.search(r"^[ \t]*#[ \t]*pragma[ \t]+(?:omp|cilk)\b", text, re.M) or openmp_on and openmp.ATTRIBUTE.search(text)
    if not has_keywords and not has_views and not has_directives:
        return text
    source = Source(text)
    openmp.check(source, openmp_on)
    if has_views:
        reducers.classify(source)
    if not has_keywords:
        return source.text(0, len(source.tokens))
    main = MAIN.match(text)
    file = main.group(1) if main else "<stdin>"
    prelude = PRELUDE / ("calls.hpp" if cxx else "calls.h")
    begin = f'# 0 "{file}"\n# 1 "{prelude}" 1 3\n{prelude.read_text()}\n# 0 "{file}" 2\n'
    limit = sys.getrecursionlimit()
    sys.setrecursionlimit(max(limit, DEEPEST))
    try:
        return begin + Rewriter(source, cxx).declarations(0, len(source.tokens) - 1)
    except RecursionError:
        raise Refused(file, source.places[source.keywords[0]][1], "statements that are nested too deeply") from None
    finally:
        sys.setrecursionlimit(limit)


DEEPEST = 20000
MAIN = re.compile(r'# [01] "((?:[^"\\]|\\.)*)"\n')
# so that the functions of std::string are compiled with the program, and seen
STRINGS = re.compile(r"^[ \t]*extern[ \t\n]+template[ \t\n]+(?:class[ \t\n]+)?basic_string\b[^;]*;", re.M)
