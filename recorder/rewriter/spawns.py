"""cilk_spawn. The user's own statement stays, between a mark and its end:

    C:    { __cilkcheck_mark_spawn(1, "f", 0); y = f(x); __cilkcheck_mark_spawned(1); }
    C++:  { __cilkcheck_spawn s("f", 0); y = f(x); }

The compiler pass (pass/spawns.cpp) finds the spawned call between the two, and begins the child directly before it. So the spawner reads the callee
and makes the arguments. The call and what the statement does behind it are the child's: the conversion of the result, an assignment or
initialization, the destructors of temporaries. So is the read of `y` in `y += cilk_spawn f(x)`, which clang makes behind the call.

The compiler computes the place of `p[i] = f(x)` behind the call as well, and in Cilk it is the spawner's to compute. It gets a name before the call:
`auto &&place = (p[i]); place = f(x);`. What ends in members keeps them, since the last may be a bit-field, which nothing refers to.

A spawn of what is no call, `cilk_spawn a[0] = g(1);`, is a spawned block, as in OpenCilk.
"""
import re
from dataclasses import dataclass

ASSIGNMENTS = {"=", "+=", "-=", "*=", "/=", "%=", "&=", "|=", "^=", "<<=", ">>="}
SPAWNABLE = {"if", "while", "for", "switch", "do", "try", "_Cilk_for", "_Cilk_scope"}
# What a declaration may begin with, beside the name of a type.
SPECIFIERS = {"auto", "const", "volatile", "static", "register", "extern", "thread_local", "_Thread_local", "__thread", "constexpr", "constinit", "inline",
              "struct", "union", "enum", "class", "typename", "decltype", "typeof", "typeof_unqual", "__typeof__", "__typeof", "__auto_type", "_Atomic",
              "void", "bool", "_Bool", "char", "short", "int", "long", "float", "double", "signed", "unsigned", "_Complex", "__complex__", "__int128",
              "_BitInt", "_Float16", "__float128", "wchar_t", "char8_t", "char16_t", "char32_t", "__signed__", "__const", "__volatile__"}
ATTRIBUTES = {"__attribute__", "__attribute", "alignas", "_Alignas", "__extension__"}
NO_CALL = SPECIFIERS | {"static_cast", "const_cast", "reinterpret_cast", "dynamic_cast", "sizeof", "alignof", "_Alignof", "__alignof__", "noexcept", "typeid"}
UNARY = {"__real__", "__real", "__imag__", "__imag", "__extension__"}
# What the pass is told of the statement: what may be called behind the spawned call, beside destructors.
NOTHING, ASSIGNED, BOUND, UNCLEAR = 0, 1, 2, 3
ASSIGNS_INSIDE = 8                                          # with one of these: the call's own text assigns to variables
NAMELESS = "operator()"                                     # the call of an object, or through a pointer


@dataclass
class Call:
    """`name`: the base name of what is called, or NAMELESS; `end`: the token behind its `)`."""
    name: str
    end: int


def statement(rewriter, begin, keyword, context):
    """The statement that begins at `begin`, with its cilk_spawn at `keyword`: its text, and where the next begins."""
    source = rewriter.source
    first = source.solid(keyword + 1)
    if source.tokens[first] == "{":
        if begin != keyword:
            source.refuse(keyword, "a spawned block has no value")
        end = source.closing(first) + 1
        return outlined(rewriter, keyword, first, end, "a spawned block", None), end
    if begin == keyword and source.kinds[first] == "name" and source.tokens[first] in SPAWNABLE:
        from .loops import statement_end
        end = statement_end(rewriter, first)
        return outlined(rewriter, keyword, first, end, "a spawned statement", None), end
    semicolon = source.semicolon(first)
    if rewriter.top_level(first, semicolon, "_Cilk_spawn") is not None:
        source.refuse(keyword, "a cilk_spawn in a cilk_spawn")
    call = read_call(rewriter, first, semicolon)
    if begin == keyword and (call is None or call.end != semicolon):
        equals = next((at for at in outside_brackets(source, first, semicolon) if source.tokens[at] == "="), None)
        if equals is not None and declarator(rewriter, first, equals):
            source.refuse(keyword, "a cilk_spawn before a declaration: write it behind the =, T x = cilk_spawn f(..)")
        return outlined(rewriter, keyword, first, semicolon + 1, "a spawned statement", None), semicolon + 1
    declares = NOTHING if begin == keyword else check_left(rewriter, begin, keyword)
    if call and declares and source.tokens[call.end] == ",":
        source.refuse(keyword, "a declarator behind that of a cilk_spawn: declare it in a statement of its own")
    if call is None or call.end != semicolon:
        source.refuse(keyword, "cilk_spawn of what is no call")
    form = NOTHING if begin == keyword else declares or ASSIGNED
    if declares and rewriter.cxx and source.tokens[source.before(source.before(keyword))] == "]" and "auto" in source.words(begin, keyword):
        form = BOUND
        if call.name == "get":
            source.refuse(keyword, "a cilk_spawn of a get whose result is taken apart: declare auto x = cilk_spawn .. first")
    inside = ASSIGNS_INSIDE if assigns(source, first, semicolon) else 0
    before, place, left = "", "", source.back_to(begin)
    if declares:
        left += rewriter.expression(begin, keyword, context)
    elif form:
        equals = source.before(keyword)
        before, place, left = target(rewriter, begin, equals, context)
        left += source.back_to(equals) + source.text(equals, keyword)
    statement = left + " " * len("cilk_spawn") + rewriter.expression(keyword + 1, semicolon + 1, context)
    return before + marked(rewriter, keyword, call.name, form | inside, statement, place, declares) + ("}" if before else ""), semicolon + 1


def assigns(source, begin, end):
    """Whether an assignment stands in the call. Those in braces are a lambda's or a statement expression's, whose variables begin there."""
    while begin < end:
        if source.kinds[begin] == "operator" and source.tokens[begin] in ("{", "["):
            begin = source.closing(begin)
        elif source.tokens[begin] in ASSIGNMENTS:
            return True
        begin += 1
    return False


def marked(rewriter, keyword, name, form, statement, place="", declares=False):
    """The statement between the mark of a spawn, which is at the keyword's place, and its end. A declaration gets no block. `place`: what is assigned
    to; so the pass knows a variable from a temporary."""
    source = rewriter.source
    mark = source.back_to(keyword)
    if rewriter.cxx:
        made = source.fresh()
        place = f", {place}" if place else ""
        begin, end = f'{mark}__cilkcheck_spawn {made}("{name}", {form}{place});', f"{made}.left();" if declares else ""
    else:
        rewriter.spawns += 1
        begin = f'{mark}__cilkcheck_mark_spawn({rewriter.spawns}, "{name}", {form}, {place or 0});'
        end = f"__cilkcheck_mark_spawned({rewriter.spawns});"
    return f"{begin} {statement} {end}" if declares else f"{{{begin} {statement} {end}}}"


# ---- what stands before the keyword ----

def check_left(rewriter, begin, keyword):
    """Whether `T x =` stands before the keyword, as `declarator` says. Refused is what is neither that nor `x =`."""
    source, equals = rewriter.source, rewriter.source.before(keyword)
    if source.tokens[equals] not in ASSIGNMENTS or equals <= begin:
        source.refuse(keyword, "cilk_spawn stands where it may not: it begins a statement, or stands behind the = of one")
    outside = words_outside(source, begin, equals)
    declares = declarator(rewriter, begin, equals) if source.tokens[equals] == "=" else NOTHING
    if declares:
        if {"static", "thread_local", "_Thread_local", "__thread"} & set(outside):
            source.refuse(keyword, "a cilk_spawn for a variable that is initialized once: assign to it")
        return declares
    if "," in outside:
        source.refuse(keyword, "a cilk_spawn behind a comma")
    if any(word in ASSIGNMENTS for word in outside):
        source.refuse(keyword, "a cilk_spawn behind a second =")
    if {"?", "&&", "||"} & set(outside):
        source.refuse(keyword, "a cilk_spawn that ?:, && or || decide on: write an if")
    return NOTHING


def outside_brackets(source, begin, end):
    """The tokens that stand in no bracket; < and > are brackets where a > follows."""
    out, at, angles = [], begin, 0
    closed = any(token in (">", ">>") for token in source.tokens[begin:end])
    while at < end:
        token = source.tokens[at]
        if source.kinds[at] == "operator" and token in ("(", "[", "{"):
            at = source.closing(at)
        elif token in ("<", ">", ">>") and closed:
            angles += {"<": 1, ">": -1, ">>": -2}[token]
        elif source.kinds[at] not in ("space", "directive") and angles <= 0:
            out.append(at)
        at += 1
    return out


def words_outside(source, begin, end):
    return [source.tokens[at] for at in outside_brackets(source, begin, end)]


def declarator(rewriter, begin, equals):
    """Whether a declarator stands before the =: ASSIGNED or NOTHING. `T (*x)` could be a call as well, which is UNCLEAR: it gets no block, and no place
    before the call."""
    source, at = rewriter.source, begin
    while source.tokens[at] in ATTRIBUTES or begins_attribute(source, at):
        opening = at if source.tokens[at] == "[" else source.solid(at + 1)
        at = source.solid(source.closing(opening) + 1) if source.tokens[opening] in ("(", "[") else opening
    if source.kinds[at] == "name" and source.tokens[at] in SPECIFIERS:
        return ASSIGNED
    _, at = qualified(rewriter, at, equals)
    if at is None or at >= equals:
        return NOTHING
    if source.kinds[at] == "name" or source.tokens[at] in ("*", "&", "&&"):
        return ASSIGNED
    return UNCLEAR if source.tokens[at] == "(" and source.tokens[source.solid(at + 1)] in ("*", "&", "&&") else NOTHING


def begins_attribute(source, at):
    return source.tokens[at] == "[" and source.tokens[source.solid(at + 1)] == "["


def target(rewriter, begin, equals, context):
    """What is assigned to, as (text before, place, text): `{ auto &&place = (p[i]);`, `place`, `place`. A variable and its members need no text before."""
    source = rewriter.source
    first, last = begin, source.before(equals)
    while source.tokens[first] == "(" and source.pairs.get(first) == last:
        first, last = source.solid(first + 1), source.before(last)
    solids = source.solids(first, last + 1)
    members = len(solids)                                   # .a.b or ->a.b at the end
    while is_postfix(source, first) and members >= 3 and source.kinds[solids[members - 1]] == "name" and source.tokens[solids[members - 2]] in (".", "->"):
        members -= 2
        if source.tokens[solids[members]] == "->":
            break
    end = solids[members] if members < len(solids) else last + 1
    through = members < len(solids) and source.tokens[end] == "->"
    words = source.words(first, end)
    if words == ["this"]:
        return "", "", source.back_to(begin) + source.text(begin, equals)
    variable = "".join(words)
    if not through and re.fullmatch(r"(?:::)?[^\W\d][\w$]*(?:::[^\W\d][\w$]*)*", variable) and len(words) == 1 + 2 * words[1:].count("::") + (words[0] == "::"):
        return "", variable if rewriter.cxx else f"&{variable}", source.back_to(begin) + source.text(begin, equals)
    place = source.fresh()
    object_ = source.back_to(first) + rewriter.expression(first, end, context)
    rest = source.back_to(end) + source.text(end, last + 1) if members < len(solids) else ""
    if rewriter.cxx:
        if through:
            rest = source.back_to(end) + ". " + source.text(end + 1, last + 1)
        return f"{{auto &&{place} = {'*' if through else ''}({object_}); ", f"{place}, __cilkcheck_temporary<__decltype({place})>::bytes", f"{place}{rest}"
    if through:
        return f"{{__auto_type {place} = ({object_}); ", place, f"{place}{rest}"
    return f"{{__auto_type {place} = &({object_}); ", place, f"(*{place}){rest}"


def is_postfix(source, at):
    """Whether no unary operator and no cast stands before the rest: the members of `*p.q` are not those of *p."""
    if source.tokens[at] == "(":
        return source.tokens[source.solid(source.closing(at) + 1)] in (".", "->", "[", "(")
    return source.tokens[at] == "::" or source.kinds[at] == "name" and source.tokens[at] not in UNARY


# ---- the call ----

def qualified(rewriter, at, end):
    """A name with its qualification and template arguments: the base name's token, and the token behind it; (None, None) where none begins."""
    source, base = rewriter.source, None
    if source.tokens[at] == "::":
        at = source.solid(at + 1)
    while at < end and source.kinds[at] == "name":
        if source.tokens[at] in ("typename", "template"):
            at = source.solid(at + 1)
            continue
        base, at = at, source.solid(at + 1)
        if source.tokens[at] == "<" and rewriter.cxx:
            behind = behind_arguments(source, at, end)
            if behind is None:
                return base, at
            at = behind
        if source.tokens[at] != "::":
            return base, at
        at = source.solid(at + 1)
        if source.tokens[at] == "*":                        # T::*member
            return base, at
    return None, None


def behind_arguments(source, at, end):
    """The token behind template arguments, or None where the < is an operator."""
    depth = 0
    while at < end:
        token = source.tokens[at]
        if source.kinds[at] == "operator" and token in ("(", "[", "{"):
            at = source.closing(at)
        elif token in ("&&", "||") and depth == 1 and source.tokens[source.solid(at + 1)] not in (">", ",", "..."):
            return None
        else:
            depth += {"<": 1, ">": -1, ">>": -2}.get(token, 0)
        at = source.solid(at + 1)
        if depth <= 0:
            return at
    return None


def read_call(rewriter, at, end):
    """The call that begins there, as far as it is a postfix expression, or None."""
    source, name, call = rewriter.source, NAMELESS, None
    token, kind = source.tokens[at], source.kinds[at]
    if kind == "name" and token == "operator":
        name, at = operator_name(source, at, end)
    elif kind == "name" and token not in ("this", "sizeof", "new", "delete", "throw", "co_await", "co_yield") or token == "::":
        base, at = qualified(rewriter, at, end)
        name = source.tokens[base] if base is not None else NAMELESS
    elif token == "this":
        at = source.solid(at + 1)
    elif token == "(":
        inner = source.solids(at + 1, source.closing(at))
        if len(inner) == 1 and source.kinds[inner[0]] == "name":
            name = source.tokens[inner[0]]
        at = source.solid(source.closing(at) + 1)
    elif token == "[" and rewriter.cxx:
        opening = rewriter.lambda_body(at, end)
        at = source.solid(source.closing(opening) + 1) if opening is not None else None
    else:
        return None
    while at is not None and at < end:
        token = source.tokens[at]
        if token == "(":
            at = source.solid(source.closing(at) + 1)
            call, name = None if name in NO_CALL else Call(name, at), NAMELESS
        elif token == "[" or token == "{" and rewriter.cxx:
            at, call, name = source.solid(source.closing(at) + 1), None, NAMELESS
        elif token in (".", "->"):
            name, at = member_name(rewriter, source.solid(at + 1), end)
            call = None
        else:
            break
    return call


def member_name(rewriter, at, end):
    source = rewriter.source
    if source.tokens[at] == "template":
        at = source.solid(at + 1)
    if source.tokens[at] == "operator":
        return operator_name(source, at, end)
    if source.tokens[at] == "~":
        base, behind = qualified(rewriter, source.solid(at + 1), end)
        return "~" + source.tokens[base] if base is not None else NAMELESS, behind
    base, behind = qualified(rewriter, at, end)
    return source.tokens[base] if base is not None else NAMELESS, behind


def operator_name(source, at, end):
    """`operator+`, as a demangler writes it, and the token behind it. A conversion is none: its type would have to be read."""
    first = at = source.solid(at + 1)
    if source.kinds[at] != "operator":
        return NAMELESS, None
    if source.tokens[at] in ("(", "["):
        at = source.solid(source.closing(at) + 1)
    else:
        while at < end and source.kinds[at] == "operator" and source.tokens[at] != "(":
            at = source.solid(at + 1)
    return "operator" + "".join(source.words(first, at)), at


# ---- blocks ----

def outlined(rewriter, keyword, begin, end, what, variable):
    """The statement as a child: in C an OpenMP task, in C++ the call of a lambda. `variable` is the loop's: each round has its own. The spawn's place is
    the keyword's."""
    from .rewrite import Context
    source = rewriter.source
    labels = frozenset(source.tokens[at] for at in range(begin, end) if source.kinds[at] == "name" and source.tokens[source.solid(at + 1)] == ":")
    context = Context(syncs=False, outlined=what, breaks=False, continues=variable is not None, labels=labels)
    body, _ = rewriter.statement(begin, context)
    body = source.back_to(begin) + body
    if source.contains(begin, end, "_Cilk_spawn"):          # its implied sync, before its locals end
        last = source.before(end)
        body = "{" + body + source.back_to(last) + "__cilkcheck_mark_sync(); }" if source.tokens[begin] != "{" else \
            body[:body.rindex("}")] + "__cilkcheck_mark_sync(); }"
    if source.contains(begin, end, "continue"):
        once = source.fresh()
        body = f"for (int {once} = 1; {once}; {once} = 0) {body}"
    if rewriter.cxx:
        captured = f"&, {variable}" if variable else "&"
        return marked(rewriter, keyword, NAMELESS, NOTHING, f"[{captured}]() mutable -> void {{ {body} }}();")
    clauses = f" firstprivate({variable})" if variable else ""
    return (f"{{{source.back_to(keyword)}__cilkcheck_mark_outlined();{source.line_mark(keyword)}"
            f"#pragma omp task default(shared){clauses}{source.line_mark(begin)}{body}{source.line_mark(source.before(end))}}}")
