"""Uses of a reducer's view in C. REDUCER_VIEW(r) alone does not say whether it reads, sets or updates: its surroundings do.

A view that is only read is a `get`, one that is assigned by = a `put`, all else an `update`. So is a view that one statement reads and
assigns: `REDUCER_VIEW(r) = REDUCER_VIEW(r) * 2;`, `if (REDUCER_VIEW(r) < x) REDUCER_VIEW(r) = x;`.
"""
USE = "__cilkcheck_use"                                     # in cilk/reducer.h: the operation, of a view that is used
UPDATE, PUT, GET = "1", "2", "3"
UPDATING = {"+=", "-=", "*=", "/=", "%=", "&=", "|=", "^=", "<<=", ">>=", "++", "--", "("}


def classify(source):
    """Puts the operation in the place of each USE."""
    uses = []
    for at, token in enumerate(source.tokens):
        if token != USE or source.kinds[at] != "name":
            continue
        outer = outer_bracket(source, at)
        if outer is None:                                   # where the header itself names it
            continue
        begin, end = statement(source, outer)
        uses.append((at, " ".join(source.words(outer, at)), operation(source, outer), begin, end))
    for at, key, done, begin, end in uses:
        same = {other for where, name, other, first, last in uses if name == key and (begin <= where < end or first <= at < last)}
        source.tokens[at] = UPDATE if {PUT, GET} <= same or UPDATE in same and done == GET else done


def outer_bracket(source, at):
    """The first ( of `(*(__cilkcheck_mark_reducer((void *)&(r), USE, ..`, or None."""
    opening = next((k for k in range(at, max(at - 4000, 0), -1) if source.tokens[k] == "__cilkcheck_mark_reducer"), None)
    if opening is None:
        return None
    inner = source.before(opening)
    star = source.before(inner)
    outer = source.before(star)
    return outer if [source.tokens[k] for k in (inner, star, outer)] == ["(", "*", "("] and outer in source.pairs else None


def operation(source, outer):
    before, at = source.tokens[source.before(outer)], source.solid(source.closing(outer) + 1)
    part = False                                            # a member or an element of the view
    while source.tokens[at] in (".", "->", "["):
        part, at = True, source.solid((source.closing(at) if source.tokens[at] == "[" else source.solid(at + 1)) + 1)
    behind = source.tokens[at]
    if behind in UPDATING or before in ("&", "++", "--") or part and behind == "=":
        return UPDATE
    return PUT if behind == "=" else GET


def statement(source, at):
    """The statement that holds the token; an if or a while with what it controls, where that is one statement."""
    begin = at
    while begin > 0 and source.tokens[source.before(begin)] not in (";", "{", "}"):
        begin = source.before(begin)
    end = begin
    if source.tokens[begin] in ("if", "while"):
        close = source.closing(source.solid(begin + 1))
        end = source.solid(close + 1)
        if source.tokens[end] == "{":
            return begin, source.closing(end) if source.words(end, source.closing(end)).count(";") == 1 else close
    while source.tokens[end] not in (";", "{", "}", ""):
        end = source.closing(end) + 1 if source.tokens[end] in ("(", "[") and end in source.pairs else end + 1
    return begin, end
