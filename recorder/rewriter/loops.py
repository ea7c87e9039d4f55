"""cilk_for and cilk_scope: blocks of children of their own."""
from . import spawns

COMPARISONS = {"<", "<=", ">", ">=", "!="}


def statement(rewriter, at):
    """cilk_for: each round is a child, with the loop's variable of its own."""
    source = rewriter.source
    opening = source.solid(at + 1)
    if source.tokens[opening] != "(":
        source.refuse(at, "a cilk_for without its parentheses")
    close = source.closing(opening)
    parts = source.split(opening + 1, close, ";")
    if len(parts) != 3:
        source.refuse(at, "a cilk_for has an initialization, a condition and an increment")
    if source.has(opening, close):
        source.refuse(at, "a keyword of Cilk in the head of a cilk_for")
    variable = initialized(source, at, *parts[0])
    check_condition(source, at, variable, *parts[1])
    check_increment(source, at, variable, *parts[2])
    begin = source.solid(close + 1)
    end = statement_end(rewriter, begin)
    body = spawns.outlined(rewriter, at, begin, end, "a cilk_for", variable)
    head = source.back_to(at) + "for" + " " * (len("cilk_for") - len("for")) + source.text(at + 1, close + 1)
    return block(rewriter, f"{head} {{ {body} }}"), end


def scope(rewriter, at, context):
    source = rewriter.source
    opening = source.solid(at + 1)
    if source.tokens[opening] != "{":
        source.refuse(at, "cilk_scope without a block")
    text, end = rewriter.block(opening, context)
    return block(rewriter, source.text(at + 1, opening) + text, sync_inside=True), end


def block(rewriter, text, sync_inside=False):
    """Left by its end, a jump, a return or an exception, the block syncs."""
    name = rewriter.source.fresh()
    if sync_inside:                                         # before its locals end
        text = text[:text.rindex("}")] + "__cilkcheck_mark_sync(); }"
    if rewriter.cxx:
        return f"{{ __cilkcheck_scope {name}; {text} }}"
    return f"{{ char {name} __attribute__((cleanup(__cilkcheck_mark_scope_left))); __cilkcheck_mark_scope_begin(); {text} }}"


def statement_end(rewriter, begin):
    """Where the statement that begins there ends."""
    source, token = rewriter.source, rewriter.source.tokens[begin]
    if token == "{":
        return source.closing(begin) + 1
    if token in ("for", "while", "if", "switch", "_Cilk_for"):
        opening = source.solid(begin + 1)
        while source.tokens[opening] == "!" or source.kinds[opening] == "name":
            opening = source.solid(opening + 1)
        end = source.closing(opening) + 1 if source.tokens[opening] == "{" else statement_end(rewriter, source.solid(source.closing(opening) + 1))
        if token == "if" and source.tokens[source.solid(end)] == "else":
            return statement_end(rewriter, source.solid(source.solid(end) + 1))
        return end
    if token == "_Cilk_scope":
        return statement_end(rewriter, source.solid(begin + 1))
    if token == "_Cilk_spawn":
        return statement_end(rewriter, source.solid(begin + 1))
    if token == "do":
        return source.semicolon(statement_end(rewriter, source.solid(begin + 1))) + 1
    if token == "try" and rewriter.cxx:
        end = source.closing(source.solid(begin + 1)) + 1
        while source.tokens[source.solid(end)] == "catch":
            end = source.closing(source.solid(source.closing(source.solid(source.solid(end) + 1)) + 1)) + 1
        return end
    colon = source.solid(begin + 1)
    if source.kinds[begin] == "name" and source.tokens[colon] == ":" or token == "case":
        while source.tokens[colon] != ":":
            if source.kinds[colon] == "end":
                source.refuse(begin, "a label without its :")
            colon = source.solid(colon + 1)
        following = source.solid(colon + 1)
        return statement_end(rewriter, following) if source.tokens[following] != "}" else following
    return source.semicolon(begin) + 1


def initialized(source, at, begin, end):
    """The loop's variable."""
    words = spawns.words_outside(source, begin, end)
    if ":" in words or "=" not in words:
        source.refuse(at, "a cilk_for begins with VARIABLE = VALUE, with or without a type")
    if "," in words:
        source.refuse(at, "a cilk_for has one variable")
    variable = words[words.index("=") - 1]
    if not variable.isidentifier() or words[:1] == ["="]:
        source.refuse(at, "a cilk_for begins with VARIABLE = VALUE, with or without a type")
    return variable


def check_condition(source, at, variable, begin, end):
    words = spawns.words_outside(source, begin, end)
    if any(word in ("&&", "||", ",", "?") for word in words):
        source.refuse(at, "the condition of a cilk_for is one comparison of its variable by <, <=, >, >= or !=")
    solids = source.words(begin, end)
    first = len(solids) > 2 and solids[0] == variable and solids[1] in COMPARISONS
    last = len(solids) > 2 and solids[-1] == variable and solids[-2] in COMPARISONS
    if not first and not last:
        source.refuse(at, "the condition of a cilk_for is one comparison of its variable by <, <=, >, >= or !=")


def check_increment(source, at, variable, begin, end):
    words = source.words(begin, end)
    step = len(words) == 2 and variable in words and ("++" in words or "--" in words)
    stride = len(words) > 2 and words[0] == variable and words[1] in ("+=", "-=") and not {",", "="} & set(spawns.words_outside(source, begin, end))
    if not step and not stride:
        source.refuse(at, "the increment of a cilk_for is ++, --, += or -= of its variable")
