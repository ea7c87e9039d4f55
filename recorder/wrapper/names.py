"""Names of functions and objects, as they are told."""
import re


PIECE = re.compile(
    r"(?<![\w])operator\s*(?:\(\)|\[\]|<=>|<<=|>>=|->\*|<<|>>|&&|\|\||\+\+|--|->|[-+*/%^&|~!=<>]=?|,)"
    r"|->|[<({\[]|[>)}\]]|[^-<>(){}\[\]o]+|.",
    re.S,
)


def outside(text):
    """What stands in no <>, (), {} or []. The brackets of operators count as letters."""
    out, depth = [], 0
    for piece in PIECE.findall(text):
        if piece in "<({[":
            depth += 1
        elif piece in ">)}]":
            depth -= 1
        elif depth == 0:
            out.append(piece)
    return "".join(out)


def short(plain):
    """Without parameters, template arguments and return type: `std::vector<int>::at(unsigned)` is `std::vector::at`."""
    plain = re.sub(r" \[clone [^]]*\]|\(anonymous namespace\)::|\.(?:constprop|isra|part|cold)\.?\d*", "", plain)
    lambda_at = re.search(r"::\{lambda\(|::'lambda|::\$_\d", plain)
    if lambda_at:
        plain = plain[:lambda_at.start()]
    kept = outside(plain)
    kept = re.sub(r"\s*\b(const|volatile)\s*&*$", "", kept).strip()
    return last_word(kept) or plain


def last_word(kept):
    """Behind the return type; a conversion keeps its type."""
    operator = re.search(r"(?<!\w)(?:[\w~]+::)*operator\b.*$", kept)
    return operator.group() if operator else kept.split(" ")[-1].lstrip("*&")
