"""Pictures at the limits of drawings, with notes, whole and byte by byte: the most characters and lines that are shown, the most strands
that are drawn, and one more of each. `cases` gives their traces, with the exit status and the picture, or none where it is refused.
"""

# Each fills its line: `0 in` and the function, and `f.c:1 read` and the name of `x`, have 64 characters, and the first line of the title
# has 120. `f.c:10 read` and the name have one too many, and the second line of the title has.
FUNCTION = "abcdefghij" * 5 + "abcdefghi"
NAME = "0123456789" * 4 + "012345678"
RUN = "0123456789" * 12
NOTES = f"cilk 1\nmem x\n#at 1 f.c:1, {FUNCTION}\n#at 2 f.c:10, g\n#of x {NAME}&end\n#run {RUN}\n#run {RUN}!\n"
# the title has 100 lines that are shown, and one more
HEAD = NOTES + "#run more\n" * 99
WHOLE, CUT = f"{NAME}&amp;end", f"{NAME}&amp;.."
STYLE = """<style>
svg { background: white }
text { font: 13px monospace; white-space: pre }
rect { fill: white; stroke: black }
line { stroke: black; marker-end: url(#arrow) }
.join { stroke-dasharray: 6 3 }
.race path { fill: none; stroke: red }
.race text { fill: red; text-anchor: middle }
</style>
<marker id="arrow" markerWidth="8" markerHeight="8" refX="8" refY="4" orient="auto"><path d="M 0 0 L 8 4 L 0 8 z"/></marker>
"""
# the tops of the levels of the chain: those of the first boxes, and the height of a level
FIRST_TOP, LEVEL = 1696, 304
LEFT, MIDDLE, RIGHT = 280, 560, 840


def line(x, text):
    return f'<tspan x="{x}" dy="16">{text}</tspan>'


def head(width, height):
    shown = [RUN, f"{RUN[:118]}.."] + ["more"] * 98
    title = "".join(line(16, text) for text in shown)
    size = f'width="{width}" height="{height}" viewBox="0 0 {width} {height}"'
    return f'<svg xmlns="http://www.w3.org/2000/svg" {size}>\n{STYLE}<text id="title" y="8">{title}</text>\n'


def box(strand, middle, top, height, lines):
    rect = f'<rect x="{middle - 264}" y="{top}" width="528" height="{height}"/>'
    text = "".join(line(middle - 256, it) for it in lines)
    return f'<g id="strand-{strand}">\n{rect}\n<text y="{top}">{text}</text>\n</g>\n'


def reads(has_more):
    """The lines of the first strand: twelve of its reads are told, of which seven are where the first note says."""
    told = [f"0 in {FUNCTION}"] + [f"f.c:1 read {WHOLE}"] * 7 + [f"f.c:10 read {CUT}"] * 5
    return told + ["and 1 more"] * has_more


def one_strand(has_more):
    """A strand whose box has 13 lines, or the 14 that there is room for where it has more reads than are told."""
    more = 16 * has_more
    trace = HEAD + "read 0 x @1\n" * 7 + "read 0 x @2\n" * (5 + has_more)
    return trace, 0, head(992, 1984 + more) + box(0, LEFT, FIRST_TOP, 216 + more, reads(has_more)) + "</svg>\n"


def chain(end):
    """A trace that begins strands 0 to 3, then 4 and 5, which race, and behind 5 a chain of spawners. Number 6 is a join's that waits."""
    first = "spawn 0\nreturn 1\nsync 2\nspawn 3\nwrite 4 x 1 @1\nwrite 5 x 1 @1\nspawn 5\n"
    return HEAD + "read 0 x @1\n" * 7 + "read 0 x @2\n" * 6 + first + "".join(f"spawn {2 * half}\n" for half in range(4, end))


def edge(kind, one, other, x1, level, x2):
    ends = f'x1="{x1}" y1="{FIRST_TOP + LEVEL * level}" x2="{x2}" y2="{FIRST_TOP + LEVEL * (level + 1)}"'
    return f'<line class="{kind}" data-from="{one}" data-to="{other}" {ends}/>\n'


def most_strands():
    """The picture of the chain that begins as many strands as are drawn, on 5,001 levels: each spawner stands on the right of its level."""
    edges = [edge("child", 0, 1, MIDDLE, 0, LEFT), edge("next", 0, 2, MIDDLE, 0, RIGHT)]
    edges += [edge("join", 1, 3, LEFT, 1, MIDDLE), edge("join", 2, 3, RIGHT, 1, MIDDLE)]
    edges += [edge("child", 3, 4, MIDDLE, 2, LEFT), edge("next", 3, 5, MIDDLE, 2, RIGHT)]
    edges += [edge("child", 5, 7, RIGHT, 3, LEFT), edge("next", 5, 8, RIGHT, 3, RIGHT)]
    writer = lambda strand, middle: box(strand, middle, 2608, 40, [f"{strand} in {FUNCTION}", f"f.c:1 write {CUT}"])
    boxes = [box(0, MIDDLE, FIRST_TOP, 232, reads(True)), box(1, LEFT, 2000, 24, [1]), box(2, RIGHT, 2000, 24, [2]), box(3, MIDDLE, 2304, 24, [3])]
    boxes += [writer(4, LEFT), writer(5, RIGHT), box(7, LEFT, 2912, 24, [7]), box(8, RIGHT, 2912, 24, [8])]
    for half in range(4, 5_000):
        child, rest, top = 2 * half + 1, 2 * half + 2, FIRST_TOP + LEVEL * (half + 1)
        edges += [edge("child", child - 1, child, RIGHT, half, LEFT), edge("next", child - 1, rest, RIGHT, half, RIGHT)]
        boxes += [box(child, LEFT, top, 24, [child]), box(rest, RIGHT, top, 24, [rest])]
    arc = f'<path d="M 280 2608 C 280 2584 840 2584 840 2608"/>\n<text x="560" y="2584">write-write on {WHOLE}</text>'
    return head(1136, 1_522_000) + "".join(edges + boxes) + f'<g class="race" data-from="4" data-to="5">\n{arc}\n</g>\n</svg>\n'


def cases():
    return [one_strand(False), one_strand(True), (chain(5_000), 1, most_strands()), (chain(5_001), 4, None)]
