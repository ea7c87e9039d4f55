#!/usr/bin/env python3
"""A small strict reader of Graphviz's language: one digraph of node and edge statements, each with attributes, and attributes of its own.

`read(text)` gives the nodes, as a dict from names to attributes, and the edges, as a list of (from, to, attributes). ValueError
tells of anything else: a word that is out of place, a string that does not end, an attribute or a node that is given twice, an
edge to a node that no statement declares. Run as a program it reads standard input and prints how many nodes and edges there are.
"""

import re
import sys

TOKEN = re.compile(r'\s*(?:(->|[{}\[\]=;,])|("(?:[^"\\\n]|\\.)*")|([A-Za-z_][A-Za-z_0-9]*|-?(?:\.[0-9]+|[0-9]+(?:\.[0-9]*)?))|(\S))')
WORDS = {"strict", "graph", "digraph", "node", "edge", "subgraph"}


class Reader:
    def __init__(self, text):
        self.tokens = []
        end = len(text.rstrip())
        place = 0
        while place < end:
            found = TOKEN.match(text, place)
            if found is None or found.group(4) is not None:
                raise ValueError(f"at byte {place}: {text[place:place + 20]!r}")
            mark, string, word, _ = found.groups()
            self.tokens.append(("mark", mark) if mark else ("string", string) if string else ("word", word))
            place = found.end()
        self.place = 0

    def next(self):
        if self.place == len(self.tokens):
            raise ValueError("the text ends too early")
        self.place += 1
        return self.tokens[self.place - 1]

    def is_mark(self, mark):
        return self.place < len(self.tokens) and self.tokens[self.place] == ("mark", mark)

    def mark(self, mark):
        token = self.next()
        if token != ("mark", mark):
            raise ValueError(f"{mark!r} is wanted, and {token[1]!r} is there")

    def name(self):
        sort, token = self.next()
        if sort == "mark" or (sort == "word" and token.lower() in WORDS):
            raise ValueError(f"a name is wanted, and {token!r} is there")
        return re.sub(r'\\"', '"', token[1:-1]) if sort == "string" else token

    def attributes(self):
        told = {}
        if not self.is_mark("["):
            return told
        self.mark("[")
        while not self.is_mark("]"):
            key = self.name()
            self.mark("=")
            if key in told:
                raise ValueError(f"{key} is given twice")
            told[key] = self.name()
            if not self.is_mark("]"):
                self.mark(",")
        self.mark("]")
        return told


def read(text):
    reader = Reader(text)
    if reader.next() != ("word", "digraph"):
        raise ValueError("no digraph")
    reader.name()
    reader.mark("{")
    nodes, edges, own = {}, [], {}
    while not reader.is_mark("}"):
        first = reader.name()
        if reader.is_mark("->"):
            reader.mark("->")
            second = reader.name()
            edges.append((first, second, reader.attributes()))
        elif reader.is_mark("="):
            reader.mark("=")
            if first in own:
                raise ValueError(f"{first} is given twice")
            own[first] = reader.name()
        else:
            if first in nodes:
                raise ValueError(f"node {first} is given twice")
            nodes[first] = reader.attributes()
        reader.mark(";")
    reader.mark("}")
    if reader.place != len(reader.tokens):
        raise ValueError("more stands behind the graph")
    for first, second, _ in edges:
        for end in (first, second):
            if end not in nodes:
                raise ValueError(f"no node {end}")
    return nodes, edges


if __name__ == "__main__":
    try:
        found = read(sys.stdin.read())
    except ValueError as cause:
        sys.exit(f"dot.py: {cause}")
    print(f"{len(found[0])} nodes, {len(found[1])} edges")
