Traces and their drawings in Graphviz's language, or as SVG, or why there is none. The first strand alone.

  $ cat > p.trace <<'END'
  > cilk 1
  > END
  $ cilkcheck draw p.trace
  digraph trace {
    0 [label="0\l"];
  }

A race on a cell of an array, and accesses that do not race.

  $ cat > p.trace <<'END'
  > cilk 1
  > mem x
  > mem a 2
  > write 0 x 1
  > spawn 0
  > write 1 a[1] 5
  > read 2 a[1]
  > read 2 a[0]
  > sync 2
  > return 1
  > read 3 x
  > END
  $ cilkcheck draw p.trace
  digraph trace {
    0 [label="0\l1 write x\l"];
    1 [label="1\l3 write a[1]\l"];
    2 [label="2\l4 read a[1] refused\l5 read a[0]\l"];
    3 [label="3\l8 read x\l"];
    0 -> 1 [label="child"];
    0 -> 2 [label="next"];
    2 -> 3 [label="join"];
    1 -> 3 [label="join"];
    1 -> 2 [label="write-read on a[1]", color=red, fontcolor=red, constraint=false];
  }
  [1]

A child's write races with a bump before it: the edge leads to the child.

  $ cat > p.trace <<'END'
  > cilk 2
  > mem x
  > spawn 0
  > bump 2 x 2
  > write 1 x 9
  > END
  $ cilkcheck draw p.trace
  digraph trace {
    0 [label="0\l"];
    1 [label="1\l3 write x refused\l"];
    2 [label="2\l2 bump x\l"];
    0 -> 1 [label="child"];
    0 -> 2 [label="next"];
    2 -> 1 [label="bump-write on x", color=red, fontcolor=red, constraint=false];
  }
  [1]

Reducers: a get that finds nothing, and one with other peers.

  $ cat > p.trace <<'END'
  > cilk 2
  > reducer h_1 sum
  > reducer g digits
  > get 0 g
  > put 0 h_1 0
  > spawn 0
  > update 1 h_1 5
  > get 2 h_1
  > return 1
  > sync 2
  > get 3 h_1
  > END
  $ cilkcheck draw p.trace
  digraph trace {
    0 [label="0\l1 get g unset\l2 put h_1\l"];
    1 [label="1\l4 update h_1\l"];
    2 [label="2\l5 get h_1 refused\l"];
    3 [label="3\l8 get h_1\l"];
    0 -> 1 [label="child"];
    0 -> 2 [label="next"];
    1 -> 3 [label="join"];
    2 -> 3 [label="join"];
    0 -> 2 [label="view-read on h_1", color=red, fontcolor=red, constraint=false];
  }
  [1]

A join that has not begun is no node.

  $ cat > p.trace <<'END'
  > cilk 1
  > mem x
  > spawn 0
  > read 1 x
  > sync 2
  > END
  $ cilkcheck draw p.trace
  digraph trace {
    0 [label="0\l"];
    1 [label="1\l2 read x\l"];
    2 [label="2\l"];
    0 -> 1 [label="child"];
    0 -> 2 [label="next"];
  }

Calls, and blocks in blocks.

  $ cat > p.trace <<'END'
  > cilk 1
  > spawn 0
  > call 2
  > spawn 2
  > return 4
  > sync 5
  > return 6
  > sync 6
  > return 1
  > END
  $ cilkcheck draw p.trace
  digraph trace {
    0 [label="0\l"];
    1 [label="1\l"];
    2 [label="2\l"];
    3 [label="3\l"];
    4 [label="4\l"];
    5 [label="5\l"];
    6 [label="6\l"];
    0 -> 1 [label="child"];
    0 -> 2 [label="next"];
    2 -> 4 [label="child"];
    2 -> 5 [label="next"];
    4 -> 6 [label="join"];
    5 -> 6 [label="join"];
    6 -> 3 [label="join"];
    1 -> 3 [label="join"];
  }

What notes say is told in place of numbers and names.

  $ cat > p.trace <<'END'
  > cilk 1
  > mem x
  > #at 5 pair.c:5, main | cilk_spawn f(&x, 7);
  > #at 6 pair.c:6, main | printf(x);
  > #at 9 pair.c:9, f | *p = v;
  > #of x x, a local of main, pair.c:3
  > #run ./pair: 2 accesses, 7 requests
  > spawn 0 @5
  > write 1 x 7 @9
  > read 2 x @6
  > sync 1 @10
  > return 1 @10
  > sync 2 @7
  > return 3 @7
  > END
  $ cilkcheck draw p.trace
  digraph trace {
    labelloc=t;
    label="./pair: 2 accesses, 7 requests\l";
    0 [label="0\l"];
    1 [label="1 in f\lpair.c:9 write x, a local of main, pair.c:3\l"];
    2 [label="2 in main\lpair.c:6 read x, a local of main, pair.c:3 refused\l"];
    3 [label="3\l"];
    0 -> 1 [label="child"];
    0 -> 2 [label="next"];
    1 -> 3 [label="join"];
    2 -> 3 [label="join"];
    1 -> 2 [label="write-read on x, a local of main, pair.c:3", color=red, fontcolor=red, constraint=false];
  }
  [1]
  $ cilkcheck draw p.trace --svg
  <svg xmlns="http://www.w3.org/2000/svg" width="912" height="448" viewBox="0 0 912 448">
  <style>
  svg { background: white }
  text { font: 13px monospace; white-space: pre }
  rect { fill: white; stroke: black }
  line { stroke: black; marker-end: url(#arrow) }
  .join { stroke-dasharray: 6 3 }
  .race path { fill: none; stroke: red }
  .race text { fill: red; text-anchor: middle }
  </style>
  <marker id="arrow" markerWidth="8" markerHeight="8" refX="8" refY="4" orient="auto"><path d="M 0 0 L 8 4 L 0 8 z"/></marker>
  <text id="title" y="8"><tspan x="16" dy="16">./pair: 2 accesses, 7 requests</tspan></text>
  <line class="child" data-from="0" data-to="1" x1="448" y1="112" x2="224" y2="224"/>
  <line class="next" data-from="0" data-to="2" x1="448" y1="112" x2="672" y2="224"/>
  <line class="join" data-from="1" data-to="3" x1="224" y1="224" x2="448" y2="336"/>
  <line class="join" data-from="2" data-to="3" x1="672" y1="224" x2="448" y2="336"/>
  <g id="strand-0">
  <rect x="240" y="112" width="416" height="24"/>
  <text y="112"><tspan x="248" dy="16">0</tspan></text>
  </g>
  <g id="strand-1">
  <rect x="16" y="224" width="416" height="40"/>
  <text y="224"><tspan x="24" dy="16">1 in f</tspan><tspan x="24" dy="16">pair.c:9 write x, a local of main, pair.c:3</tspan></text>
  </g>
  <g id="strand-2">
  <rect x="464" y="224" width="416" height="40"/>
  <text y="224"><tspan x="472" dy="16">2 in main</tspan><tspan x="472" dy="16">pair.c:6 read x, a local of main, pair.c:3 refused</tspan></text>
  </g>
  <g id="strand-3">
  <rect x="240" y="336" width="416" height="24"/>
  <text y="336"><tspan x="248" dy="16">3</tspan></text>
  </g>
  <g class="race" data-from="1" data-to="2">
  <path d="M 224 224 C 224 200 672 200 672 224"/>
  <text x="448" y="200">write-read on x, a local of main, pair.c:3</text>
  </g>
  </svg>
  [1]

Bytes of the two grammars stand in notes.

  $ cat > p.trace <<'END'
  > cilk 1
  > mem x
  > #at 5 a.c:5, operator<(T &, "q")
  > #of x <a & "b">'\c'
  > write 0 x 1 @5
  > END
  $ cilkcheck draw p.trace
  digraph trace {
    0 [label="0 in operator<(T &, \"q\")\la.c:5 write <a & \"b\">'\\c'\l"];
  }
  $ cilkcheck draw p.trace --svg
  <svg xmlns="http://www.w3.org/2000/svg" width="264" height="208" viewBox="0 0 264 208">
  <style>
  svg { background: white }
  text { font: 13px monospace; white-space: pre }
  rect { fill: white; stroke: black }
  line { stroke: black; marker-end: url(#arrow) }
  .join { stroke-dasharray: 6 3 }
  .race path { fill: none; stroke: red }
  .race text { fill: red; text-anchor: middle }
  </style>
  <marker id="arrow" markerWidth="8" markerHeight="8" refX="8" refY="4" orient="auto"><path d="M 0 0 L 8 4 L 0 8 z"/></marker>
  <g id="strand-0">
  <rect x="16" y="96" width="216" height="40"/>
  <text y="96"><tspan x="24" dy="16">0 in operator&lt;(T &amp;, &quot;q&quot;)</tspan><tspan x="24" dy="16">a.c:5 write &lt;a &amp; &quot;b&quot;&gt;&apos;\c&apos;</tspan></text>
  </g>
  </svg>

The first twelve accesses of a strand are told.

  $ cat > p.trace <<'END'
  > cilk 1
  > mem x
  > read 0 x
  > read 0 x
  > read 0 x
  > read 0 x
  > read 0 x
  > read 0 x
  > read 0 x
  > read 0 x
  > read 0 x
  > read 0 x
  > read 0 x
  > read 0 x
  > read 0 x
  > read 0 x
  > END
  $ cilkcheck draw p.trace
  digraph trace {
    0 [label="0\l1 read x\l2 read x\l3 read x\l4 read x\l5 read x\l6 read x\l7 read x\l8 read x\l9 read x\l10 read x\l11 read x\l12 read x\land 2 more\l"];
  }

Traces that are not drawn: with a line that is no request, a name that nobody declares, a request of a strand that has not begun, and
a return from a function with an open block.

  $ cat > p.trace <<'END'
  > cilk 1
  > foo
  > END
  $ cilkcheck draw p.trace
  cilkcheck: trace line 2: BadWord
  [2]
  $ cat > p.trace <<'END'
  > cilk 1
  > read 0 x
  > END
  $ cilkcheck draw p.trace
  cilkcheck: trace line 2: UnknownName
  [2]
  $ cat > p.trace <<'END'
  > cilk 1
  > sync 0
  > return 9
  > sync 8
  > END
  $ cilkcheck draw p.trace
  cilkcheck: illegal request 2
  [2]
  $ cat > p.trace <<'END'
  > cilk 1
  > spawn 0
  > return 2
  > END
  $ cilkcheck draw p.trace
  cilkcheck: illegal request 2
  [2]

A trace that begins strands 0 to 3, and behind their join 8 a first child, and so many more. Just as many strands as are drawn: the nodes
are all numbers but that of the join that waits, and the edges are those of its spawns and joins.

  $ cat > chain.py <<'END'
  > import sys
  > print("cilk 1\nspawn 0\nreturn 1\nsync 2\nspawn 3\nspawn 5")
  > for half in range(4, int(sys.argv[1])):
  >     print(f"spawn {2 * half}")
  > END
  $ cat > drawing.py <<'END'
  > print("digraph trace {")
  > for strand in range(10001):
  >     if strand != 6:
  >         print(f'  {strand} [label="{strand}\\l"];')
  > print('  0 -> 1 [label="child"];\n  0 -> 2 [label="next"];\n  1 -> 3 [label="join"];\n  2 -> 3 [label="join"];')
  > print('  3 -> 4 [label="child"];\n  3 -> 5 [label="next"];\n  5 -> 7 [label="child"];\n  5 -> 8 [label="next"];')
  > for half in range(4, 5000):
  >     print(f'  {2 * half} -> {2 * half + 1} [label="child"];\n  {2 * half} -> {2 * half + 2} [label="next"];')
  > print("}")
  > END
  $ python3 chain.py 5000 > chain.trace
  $ python3 drawing.py > wanted
  $ cilkcheck draw chain.trace > drawn
  $ cmp drawn wanted

More strands than are drawn.

  $ python3 chain.py 5001 > chain.trace
  $ cilkcheck draw chain.trace
  cilkcheck: too many strands to draw: 10000 at most
  [4]

A worked history, drawn: a put before a child spawns, and a get behind the spawn. The get has other peers.

  $ cat > p.trace <<'END'
  > cilk 1
  > reducer h sum
  > spawn 0 @1
  > put 1 h 5 @1
  > spawn 1 @1
  > update 4 h 1 @1
  > return 4 @1
  > sync 5 @1
  > get 6 h @1
  > get 2 h @1
  > END
  $ cilkcheck draw p.trace
  digraph trace {
    0 [label="0\l"];
    1 [label="1\l2 put h\l"];
    2 [label="2\l8 get h refused\l"];
    4 [label="4\l4 update h\l"];
    5 [label="5\l"];
    6 [label="6\l7 get h\l"];
    0 -> 1 [label="child"];
    0 -> 2 [label="next"];
    1 -> 4 [label="child"];
    1 -> 5 [label="next"];
    4 -> 6 [label="join"];
    5 -> 6 [label="join"];
    1 -> 2 [label="view-read on h", color=red, fontcolor=red, constraint=false];
  }
  [1]

The same as a picture: four levels of at most two boxes, each as wide as 15 characters.

  $ cilkcheck draw p.trace --svg
  <svg xmlns="http://www.w3.org/2000/svg" width="352" height="544" viewBox="0 0 352 544">
  <style>
  svg { background: white }
  text { font: 13px monospace; white-space: pre }
  rect { fill: white; stroke: black }
  line { stroke: black; marker-end: url(#arrow) }
  .join { stroke-dasharray: 6 3 }
  .race path { fill: none; stroke: red }
  .race text { fill: red; text-anchor: middle }
  </style>
  <marker id="arrow" markerWidth="8" markerHeight="8" refX="8" refY="4" orient="auto"><path d="M 0 0 L 8 4 L 0 8 z"/></marker>
  <line class="child" data-from="0" data-to="1" x1="168" y1="96" x2="84" y2="208"/>
  <line class="next" data-from="0" data-to="2" x1="168" y1="96" x2="252" y2="208"/>
  <line class="child" data-from="1" data-to="4" x1="84" y1="208" x2="84" y2="320"/>
  <line class="next" data-from="1" data-to="5" x1="84" y1="208" x2="252" y2="320"/>
  <line class="join" data-from="4" data-to="6" x1="84" y1="320" x2="168" y2="432"/>
  <line class="join" data-from="5" data-to="6" x1="252" y1="320" x2="168" y2="432"/>
  <g id="strand-0">
  <rect x="100" y="96" width="136" height="24"/>
  <text y="96"><tspan x="108" dy="16">0</tspan></text>
  </g>
  <g id="strand-1">
  <rect x="16" y="208" width="136" height="40"/>
  <text y="208"><tspan x="24" dy="16">1</tspan><tspan x="24" dy="16">2 put h</tspan></text>
  </g>
  <g id="strand-2">
  <rect x="184" y="208" width="136" height="40"/>
  <text y="208"><tspan x="192" dy="16">2</tspan><tspan x="192" dy="16">8 get h refused</tspan></text>
  </g>
  <g id="strand-4">
  <rect x="16" y="320" width="136" height="40"/>
  <text y="320"><tspan x="24" dy="16">4</tspan><tspan x="24" dy="16">4 update h</tspan></text>
  </g>
  <g id="strand-5">
  <rect x="184" y="320" width="136" height="24"/>
  <text y="320"><tspan x="192" dy="16">5</tspan></text>
  </g>
  <g id="strand-6">
  <rect x="100" y="432" width="136" height="40"/>
  <text y="432"><tspan x="108" dy="16">6</tspan><tspan x="108" dy="16">7 get h</tspan></text>
  </g>
  <g class="race" data-from="1" data-to="2">
  <path d="M 84 208 C 84 184 252 184 252 208"/>
  <text x="168" y="184">view-read on h</text>
  </g>
  </svg>
  [1]

The same with notes of the one mark, of the reducer and of the run.

  $ cat >> p.trace <<'END'
  > #at 1 sum.c:3, main | h += 1;
  > #of h total
  > #run ./sum
  > END
  $ cilkcheck draw p.trace
  digraph trace {
    labelloc=t;
    label="./sum\l";
    0 [label="0\l"];
    1 [label="1 in main\lsum.c:3 put total\l"];
    2 [label="2 in main\lsum.c:3 get total refused\l"];
    4 [label="4 in main\lsum.c:3 update total\l"];
    5 [label="5\l"];
    6 [label="6 in main\lsum.c:3 get total\l"];
    0 -> 1 [label="child"];
    0 -> 2 [label="next"];
    1 -> 4 [label="child"];
    1 -> 5 [label="next"];
    4 -> 6 [label="join"];
    5 -> 6 [label="join"];
    1 -> 2 [label="view-read on total", color=red, fontcolor=red, constraint=false];
  }
  [1]
