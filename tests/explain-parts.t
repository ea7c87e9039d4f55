Parts of a recording, in which a spawn on line 5, or at a place that a note names, is outstanding at a read.

  $ cat > first <<'END'
  > cilk 1
  > mem x
  > #run one write
  > spawn 0 @5
  > write 1 x 7 @9
  > read 2 x @6
  > END
  $ cat > later <<'END'
  > cilk 1
  > mem y
  > spawn 0 @5
  > write 1 y 3 @8
  > read 2 y @7
  > END
  $ cat > same <<'END'
  > cilk 1
  > mem y
  > spawn 0 @5
  > write 1 y 3 @8
  > read 2 y @6
  > END
  $ cat > unset <<'END'
  > cilk 1
  > reducer h sum
  > get 0 h @3
  > END
  $ cat > behind <<'END'
  > cilk 1
  > mem x
  > spawn 0 @5
  > write 1 x 7 @9
  > read 2 x @6
  > read 2 x @7
  > END
  $ cat > here <<'END'
  > cilk 1
  > mem x
  > #at 5 q.c:12, main
  > #at 6 q.c:13, main
  > #at 9 q.c:3, f
  > spawn 0 @5
  > write 1 x 7 @9
  > read 2 x @6
  > END
  $ cat > there <<'END'
  > cilk 1
  > mem x
  > #at 5 r.c:20, main
  > #at 6 q.c:13, main
  > #at 9 q.c:3, f
  > spawn 0 @5
  > write 1 x 7 @9
  > read 2 x @6
  > END
  $ cat > moved <<'END'
  > cilk 1
  > mem x
  > #at 7 q.c:12, main
  > #at 8 q.c:14, main
  > #at 9 q.c:3, f
  > spawn 0 @7
  > write 1 x 7 @9
  > read 2 x @8
  > END

Pairs of several parts whose spawns are told alike are one group, by the rule of one part.

A sync before line 6 comes too late in the second part for all that is known, where the spawner goes on to line 7.

  $ cilkcheck explain first later
  2 pairs of places part at one spawn: what is spawned at line 5 runs beside what the spawner does from line 6 on
     = help: a `sync` in the spawner before line 6 may order them
   (esc)
  race: write-read on x, 1 time
    --> line 9
     = this write
     = spawned at line 5
    --> line 6
     = this read, may run before it or after it
    --> line 5
     = here they part: what is spawned comes to line 9, while the spawner goes on to line 6
   (esc)
  race: write-read on y, 1 time
    --> line 8
     = this write
     = spawned at line 5
    --> line 7
     = this read, may run before it or after it
    --> line 5
     = here they part: what is spawned comes to line 8, while the spawner goes on to line 7
   (esc)
  2 refusals at 2 pairs of places, among 6 requests in 2 traces
  recorded: one write
  [1]

In both parts the spawner goes on to line 6. The second group stands between their pairs where the parts are read.

  $ cilkcheck explain first unset same
  2 pairs of places part at one spawn: what is spawned at line 5 runs beside what the spawner does from line 6 on
     = help: a `sync` in the spawner before line 6 would order them
   (esc)
  race: write-read on x, 1 time
    --> line 9
     = this write
     = spawned at line 5
    --> line 6
     = this read, may run before it or after it
    --> line 5
     = here they part: what is spawned comes to line 9, while the spawner goes on to line 6
   (esc)
  race: write-read on y, 1 time
    --> line 8
     = this write
     = spawned at line 5
    --> line 6
     = this read, may run before it or after it
    --> line 5
     = here they part: what is spawned comes to line 8, while the spawner goes on to line 6
   (esc)
  unset get: nothing was put before into h, 1 time
    --> line 3
     = this get, finds nothing
     = help: a `put` into it has to come first in the serial order
   (esc)
  3 refusals at 3 pairs of places, among 7 requests in 3 traces
  recorded: one write
  [1]

The same as JSON.

  $ cilkcheck explain first unset same --format json
  {"memory":null,"outcome":"raced","pairs":3,"races":[{"group":1,"help":"a `sync` in the spawner before line 6 would order them","kind":"write-read","locations":["x"],"outstanding":null,"parting":{"child":{"code":null,"column":null,"file":null,"function":null,"line":9},"next":{"code":null,"column":null,"file":null,"function":null,"line":6},"spawn":{"code":null,"column":null,"file":null,"function":null,"line":5}},"refused":{"further":0,"place":{"code":null,"column":null,"file":null,"function":null,"line":6},"within":[],"word":"read"},"rule":"determinacy-race","spawn_line":5,"times":1,"witness":{"further":0,"place":{"code":null,"column":null,"file":null,"function":null,"line":9},"within":[{"place":{"code":null,"column":null,"file":null,"function":null,"line":5},"way":"spawned"}],"word":"write"}},{"group":1,"help":"a `sync` in the spawner before line 6 would order them","kind":"write-read","locations":["y"],"outstanding":null,"parting":{"child":{"code":null,"column":null,"file":null,"function":null,"line":8},"next":{"code":null,"column":null,"file":null,"function":null,"line":6},"spawn":{"code":null,"column":null,"file":null,"function":null,"line":5}},"refused":{"further":0,"place":{"code":null,"column":null,"file":null,"function":null,"line":6},"within":[],"word":"read"},"rule":"determinacy-race","spawn_line":5,"times":1,"witness":{"further":0,"place":{"code":null,"column":null,"file":null,"function":null,"line":8},"within":[{"place":{"code":null,"column":null,"file":null,"function":null,"line":5},"way":"spawned"}],"word":"write"}},{"group":2,"help":"a `put` into it has to come first in the serial order","kind":"unset","locations":["h"],"outstanding":null,"parting":null,"refused":{"further":0,"place":{"code":null,"column":null,"file":null,"function":null,"line":3},"within":[],"word":"get"},"rule":"unset-get","spawn_line":null,"times":1,"witness":null}],"recorded":["one write"],"refusals":3,"requests":7,"traces":3,"untold":[],"version":1,"warned":0,"warnings":[]} (no-eol)
  [1]

In one part the spawner goes on to line 7 behind line 6, in one call.

  $ cilkcheck explain behind unset
  2 pairs of places part at one spawn: what is spawned at line 5 runs beside what the spawner does from line 6 on
     = help: a `sync` in the spawner before line 6 would order them
   (esc)
  race: write-read on x, 1 time
    --> line 9
     = this write
     = spawned at line 5
    --> line 6
     = this read, may run before it or after it
    --> line 5
     = here they part: what is spawned comes to line 9, while the spawner goes on to line 6
   (esc)
  race: write-read on x, 1 time
    --> line 9
     = this write
     = spawned at line 5
    --> line 7
     = this read, may run before it or after it
    --> line 5
     = here they part: what is spawned comes to line 9, while the spawner goes on to line 7
   (esc)
  unset get: nothing was put before into h, 1 time
    --> line 3
     = this get, finds nothing
     = help: a `put` into it has to come first in the serial order
   (esc)
  3 refusals at 3 pairs of places, among 5 requests in 2 traces
  [1]

One mark stands for two places, and two marks for one: the places are what counts.

  $ cilkcheck explain here there moved
  2 pairs of places part at one spawn: what is spawned at q.c:12 runs beside what `main` does from q.c:13 on
     = help: a `sync` in `main` before q.c:13 may order them
   (esc)
  race: write-read on x, 1 time
    --> q.c:3, in f
     = this write
     = spawned at q.c:12, in main
    --> q.c:13, in main
     = this read, may run before it or after it
    --> q.c:12, in main
     = here they part: what is spawned comes to q.c:3, while `main` goes on to q.c:13
   (esc)
  race: write-read on x, 1 time
    --> q.c:3, in f
     = this write
     = spawned at q.c:12, in main
    --> q.c:14, in main
     = this read, may run before it or after it
    --> q.c:12, in main
     = here they part: what is spawned comes to q.c:3, while `main` goes on to q.c:14
   (esc)
  race: write-read on x, 1 time
    --> q.c:3, in f
     = this write
     = spawned at r.c:20, in main
    --> q.c:13, in main
     = this read, may run before it or after it
    --> r.c:20, in main
     = here they part: what is spawned comes to q.c:3, while `main` goes on to q.c:13
     = help: a `sync` in `main` before q.c:13 may order them
   (esc)
  3 refusals at 3 pairs of places, among 9 requests in 3 traces
  [1]

Other parts: two in which the same two places race, each on a cell of its own, one in which nothing races, one in which a get finds nothing,
and others. No part is called `gone`.

  $ cat > one <<'END'
  > cilk 1
  > mem x
  > #run one write
  > spawn 0 @5
  > write 1 x 7 @9
  > read 2 x @6
  > END
  $ cat > two <<'END'
  > cilk 1
  > mem y
  > #run one write
  > spawn 0 @5
  > write 1 y 3 @9
  > read 2 y @6
  > END
  $ cat > three <<'END'
  > cilk 1
  > mem x
  > #run one write
  > #run again
  > write 0 x 1
  > return 0
  > END
  $ cat > unset <<'END'
  > cilk 1
  > reducer h sum
  > get 0 h @3
  > END
  $ cat > bad <<'END'
  > cilk 1
  > mem x
  > read 0 y
  > END
  $ cat > program <<'END'
  > cilk 1
  > func main z
  > end
  > END
  $ cat > ended <<'END'
  > cilk 1
  > mem x
  > return 0
  > read 0 x
  > END
  $ cat > noted <<'END'
  > cilk 1
  > mem x
  > mem y
  > #of x best
  > #of y best
  > spawn 0 @5
  > write 1 x 7 @9
  > write 1 y 7 @9
  > read 2 x @6
  > read 2 y @6
  > END
  $ cat > alike <<'END'
  > cilk 1
  > mem z
  > mem top
  > #of z best
  > spawn 0 @5
  > write 1 z 3 @9
  > write 1 top 3 @9
  > read 2 z @6
  > read 2 top @6
  > END
  $ cat > other <<'END'
  > cilk 1
  > mem z
  > spawn 0 @5
  > write 1 z 3 @9
  > read 2 z @6
  > END

Pairs that are told alike are told once, with the counts of all parts.

The first two of the parts race.

  $ cilkcheck explain one two three
  race: write-read on x and 1 more, 2 times
    --> line 9
     = this write
     = spawned at line 5
    --> line 6
     = this read, may run before it or after it
    --> line 5
     = here they part: what is spawned comes to line 9, while the spawner goes on to line 6
     = help: a `sync` in the spawner before line 6 would order them
   (esc)
  2 refusals at 1 pair of places, among 8 requests in 3 traces
  recorded: one write
  recorded: again
  [1]

Two kinds of refusals, in the order of the parts.

  $ cilkcheck explain unset two
  unset get: nothing was put before into h, 1 time
    --> line 3
     = this get, finds nothing
     = help: a `put` into it has to come first in the serial order
   (esc)
  race: write-read on y, 1 time
    --> line 9
     = this write
     = spawned at line 5
    --> line 6
     = this read, may run before it or after it
    --> line 5
     = here they part: what is spawned comes to line 9, while the spawner goes on to line 6
     = help: a `sync` in the spawner before line 6 would order them
   (esc)
  2 refusals at 2 pairs of places, among 4 requests in 2 traces
  recorded: one write
  [1]

A clean part twice: what was recorded is told once.

  $ cilkcheck explain three three
  clean: in none of these 2 traces do two of the accesses race, in whatever order its strands run
  judged: 4 requests in 2 traces
  recorded: one write
  recorded: again

Three parts in which the same two places race on five cells, of which three are of one location, and one of another.

  $ cilkcheck explain noted alike other
  race: write-read on best and 2 more, 5 times
    --> line 9
     = this write
     = spawned at line 5
    --> line 6
     = this read, may run before it or after it
    --> line 5
     = here they part: what is spawned comes to line 9, while the spawner goes on to line 6
     = help: a `sync` in the spawner before line 6 would order them
   (esc)
  5 refusals at 1 pair of places, among 13 requests in 3 traces
  [1]

The same as JSON, where pairs that are told alike are told once, too, with the counts and the names of all parts.

  $ cilkcheck explain noted alike other --format json
  {"memory":null,"outcome":"raced","pairs":1,"races":[{"group":1,"help":"a `sync` in the spawner before line 6 would order them","kind":"write-read","locations":["best","top","z"],"outstanding":null,"parting":{"child":{"code":null,"column":null,"file":null,"function":null,"line":9},"next":{"code":null,"column":null,"file":null,"function":null,"line":6},"spawn":{"code":null,"column":null,"file":null,"function":null,"line":5}},"refused":{"further":0,"place":{"code":null,"column":null,"file":null,"function":null,"line":6},"within":[],"word":"read"},"rule":"determinacy-race","spawn_line":5,"times":5,"witness":{"further":0,"place":{"code":null,"column":null,"file":null,"function":null,"line":9},"within":[{"place":{"code":null,"column":null,"file":null,"function":null,"line":5},"way":"spawned"}],"word":"write"}}],"recorded":[],"refusals":5,"requests":13,"traces":3,"untold":[],"version":1,"warned":0,"warnings":[]} (no-eol)
  [1]

Two kinds of refusals.

  $ cilkcheck explain unset two --format json
  {"memory":null,"outcome":"raced","pairs":2,"races":[{"group":1,"help":"a `put` into it has to come first in the serial order","kind":"unset","locations":["h"],"outstanding":null,"parting":null,"refused":{"further":0,"place":{"code":null,"column":null,"file":null,"function":null,"line":3},"within":[],"word":"get"},"rule":"unset-get","spawn_line":null,"times":1,"witness":null},{"group":2,"help":"a `sync` in the spawner before line 6 would order them","kind":"write-read","locations":["y"],"outstanding":null,"parting":{"child":{"code":null,"column":null,"file":null,"function":null,"line":9},"next":{"code":null,"column":null,"file":null,"function":null,"line":6},"spawn":{"code":null,"column":null,"file":null,"function":null,"line":5}},"refused":{"further":0,"place":{"code":null,"column":null,"file":null,"function":null,"line":6},"within":[],"word":"read"},"rule":"determinacy-race","spawn_line":5,"times":1,"witness":{"further":0,"place":{"code":null,"column":null,"file":null,"function":null,"line":9},"within":[{"place":{"code":null,"column":null,"file":null,"function":null,"line":5},"way":"spawned"}],"word":"write"}}],"recorded":["one write"],"refusals":2,"requests":4,"traces":2,"untold":[],"version":1,"warned":0,"warnings":[]} (no-eol)
  [1]

The last part is not there.

  $ cilkcheck explain three gone --format json
  cilkcheck: cannot read gone: No such file or directory (os error 2)
  [2]

A part with a fault is told by its name, unless one before it is not there.

  $ cilkcheck explain one bad gone
  error: no cell has this name
   --> bad:3
    |
  3 | read 0 y
    |        ^
    = help: declare it before the first request, by `mem NAME`
  [2]

The second of two parts has a request behind the return of the root function.

  $ cilkcheck explain one ended gone
  error: this strand has ended
   --> ended:4
    |
  4 | read 0 x
    | ^^^^^^^^
    = request 2: strand 0 ended at line 3: `return 0`
    = help: a spawn and a sync end their strand: `judge` prints the number by which the function goes on. Behind a return there is none
  [2]
  $ cilkcheck explain gone bad
  cilkcheck: cannot read gone: No such file or directory (os error 2)
  [2]
  $ cilkcheck explain three gone
  cilkcheck: cannot read gone: No such file or directory (os error 2)
  [2]

Parts that are longer than what is read at once, of which the first and the last are one: 20,000 reads race with one write, and others do
not.

  $ { printf 'cilk 1\nmem x\n#of x the cell\n#at 9 a.c:9\n#run first\nspawn 0 @5\nwrite 1 x 7 @9\n'; yes 'read 2 x @6' | head -20000; } > raced
  $ { printf 'cilk 1\nmem x\n#run first\n'; yes 'read 0 x' | head -20000; printf '#run last\nread 0 x\n'; } > recorded
  $ cilkcheck explain raced recorded raced
  race: write-read on the cell, 40000 times
    --> a.c:9
     = this write
     = spawned at line 5
    --> line 6
     = this read, may run before it or after it
    --> line 5
     = here they part: what is spawned comes to a.c:9, while the spawner goes on to line 6
     = help: a `sync` in the spawner before line 6 would order them
   (esc)
  40000 refusals at 1 pair of places, among 60005 requests in 3 traces
  recorded: first
  recorded: last
  [1]
