What orders the accesses of a race, and whether it is sure to. A line of another function names no place in the spawner, and a sync that may
leave some of a group unordered is told with `may` in each form.

The spawner calls a function that reads what is spawned writes, and the call is not recorded.

  $ cat > p.cilk <<'END'
  > cilk 1
  > mem x
  > #at 6 q.c:6, sum | s += a[i];
  > #at 9 q.c:9, fill | a[i] = 0;
  > #at 12 q.c:12, main | cilk_spawn fill(a);
  > spawn 0 @12
  > write 1 x 7 @9
  > read 2 x @6
  > END
  $ cilkcheck explain p.cilk
  race: write-read on x, 1 time
    --> q.c:9, in fill
     |  a[i] = 0;
     = this write
     = spawned at q.c:12, in main
    --> q.c:6, in sum
     |  s += a[i];
     = this read, may run before it or after it
    --> q.c:12, in main
     |  cilk_spawn fill(a);
     = here they part: what is spawned comes to q.c:9, while `main` goes on to q.c:6
     = help: a `sync` in `main` between the spawn at q.c:12 and what `sum` does at q.c:6 may order them
   (esc)
  1 refusal at 1 pair of places, among 3 requests
  [1]
  $ cilkcheck explain p.cilk --format json
  {"memory":null,"outcome":"raced","pairs":1,"races":[{"group":1,"help":"a `sync` in `main` between the spawn at q.c:12 and what `sum` does at q.c:6 may order them","kind":"write-read","locations":["x"],"outstanding":null,"parting":{"child":{"code":"a[i] = 0;","column":null,"file":"q.c","function":"fill","line":9},"next":{"code":"s += a[i];","column":null,"file":"q.c","function":"sum","line":6},"spawn":{"code":"cilk_spawn fill(a);","column":null,"file":"q.c","function":"main","line":12}},"refused":{"further":0,"place":{"code":"s += a[i];","column":null,"file":"q.c","function":"sum","line":6},"within":[],"word":"read"},"rule":"determinacy-race","spawn_line":12,"times":1,"witness":{"further":0,"place":{"code":"a[i] = 0;","column":null,"file":"q.c","function":"fill","line":9},"within":[{"place":{"code":"cilk_spawn fill(a);","column":null,"file":"q.c","function":"main","line":12},"way":"spawned"}],"word":"write"}}],"recorded":[],"refusals":1,"requests":3,"traces":1,"untold":[],"version":1,"warned":0,"warnings":[]} (no-eol)
  [1]

The same with another read behind, and no function noted for the first.

  $ cat > p.cilk <<'END'
  > cilk 1
  > mem x
  > #at 6 q.c:6
  > #at 7 q.c:7, sum
  > #at 9 q.c:9, fill
  > #at 12 q.c:12, main
  > spawn 0 @12
  > write 1 x 7 @9
  > read 2 x @6
  > read 2 x @7
  > END
  $ cilkcheck explain p.cilk
  2 pairs of places part at one spawn: what is spawned at q.c:12 runs beside what `main` does from q.c:6 on
     = help: a `sync` in `main` between the spawn at q.c:12 and what is done at q.c:6 may order them
   (esc)
  race: write-read on x, 1 time
    --> q.c:9, in fill
     = this write
     = spawned at q.c:12, in main
    --> q.c:6
     = this read, may run before it or after it
    --> q.c:12, in main
     = here they part: what is spawned comes to q.c:9, while `main` goes on to q.c:6
   (esc)
  race: write-read on x, 1 time
    --> q.c:9, in fill
     = this write
     = spawned at q.c:12, in main
    --> q.c:7, in sum
     = this read, may run before it or after it
    --> q.c:12, in main
     = here they part: what is spawned comes to q.c:9, while `main` goes on to q.c:7
   (esc)
  2 refusals at 2 pairs of places, among 4 requests
  [1]

What is spawned twice on one line: the sync before line 6 does not order the two spawned.

  $ cat > p.cilk <<'END'
  > cilk 1
  > mem x
  > spawn 0 @4
  > write 1 x 1 @9
  > spawn 2 @4
  > write 4 x 2 @9
  > write 5 x 3 @6
  > END
  $ cilkcheck explain p.cilk --format json
  {"memory":null,"outcome":"raced","pairs":2,"races":[{"group":1,"help":"what is spawned here again and again is not ordered: give each a place of its own, or use a reducer","kind":"write-write","locations":["x"],"outstanding":null,"parting":{"child":{"code":null,"column":null,"file":null,"function":null,"line":9},"next":{"code":null,"column":null,"file":null,"function":null,"line":4},"spawn":{"code":null,"column":null,"file":null,"function":null,"line":4}},"refused":{"further":0,"place":{"code":null,"column":null,"file":null,"function":null,"line":9},"within":[{"place":{"code":null,"column":null,"file":null,"function":null,"line":4},"way":"spawned"}],"word":"write"},"rule":"determinacy-race","spawn_line":4,"times":1,"witness":{"further":0,"place":{"code":null,"column":null,"file":null,"function":null,"line":9},"within":[{"place":{"code":null,"column":null,"file":null,"function":null,"line":4},"way":"spawned"}],"word":"write"}},{"group":1,"help":"a `sync` in the spawner before line 6 may order them","kind":"write-write","locations":["x"],"outstanding":null,"parting":{"child":{"code":null,"column":null,"file":null,"function":null,"line":9},"next":{"code":null,"column":null,"file":null,"function":null,"line":6},"spawn":{"code":null,"column":null,"file":null,"function":null,"line":4}},"refused":{"further":0,"place":{"code":null,"column":null,"file":null,"function":null,"line":6},"within":[],"word":"write"},"rule":"determinacy-race","spawn_line":4,"times":1,"witness":{"further":0,"place":{"code":null,"column":null,"file":null,"function":null,"line":9},"within":[{"place":{"code":null,"column":null,"file":null,"function":null,"line":4},"way":"spawned"}],"word":"write"}}],"recorded":[],"refusals":2,"requests":5,"traces":1,"untold":[],"version":1,"warned":0,"warnings":[]} (no-eol)
  [1]

A line with a note may be one of another call, so no sync before it is told as sure. The spawner calls itself, and the call is not
recorded: no sync in the spawning call stands before the line of the called one.

  $ cat > p.cilk <<'END'
  > cilk 1
  > mem x
  > #at 12 words.c:12, count | words++;
  > #at 15 words.c:15, count | cilk_spawn count(text, half);
  > spawn 0 @15
  > write 1 x 1 @12
  > write 2 x 2 @12
  > END
  $ cilkcheck explain p.cilk
  race: write-write on x, 1 time
    --> words.c:12, in count
     |  words++;
     = this write
     = spawned at words.c:15, in count
    --> words.c:12, in count
     |  words++;
     = this write, may run before it or after it
    --> words.c:15, in count
     |  cilk_spawn count(text, half);
     = here they part: what is spawned comes to words.c:12, while `count` goes on to words.c:12
     = help: a `sync` in `count` before words.c:12 may order them
   (esc)
  1 refusal at 1 pair of places, among 3 requests
  [1]
  $ cilkcheck explain p.cilk --format json
  {"memory":null,"outcome":"raced","pairs":1,"races":[{"group":1,"help":"a `sync` in `count` before words.c:12 may order them","kind":"write-write","locations":["x"],"outstanding":null,"parting":{"child":{"code":"words++;","column":null,"file":"words.c","function":"count","line":12},"next":{"code":"words++;","column":null,"file":"words.c","function":"count","line":12},"spawn":{"code":"cilk_spawn count(text, half);","column":null,"file":"words.c","function":"count","line":15}},"refused":{"further":0,"place":{"code":"words++;","column":null,"file":"words.c","function":"count","line":12},"within":[],"word":"write"},"rule":"determinacy-race","spawn_line":15,"times":1,"witness":{"further":0,"place":{"code":"words++;","column":null,"file":"words.c","function":"count","line":12},"within":[{"place":{"code":"cilk_spawn count(text, half);","column":null,"file":"words.c","function":"count","line":15},"way":"spawned"}],"word":"write"}}],"recorded":[],"refusals":1,"requests":3,"traces":1,"untold":[],"version":1,"warned":0,"warnings":[]} (no-eol)
  [1]

Only the spawn has a note, which names no function.

  $ cat > p.cilk <<'END'
  > cilk 1
  > mem x
  > #at 5 q.c:12
  > spawn 0 @5
  > write 1 x 7 @9
  > read 2 x @6
  > END
  $ cilkcheck explain p.cilk
  race: write-read on x, 1 time
    --> line 9
     = this write
     = spawned at q.c:12
    --> line 6
     = this read, may run before it or after it
    --> q.c:12
     = here they part: what is spawned comes to line 9, while the spawner goes on to line 6
     = help: a `sync` in the spawner before line 6 may order them
   (esc)
  1 refusal at 1 pair of places, among 3 requests
  [1]

Only where the spawner goes on has a note.

  $ cat > p.cilk <<'END'
  > cilk 1
  > mem x
  > #at 6 q.c:13
  > spawn 0 @5
  > write 1 x 7 @9
  > read 2 x @6
  > END
  $ cilkcheck explain p.cilk
  race: write-read on x, 1 time
    --> line 9
     = this write
     = spawned at line 5
    --> q.c:13
     = this read, may run before it or after it
    --> line 5
     = here they part: what is spawned comes to line 9, while the spawner goes on to q.c:13
     = help: a `sync` in the spawner before q.c:13 may order them
   (esc)
  1 refusal at 1 pair of places, among 3 requests
  [1]
