Explanations as JSON, worked out by hand from docs/FORMATS.md. A clean run is told with its memory, a race that comes before the limit, a run
without an end as unfinished, a text's faults, and the warnings of a program.

The tenth Fibonacci number, summed by a reducer in 713 requests.

  $ cat > p.cilk <<'END'
  > cilk 1
  > mem x
  > reducer h sum
  > func main z
  > put h 0
  > call fib 10
  > get r h
  > write x r
  > end
  > func fib n
  > let t = n < 2
  > if t
  > update h n
  > else
  > let a = n - 1
  > let b = n - 2
  > spawn fib a
  > call fib b
  > sync
  > end
  > end
  > END
  $ cilkcheck explain p.cilk --serial --format json --limit 713
  {"memory":[{"cell":"x","value":55}],"outcome":"clean","pairs":0,"races":[],"recorded":[],"refusals":0,"requests":713,"traces":0,"untold":[],"version":1,"warned":0,"warnings":[]} (no-eol)

A write beside a spawned function that writes the same cell, and then no end.

  $ cat > p.cilk <<'END'
  > cilk 1
  > mem x
  > func main z
  > spawn f 1
  > write x 2
  > sync
  > call main 0
  > end
  > func f v
  > write x v
  > end
  > END
  $ cilkcheck explain p.cilk --serial --format json --limit 6
  {"memory":null,"outcome":"unfinished","pairs":1,"races":[{"group":1,"help":"a `sync` in `main` before line 5 would order them","kind":"write-write","locations":["x"],"outstanding":null,"parting":{"child":{"code":"write x v","column":null,"file":"p.cilk","function":"f","line":10},"next":{"code":"write x 2","column":null,"file":"p.cilk","function":"main","line":5},"spawn":{"code":"spawn f 1","column":null,"file":"p.cilk","function":"main","line":4}},"refused":{"further":0,"place":{"code":"write x 2","column":null,"file":"p.cilk","function":"main","line":5},"within":[],"word":"write"},"rule":"determinacy-race","spawn_line":4,"times":1,"witness":{"further":0,"place":{"code":"write x v","column":null,"file":"p.cilk","function":"f","line":10},"within":[{"place":{"code":"spawn f 1","column":null,"file":"p.cilk","function":"main","line":4},"way":"spawned"}],"word":"write"}}],"recorded":[],"refusals":1,"requests":6,"traces":0,"untold":[],"version":1,"warned":0,"warnings":[]} (no-eol)
  [1]

A program that never ends.

  $ cat > p.cilk <<'END'
  > cilk 1
  > func main z
  > call main 0
  > end
  > END
  $ cilkcheck explain p.cilk --serial --format json --limit 9
  {"memory":null,"outcome":"unfinished","pairs":0,"races":[],"recorded":[],"refusals":0,"requests":9,"traces":0,"untold":[],"version":1,"warned":0,"warnings":[]} (no-eol)
  [4]

Two names that are wrong.

  $ cat > p.cilk <<'END'
  > cilk 1
  > func main z
  > write x 1
  > write y 2
  > end
  > END
  $ cilkcheck explain p.cilk --serial --format json
  {"faults":[{"cause":"UnknownName","code":"write x 1","file":"p.cilk","line":3,"rendered":"error: no cell has this name\n --> p.cilk:3\n  |\n3 | write x 1\n  |       ^\n  = help: declare it before the first function, by `mem NAME`\n"},{"cause":"UnknownName","code":"write y 2","file":"p.cilk","line":4,"rendered":"error: no cell has this name\n --> p.cilk:4\n  |\n4 | write y 2\n  |       ^\n  = help: declare it before the first function, by `mem NAME`\n"}],"more":false,"outcome":"faulty","version":1} (no-eol)
  [2]

A register with the name of a memory, and a function that is never reached.

  $ cat > p.cilk <<'END'
  > cilk 1
  > mem x
  > func main z
  >   let x = 1
  > end
  > func g v
  > end
  > END
  $ cilkcheck explain p.cilk --serial --format json
  {"memory":[{"cell":"x","value":0}],"outcome":"clean","pairs":0,"races":[],"recorded":[],"refusals":0,"requests":2,"traces":0,"untold":[],"version":1,"warned":2,"warnings":[{"message":"`x` is a register here, and a memory by the declaration at line 2","place":{"code":"let x = 1","column":null,"file":"p.cilk","function":null,"line":4},"rule":"declared-register"},{"message":"no spawn or call leads from `main` to `g`","place":{"code":"func g v","column":null,"file":"p.cilk","function":null,"line":6},"rule":"unreached-function"}]} (no-eol)

The races of a trace are told by its notes, a clean trace with what was recorded, and an illegal request. Notes with columns, a colon and a
space in the name of a file, a line that is too large, and quotes.

  $ cat > p.cilk <<'END'
  > cilk 1
  > mem x
  > #at 5 a b.c:5, main | cilk_spawn f(&x);
  > #at 6 pair.c:6:3
  > #at 9 c:/pair.c:9:12, f(int, int)
  > #at 4294967295 far.c:99999999999
  > #of x[*] the cell "x"
  > #run ./pair
  > #run again
  > spawn 0 @5
  > write 1 x 7 @9
  > read 2 x @6
  > read 2 x @4294967295
  > END
  $ cilkcheck explain p.cilk --format json
  {"memory":null,"outcome":"raced","pairs":2,"races":[{"group":1,"help":"a `sync` in `main` between the spawn at a b.c:5 and what is done at pair.c:6:3 may order them","kind":"write-read","locations":["the cell \"x\""],"outstanding":null,"parting":{"child":{"code":null,"column":12,"file":"c:/pair.c","function":"f(int, int)","line":9},"next":{"code":null,"column":3,"file":"pair.c","function":null,"line":6},"spawn":{"code":"cilk_spawn f(&x);","column":null,"file":"a b.c","function":"main","line":5}},"refused":{"further":0,"place":{"code":null,"column":3,"file":"pair.c","function":null,"line":6},"within":[],"word":"read"},"rule":"determinacy-race","spawn_line":5,"times":1,"witness":{"further":0,"place":{"code":null,"column":12,"file":"c:/pair.c","function":"f(int, int)","line":9},"within":[{"place":{"code":"cilk_spawn f(&x);","column":null,"file":"a b.c","function":"main","line":5},"way":"spawned"}],"word":"write"}},{"group":1,"help":"a `sync` in `main` between the spawn at a b.c:5 and what is done at far.c:99999999999 may order them","kind":"write-read","locations":["the cell \"x\""],"outstanding":null,"parting":{"child":{"code":null,"column":12,"file":"c:/pair.c","function":"f(int, int)","line":9},"next":{"code":null,"column":null,"file":"far.c:99999999999","function":null,"line":null},"spawn":{"code":"cilk_spawn f(&x);","column":null,"file":"a b.c","function":"main","line":5}},"refused":{"further":0,"place":{"code":null,"column":null,"file":"far.c:99999999999","function":null,"line":null},"within":[],"word":"read"},"rule":"determinacy-race","spawn_line":5,"times":1,"witness":{"further":0,"place":{"code":null,"column":12,"file":"c:/pair.c","function":"f(int, int)","line":9},"within":[{"place":{"code":"cilk_spawn f(&x);","column":null,"file":"a b.c","function":"main","line":5},"way":"spawned"}],"word":"write"}}],"recorded":["./pair","again"],"refusals":2,"requests":4,"traces":1,"untold":[],"version":1,"warned":0,"warnings":[]} (no-eol)
  [1]

A get while a spawn is outstanding that was not at the put.

  $ cat > p.cilk <<'END'
  > cilk 1
  > reducer h sum
  > put 0 h 1
  > spawn 0
  > get 2 h
  > END
  $ cilkcheck explain p.cilk --format json
  {"memory":null,"outcome":"raced","pairs":1,"races":[{"group":1,"help":"move what stands on line 5 behind the `sync` of the spawner, where this spawn has ended","kind":"view-read","locations":["h"],"outstanding":{"at":{"code":null,"column":null,"file":null,"function":null,"line":5},"not_at":{"code":null,"column":null,"file":null,"function":null,"line":3},"spawn":{"code":null,"column":null,"file":null,"function":null,"line":4}},"parting":null,"refused":{"further":0,"place":{"code":null,"column":null,"file":null,"function":null,"line":5},"within":[],"word":"get"},"rule":"view-read-race","spawn_line":null,"times":1,"witness":{"further":0,"place":{"code":null,"column":null,"file":null,"function":null,"line":3},"within":[],"word":"put"}}],"recorded":[],"refusals":1,"requests":3,"traces":1,"untold":[],"version":1,"warned":0,"warnings":[]} (no-eol)
  [1]

One location has two cells, of which each races once, and another location has one.

  $ cat > p.cilk <<'END'
  > cilk 1
  > mem a 2
  > mem x
  > #of a[*] best, 4 bytes
  > spawn 0 @5
  > write 1 a[0] 7 @9
  > write 1 a[1] 7 @9
  > write 1 x 7 @8
  > read 2 a[0] @6
  > read 2 a[1] @6
  > read 2 x @6
  > END
  $ cilkcheck explain p.cilk --format json
  {"memory":null,"outcome":"raced","pairs":2,"races":[{"group":1,"help":"a `sync` in the spawner before line 6 would order them","kind":"write-read","locations":["best, 4 bytes"],"outstanding":null,"parting":{"child":{"code":null,"column":null,"file":null,"function":null,"line":9},"next":{"code":null,"column":null,"file":null,"function":null,"line":6},"spawn":{"code":null,"column":null,"file":null,"function":null,"line":5}},"refused":{"further":0,"place":{"code":null,"column":null,"file":null,"function":null,"line":6},"within":[],"word":"read"},"rule":"determinacy-race","spawn_line":5,"times":2,"witness":{"further":0,"place":{"code":null,"column":null,"file":null,"function":null,"line":9},"within":[{"place":{"code":null,"column":null,"file":null,"function":null,"line":5},"way":"spawned"}],"word":"write"}},{"group":1,"help":"a `sync` in the spawner before line 6 would order them","kind":"write-read","locations":["x"],"outstanding":null,"parting":{"child":{"code":null,"column":null,"file":null,"function":null,"line":8},"next":{"code":null,"column":null,"file":null,"function":null,"line":6},"spawn":{"code":null,"column":null,"file":null,"function":null,"line":5}},"refused":{"further":0,"place":{"code":null,"column":null,"file":null,"function":null,"line":6},"within":[],"word":"read"},"rule":"determinacy-race","spawn_line":5,"times":1,"witness":{"further":0,"place":{"code":null,"column":null,"file":null,"function":null,"line":8},"within":[{"place":{"code":null,"column":null,"file":null,"function":null,"line":5},"way":"spawned"}],"word":"write"}}],"recorded":[],"refusals":3,"requests":7,"traces":1,"untold":[],"version":1,"warned":0,"warnings":[]} (no-eol)
  [1]

A clean trace, with a note of what was recorded.

  $ cat > p.cilk <<'END'
  > cilk 1
  > mem x
  > #run one write
  > write 0 x 1
  > return 0
  > END
  $ cilkcheck explain p.cilk --format json
  {"memory":null,"outcome":"clean","pairs":0,"races":[],"recorded":["one write"],"refusals":0,"requests":2,"traces":1,"untold":[],"version":1,"warned":0,"warnings":[]} (no-eol)

A return from a function with an open block.

  $ cat > p.cilk <<'END'
  > cilk 1
  > spawn 0
  > return 2
  > END
  $ cilkcheck explain p.cilk --format json
  {"code":"return 2","file":"p.cilk","help":"ask for a `sync` of this strand, and let the join return","line":3,"message":"this function has an open block","outcome":"illegal","rendered":"error: this function has an open block\n --> p.cilk:3\n  |\n3 | return 2\n  | ^^^^^^^^\n  = request 2: strand 2 returns from a function that has spawned and not synced\n  = help: ask for a `sync` of this strand, and let the join return\n","request":2,"strand":2,"version":1} (no-eol)
  [2]
