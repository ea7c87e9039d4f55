The races of a trace are told by its notes, or by its numbers and names where it has none; a clean one, and what is wrong with a text that is
no trace.

One location has two cells, of which each races once, and another location has one.

  $ cat > p.cilk <<'END'
  > cilk 1
  > mem a 2
  > mem x
  > #of a[*] best, 4 bytes
  > spawn 0 @5
  > write 1 a[0] 7 @9
  > write 1 a[1] 7 @9
  > write 1 x 7 @8
  > read 2 a[0] @6
  > read 2 a[1] @6
  > read 2 x @6
  > END
  $ cilkcheck explain p.cilk
  2 pairs of places part at one spawn: what is spawned at line 5 runs beside what the spawner does from line 6 on
     = help: a `sync` in the spawner before line 6 would order them
   (esc)
  race: write-read on best, 4 bytes, 2 times
    --> line 9
     = this write
     = spawned at line 5
    --> line 6
     = this read, may run before it or after it
    --> line 5
     = here they part: what is spawned comes to line 9, while the spawner goes on to line 6
   (esc)
  race: write-read on x, 1 time
    --> line 8
     = this write
     = spawned at line 5
    --> line 6
     = this read, may run before it or after it
    --> line 5
     = here they part: what is spawned comes to line 8, while the spawner goes on to line 6
   (esc)
  3 refusals at 2 pairs of places, among 7 requests
  [1]

A spawned function writes what its spawner reads, and notes say what the marks and the cell stand for.

  $ cat > p.cilk <<'END'
  > cilk 1
  > mem x
  > #at 5 pair.c:5, main | cilk_spawn f(&x, 7);
  > #at 6 pair.c:6, main | printf("%d", x);
  > #at 9 pair.c:9, f | *p = v;
  > #of x a local of main
  > #run ./pair
  > spawn 0 @5
  > write 1 x 7 @9
  > read 2 x @6
  > END
  $ cilkcheck explain p.cilk
  race: write-read on a local of main, 1 time
    --> pair.c:9, in f
     |  *p = v;
     = this write
     = spawned at pair.c:5, in main
    --> pair.c:6, in main
     |  printf("%d", x);
     = this read, may run before it or after it
    --> pair.c:5, in main
     |  cilk_spawn f(&x, 7);
     = here they part: what is spawned comes to pair.c:9, while `main` goes on to pair.c:6
     = help: a `sync` in `main` before pair.c:6 may order them
   (esc)
  1 refusal at 1 pair of places, among 3 requests
  recorded: ./pair
  [1]

The same with no note.

  $ cat > p.cilk <<'END'
  > cilk 1
  > mem x
  > spawn 0 @5
  > write 1 x 7 @9
  > read 2 x @6
  > END
  $ cilkcheck explain p.cilk
  race: write-read on x, 1 time
    --> line 9
     = this write
     = spawned at line 5
    --> line 6
     = this read, may run before it or after it
    --> line 5
     = here they part: what is spawned comes to line 9, while the spawner goes on to line 6
     = help: a `sync` in the spawner before line 6 would order them
   (esc)
  1 refusal at 1 pair of places, among 3 requests
  [1]

A get while a spawn is outstanding that was not at the put.

  $ cat > p.cilk <<'END'
  > cilk 1
  > reducer h sum
  > put 0 h 1
  > spawn 0
  > get 2 h
  > END
  $ cilkcheck explain p.cilk
  view-read race: reads with other peers of h, 1 time
    --> line 3
     = this put
    --> line 5
     = this get, has other peers
    --> line 4
     = this spawn is outstanding at line 5, and not at line 3
     = help: move what stands on line 5 behind the `sync` of the spawner, where this spawn has ended
   (esc)
  1 refusal at 1 pair of places, among 3 requests
  [1]

A clean trace, with a note of what was recorded.

  $ cat > p.cilk <<'END'
  > cilk 1
  > mem x
  > #run one write
  > write 0 x 1
  > return 0
  > END
  $ cilkcheck explain p.cilk
  clean: no two of the accesses of this trace race, in whatever order its strands run
  judged: 2 requests
  recorded: one write

A name and a number that are wrong.

  $ cat > p.cilk <<'END'
  > cilk 1
  > mem x
  > read 0 y
  > write 0 x -1
  > END
  $ cilkcheck explain p.cilk
  error: no cell has this name
   --> p.cilk:3
    |
  3 | read 0 y
    |        ^
    = help: declare it before the first request, by `mem NAME`
   (esc)
  error: there are no negative numbers
   --> p.cilk:4
    |
  4 | write 0 x -1
    |           ^^
    = help: write a number from 0 to 18446744073709551615
   (esc)
  2 faults
  [2]

An illegal request is told with its line, and why it is illegal: its strand ended at its spawn,

  $ cat > p.cilk <<'END'
  > cilk 1
  > mem x
  > spawn 0
  > write 0 x 1 # its own
  > END
  $ cilkcheck explain p.cilk
  error: this strand has ended
   --> p.cilk:4
    |
  4 | write 0 x 1 # its own
    | ^^^^^^^^^^^
    = request 2: strand 0 ended at line 3: `spawn 0`
    = help: a spawn and a sync end their strand: `judge` prints the number by which the function goes on. Behind a return there is none
  [2]

at its sync,

  $ cat > p.cilk <<'END'
  > cilk 1
  > mem x
  > spawn 0 @7
  > sync 2 @8
  > # the child
  > return 1 @9
  > read 2 x @8
  > END
  $ cilkcheck explain p.cilk
  error: this strand has ended
   --> p.cilk:7
    |
  7 | read 2 x @8
    | ^^^^^^^^^^^
    = request 4: strand 2 ended at line 4: `sync 2 @8`
    = help: a spawn and a sync end their strand: `judge` prints the number by which the function goes on. Behind a return there is none
  [2]

and at its return.

  $ cat > p.cilk <<'END'
  > cilk 1
  > spawn 0
  > return 1
  > return 1
  > END
  $ cilkcheck explain p.cilk
  error: this strand has ended
   --> p.cilk:4
    |
  4 | return 1
    | ^^^^^^^^
    = request 3: strand 1 ended at line 3: `return 1`
    = help: a spawn and a sync end their strand: `judge` prints the number by which the function goes on. Behind a return there is none
  [2]

A join that has not begun, since its block is not synced.

  $ cat > p.cilk <<'END'
  > cilk 1
  > mem x
  > spawn 0
  > return 1
  > read 3 x
  > END
  $ cilkcheck explain p.cilk
  error: this strand has not begun
   --> p.cilk:5
    |
  5 | read 3 x
    | ^^^^^^^^
    = request 3: strand 3 is the join of the block that opened at line 3: `spawn 0`
    = help: it begins when its block is synced and each function that was spawned there has returned
  [2]

A number that the two spawns before it have not given: the first gives 1, 2 and 3, and the second, of the same block, 4 and 5.

  $ cat > p.cilk <<'END'
  > cilk 1
  > spawn 0
  > spawn 2
  > return 6
  > END
  $ cilkcheck explain p.cilk
  error: no strand has this number
   --> p.cilk:4
    |
  4 | return 6
    | ^^^^^^^^
    = request 3: strand 6 is none of those that have begun: the numbers below 6 are given
    = help: a spawn gives the next numbers to its child, to what follows it, and, where it opens a block, to the join
  [2]

A return from a function with an open block.

  $ cat > p.cilk <<'END'
  > cilk 1
  > spawn 0
  > return 2
  > END
  $ cilkcheck explain p.cilk
  error: this function has an open block
   --> p.cilk:3
    |
  3 | return 2
    | ^^^^^^^^
    = request 2: strand 2 returns from a function that has spawned and not synced
    = help: ask for a `sync` of this strand, and let the join return
  [2]
