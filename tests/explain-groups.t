Races that part at one spawn are told together: what parts at one spawn is one group with its advice told once, and what parts at two is
two.

One sync is missing in `cilksort`: what is spawned writes in one function what two others read and write behind the spawn.

  $ cat > p.cilk <<'END'
  > cilk 1
  > mem a 2
  > #at 20 sort.c:20, copy | t[i] = a[i];
  > #at 21 sort.c:21, copy | a[i] = t[i];
  > #at 30 sort.c:30, seqsort | a[i] = v;
  > #at 40 sort.c:40, merge | if (a[i] < b[j])
  > #at 55 sort.c:55, cilksort | cilk_spawn cilksort(a, n);
  > #at 57 sort.c:57, cilksort | seqsort(a, n);
  > #at 62 sort.c:62, cilksort | merge(a, b, n);
  > #at 63 sort.c:63, cilksort | copy(a, t, n);
  > spawn 0 @55
  > call 1 @57
  > write 1 a[0] 7 @30
  > write 1 a[1] 7 @30
  > call 2 @62
  > read 2 a[0] @40
  > return 2 @40
  > call 2 @63
  > read 2 a[1] @20
  > write 2 a[0] 9 @21
  > END
  $ cilkcheck explain p.cilk
  3 pairs of places part at one spawn: what is spawned at sort.c:55 runs beside what `cilksort` does from sort.c:62 on
     = help: a `sync` in `cilksort` before sort.c:62 may order them
   (esc)
  race: write-read on a[0], 1 time
    --> sort.c:30, in seqsort
     |  a[i] = v;
     = this write
     = called at sort.c:57, in cilksort
     = spawned at sort.c:55, in cilksort
    --> sort.c:40, in merge
     |  if (a[i] < b[j])
     = this read, may run before it or after it
     = called at sort.c:62, in cilksort
    --> sort.c:55, in cilksort
     |  cilk_spawn cilksort(a, n);
     = here they part: what is spawned comes to sort.c:30, while `cilksort` goes on to sort.c:62
   (esc)
  race: write-read on a[1], 1 time
    --> sort.c:30, in seqsort
     |  a[i] = v;
     = this write
     = called at sort.c:57, in cilksort
     = spawned at sort.c:55, in cilksort
    --> sort.c:20, in copy
     |  t[i] = a[i];
     = this read, may run before it or after it
     = called at sort.c:63, in cilksort
    --> sort.c:55, in cilksort
     |  cilk_spawn cilksort(a, n);
     = here they part: what is spawned comes to sort.c:30, while `cilksort` goes on to sort.c:63
   (esc)
  race: write-write on a[0], 1 time
    --> sort.c:30, in seqsort
     |  a[i] = v;
     = this write
     = called at sort.c:57, in cilksort
     = spawned at sort.c:55, in cilksort
    --> sort.c:21, in copy
     |  a[i] = t[i];
     = this write, may run before it or after it
     = called at sort.c:63, in cilksort
    --> sort.c:55, in cilksort
     |  cilk_spawn cilksort(a, n);
     = here they part: what is spawned comes to sort.c:30, while `cilksort` goes on to sort.c:63
   (esc)
  3 refusals at 3 pairs of places, among 10 requests
  [1]

Two pairs part at the first spawn, and one at the second.

  $ cat > p.cilk <<'END'
  > cilk 1
  > mem x
  > mem y
  > spawn 0 @4
  > write 1 x 1 @9
  > spawn 2 @5
  > write 4 x 2 @9
  > write 5 x 3 @6
  > write 4 y 1 @10
  > read 5 y @7
  > END
  $ cilkcheck explain p.cilk
  2 pairs of places part at one spawn: what is spawned at line 4 runs beside what the spawner does from line 5 on
     = help: a `sync` in the spawner before line 5 would order them
   (esc)
  race: write-write on x, 1 time
    --> line 9
     = this write
     = spawned at line 4
    --> line 9
     = this write, may run before it or after it
     = spawned at line 5
    --> line 4
     = here they part: what is spawned comes to line 9, while the spawner goes on to line 5
   (esc)
  race: write-write on x, 1 time
    --> line 9
     = this write
     = spawned at line 4
    --> line 6
     = this write, may run before it or after it
    --> line 4
     = here they part: what is spawned comes to line 9, while the spawner goes on to line 6
   (esc)
  race: write-read on y, 1 time
    --> line 10
     = this write
     = spawned at line 5
    --> line 7
     = this read, may run before it or after it
    --> line 5
     = here they part: what is spawned comes to line 10, while the spawner goes on to line 7
     = help: a `sync` in the spawner before line 7 would order them
   (esc)
  3 refusals at 3 pairs of places, among 7 requests
  [1]

What is spawned twice on one line races with itself, and with what follows.

  $ cat > p.cilk <<'END'
  > cilk 1
  > mem x
  > spawn 0 @4
  > write 1 x 1 @9
  > spawn 2 @4
  > write 4 x 2 @9
  > write 5 x 3 @6
  > END
  $ cilkcheck explain p.cilk
  2 pairs of places part at one spawn: what is spawned at line 4 runs beside what the spawner does from line 6 on
     = help: what is spawned here again and again is not ordered: give each a place of its own, or use a reducer
     = help: a `sync` in the spawner before line 6 may order them
   (esc)
  race: write-write on x, 1 time
    --> line 9
     = this write
     = spawned at line 4
    --> line 9
     = this write, may run before it or after it
     = spawned at line 4
    --> line 4
     = here they part: what is spawned comes to line 9, while the spawner goes on to line 4
   (esc)
  race: write-write on x, 1 time
    --> line 9
     = this write
     = spawned at line 4
    --> line 6
     = this write, may run before it or after it
    --> line 4
     = here they part: what is spawned comes to line 9, while the spawner goes on to line 6
   (esc)
  2 refusals at 2 pairs of places, among 5 requests
  [1]

A spawned function writes two cells that its spawner writes too.

  $ cat > p.cilk <<'END'
  > cilk 1
  > mem x
  > mem y
  > func main z
  > spawn f 1
  > write x 2
  > write y 2
  > end
  > func f v
  > write x v
  > write y v
  > end
  > END
  $ cilkcheck explain p.cilk --workers 1
  2 pairs of lines part at one spawn: what is spawned at line 5 runs beside what `main` does from line 6 on
     = help: a `sync` in `main` before line 6 would order them
   (esc)
  race: write-write on x, 1 time
    --> p.cilk:10
     |
   6 | write x 2
     | --------- this write, in `main`
     |
  10 | write x v
     | ^^^^^^^^^ this write, in `f`, may run before it or after it
     = spawned at line 5, in `main`: spawn f 1
     |
   5 | spawn f 1
     | --------- here they part: what is spawned comes to line 10, while `main` goes on to line 6
   (esc)
  race: write-write on y, 1 time
    --> p.cilk:11
     |
   7 | write y 2
     | --------- this write, in `main`
     |
  11 | write y v
     | ^^^^^^^^^ this write, in `f`, may run before it or after it
     = spawned at line 5, in `main`: spawn f 1
     |
   5 | spawn f 1
     | --------- here they part: what is spawned comes to line 11, while `main` goes on to line 7
   (esc)
  2 refusals at 2 pairs of lines, among 9 requests
  [1]

A trace in which more pairs of places race than are told: each of 25 reads without a mark races with one write, and so each is a pair of
its own. Three of the first twenty pairs, which part at one spawn, are told, and how many more there are.

  $ cat > p.cilk <<'END'
  > cilk 1
  > mem x
  > spawn 0
  > write 1 x 7
  > read 2 x
  > read 2 x
  > read 2 x
  > read 2 x
  > read 2 x
  > read 2 x
  > read 2 x
  > read 2 x
  > read 2 x
  > read 2 x
  > read 2 x
  > read 2 x
  > read 2 x
  > read 2 x
  > read 2 x
  > read 2 x
  > read 2 x
  > read 2 x
  > read 2 x
  > read 2 x
  > read 2 x
  > read 2 x
  > read 2 x
  > read 2 x
  > read 2 x
  > END
  $ cilkcheck explain p.cilk
  20 pairs of places part at one spawn: what is spawned at line 3 runs beside what the spawner does from line 5 on
     = help: a `sync` in the spawner before line 5 would order them
   (esc)
  race: write-read on x, 1 time
    --> line 4
     = this write
     = spawned at line 3
    --> line 5
     = this read, may run before it or after it
    --> line 3
     = here they part: what is spawned comes to line 4, while the spawner goes on to line 5
   (esc)
  race: write-read on x, 1 time
    --> line 4
     = this write
     = spawned at line 3
    --> line 6
     = this read, may run before it or after it
    --> line 3
     = here they part: what is spawned comes to line 4, while the spawner goes on to line 6
   (esc)
  race: write-read on x, 1 time
    --> line 4
     = this write
     = spawned at line 3
    --> line 7
     = this read, may run before it or after it
    --> line 3
     = here they part: what is spawned comes to line 4, while the spawner goes on to line 7
   (esc)
  and 17 more pairs of places that part there (--all shows them)
   (esc)
  and 5 more pairs of places
  25 refusals at 25 pairs of places, among 27 requests
  [1]

All pairs.

  $ cilkcheck explain p.cilk --all
  25 pairs of places part at one spawn: what is spawned at line 3 runs beside what the spawner does from line 5 on
     = help: a `sync` in the spawner before line 5 would order them
   (esc)
  race: write-read on x, 1 time
    --> line 4
     = this write
     = spawned at line 3
    --> line 5
     = this read, may run before it or after it
    --> line 3
     = here they part: what is spawned comes to line 4, while the spawner goes on to line 5
   (esc)
  race: write-read on x, 1 time
    --> line 4
     = this write
     = spawned at line 3
    --> line 6
     = this read, may run before it or after it
    --> line 3
     = here they part: what is spawned comes to line 4, while the spawner goes on to line 6
   (esc)
  race: write-read on x, 1 time
    --> line 4
     = this write
     = spawned at line 3
    --> line 7
     = this read, may run before it or after it
    --> line 3
     = here they part: what is spawned comes to line 4, while the spawner goes on to line 7
   (esc)
  race: write-read on x, 1 time
    --> line 4
     = this write
     = spawned at line 3
    --> line 8
     = this read, may run before it or after it
    --> line 3
     = here they part: what is spawned comes to line 4, while the spawner goes on to line 8
   (esc)
  race: write-read on x, 1 time
    --> line 4
     = this write
     = spawned at line 3
    --> line 9
     = this read, may run before it or after it
    --> line 3
     = here they part: what is spawned comes to line 4, while the spawner goes on to line 9
   (esc)
  race: write-read on x, 1 time
    --> line 4
     = this write
     = spawned at line 3
    --> line 10
     = this read, may run before it or after it
    --> line 3
     = here they part: what is spawned comes to line 4, while the spawner goes on to line 10
   (esc)
  race: write-read on x, 1 time
    --> line 4
     = this write
     = spawned at line 3
    --> line 11
     = this read, may run before it or after it
    --> line 3
     = here they part: what is spawned comes to line 4, while the spawner goes on to line 11
   (esc)
  race: write-read on x, 1 time
    --> line 4
     = this write
     = spawned at line 3
    --> line 12
     = this read, may run before it or after it
    --> line 3
     = here they part: what is spawned comes to line 4, while the spawner goes on to line 12
   (esc)
  race: write-read on x, 1 time
    --> line 4
     = this write
     = spawned at line 3
    --> line 13
     = this read, may run before it or after it
    --> line 3
     = here they part: what is spawned comes to line 4, while the spawner goes on to line 13
   (esc)
  race: write-read on x, 1 time
    --> line 4
     = this write
     = spawned at line 3
    --> line 14
     = this read, may run before it or after it
    --> line 3
     = here they part: what is spawned comes to line 4, while the spawner goes on to line 14
   (esc)
  race: write-read on x, 1 time
    --> line 4
     = this write
     = spawned at line 3
    --> line 15
     = this read, may run before it or after it
    --> line 3
     = here they part: what is spawned comes to line 4, while the spawner goes on to line 15
   (esc)
  race: write-read on x, 1 time
    --> line 4
     = this write
     = spawned at line 3
    --> line 16
     = this read, may run before it or after it
    --> line 3
     = here they part: what is spawned comes to line 4, while the spawner goes on to line 16
   (esc)
  race: write-read on x, 1 time
    --> line 4
     = this write
     = spawned at line 3
    --> line 17
     = this read, may run before it or after it
    --> line 3
     = here they part: what is spawned comes to line 4, while the spawner goes on to line 17
   (esc)
  race: write-read on x, 1 time
    --> line 4
     = this write
     = spawned at line 3
    --> line 18
     = this read, may run before it or after it
    --> line 3
     = here they part: what is spawned comes to line 4, while the spawner goes on to line 18
   (esc)
  race: write-read on x, 1 time
    --> line 4
     = this write
     = spawned at line 3
    --> line 19
     = this read, may run before it or after it
    --> line 3
     = here they part: what is spawned comes to line 4, while the spawner goes on to line 19
   (esc)
  race: write-read on x, 1 time
    --> line 4
     = this write
     = spawned at line 3
    --> line 20
     = this read, may run before it or after it
    --> line 3
     = here they part: what is spawned comes to line 4, while the spawner goes on to line 20
   (esc)
  race: write-read on x, 1 time
    --> line 4
     = this write
     = spawned at line 3
    --> line 21
     = this read, may run before it or after it
    --> line 3
     = here they part: what is spawned comes to line 4, while the spawner goes on to line 21
   (esc)
  race: write-read on x, 1 time
    --> line 4
     = this write
     = spawned at line 3
    --> line 22
     = this read, may run before it or after it
    --> line 3
     = here they part: what is spawned comes to line 4, while the spawner goes on to line 22
   (esc)
  race: write-read on x, 1 time
    --> line 4
     = this write
     = spawned at line 3
    --> line 23
     = this read, may run before it or after it
    --> line 3
     = here they part: what is spawned comes to line 4, while the spawner goes on to line 23
   (esc)
  race: write-read on x, 1 time
    --> line 4
     = this write
     = spawned at line 3
    --> line 24
     = this read, may run before it or after it
    --> line 3
     = here they part: what is spawned comes to line 4, while the spawner goes on to line 24
   (esc)
  race: write-read on x, 1 time
    --> line 4
     = this write
     = spawned at line 3
    --> line 25
     = this read, may run before it or after it
    --> line 3
     = here they part: what is spawned comes to line 4, while the spawner goes on to line 25
   (esc)
  race: write-read on x, 1 time
    --> line 4
     = this write
     = spawned at line 3
    --> line 26
     = this read, may run before it or after it
    --> line 3
     = here they part: what is spawned comes to line 4, while the spawner goes on to line 26
   (esc)
  race: write-read on x, 1 time
    --> line 4
     = this write
     = spawned at line 3
    --> line 27
     = this read, may run before it or after it
    --> line 3
     = here they part: what is spawned comes to line 4, while the spawner goes on to line 27
   (esc)
  race: write-read on x, 1 time
    --> line 4
     = this write
     = spawned at line 3
    --> line 28
     = this read, may run before it or after it
    --> line 3
     = here they part: what is spawned comes to line 4, while the spawner goes on to line 28
   (esc)
  race: write-read on x, 1 time
    --> line 4
     = this write
     = spawned at line 3
    --> line 29
     = this read, may run before it or after it
    --> line 3
     = here they part: what is spawned comes to line 4, while the spawner goes on to line 29
   (esc)
  25 refusals at 25 pairs of places, among 27 requests
  [1]
