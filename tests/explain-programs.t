Explanations of runs of programs: a clean run is told with its memory, a race that comes before the limit, a run without an end as cut, and
what is wrong with a text that is no program.

The tenth Fibonacci number, summed by a reducer in 713 requests, by any number of workers.

  $ cat > fib.cilk <<'END'
  > cilk 1
  > mem x
  > reducer h sum
  > func main z
  > put h 0
  > call fib 10
  > get r h
  > write x r
  > end
  > func fib n
  > let t = n < 2
  > if t
  > update h n
  > else
  > let a = n - 1
  > let b = n - 2
  > spawn fib a
  > call fib b
  > sync
  > end
  > end
  > END
  $ for n in 1 2 8 64; do cilkcheck explain fib.cilk --workers $n --limit 713 || exit; done
  clean for every schedule: no run of this program has a race, and each leaves this memory
  x 55
  clean for every schedule: no run of this program has a race, and each leaves this memory
  x 55
  clean for every schedule: no run of this program has a race, and each leaves this memory
  x 55
  clean for every schedule: no run of this program has a race, and each leaves this memory
  x 55

A write beside a spawned function that writes the same cell, and then no end. One worker goes on with `main` first.

  $ cat > p.cilk <<'END'
  > cilk 1
  > mem x
  > func main z
  > spawn f 1
  > write x 2
  > sync
  > call main 0
  > end
  > func f v
  > write x v
  > end
  > END
  $ cilkcheck explain p.cilk --workers 1 --limit 6
  race: write-write on x, 1 time
    --> p.cilk:10
     |
   5 | write x 2
     | --------- this write, in `main`
     |
  10 | write x v
     | ^^^^^^^^^ this write, in `f`, may run before it or after it
     = spawned at line 4, in `main`: spawn f 1
     |
   4 | spawn f 1
     | --------- here they part: what is spawned comes to line 10, while `main` goes on to line 5
     = help: a `sync` in `main` before line 5 would order them
   (esc)
  1 refusal at 1 pair of lines, among 6 requests
  this is no whole run: the limit ended it after 6 requests, and there may be more to tell
  [1]

A program that never ends.

  $ cat > p.cilk <<'END'
  > cilk 1
  > func main z
  > call main 0
  > end
  > END
  $ cilkcheck explain p.cilk --limit 9
  0 refusals at 0 pairs of lines, among 9 requests
  this is no whole run: the limit ended it after 9 requests, and there may be more to tell
  [4]

Two names that are wrong.

  $ cat > p.cilk <<'END'
  > cilk 1
  > func main z
  > write x 1
  > write y 2
  > end
  > END
  $ cilkcheck explain p.cilk
  error: no cell has this name
   --> p.cilk:3
    |
  3 | write x 1
    |       ^
    = help: declare it before the first function, by `mem NAME`
   (esc)
  error: no cell has this name
   --> p.cilk:4
    |
  4 | write y 2
    |       ^
    = help: declare it before the first function, by `mem NAME`
   (esc)
  2 faults
  [2]

Whole explanations of serial runs. All requests of a run are counted, and each `end` makes two.

A function is spawned twice, and races with itself: both lines are one, and the spawns tell the two apart.

  $ cat > p.cilk <<'END'
  > cilk 1
  > mem x
  > func main z
  >   spawn f 1
  >   spawn f 2
  >   sync
  > end
  > func f v
  >   write x v
  > end
  > END
  $ cilkcheck explain p.cilk --serial
  race: write-write on x, 1 time
    --> p.cilk:9
     |
   9 |   write x v
     |   --------- this write, in `f`
     = spawned at line 4, in `main`: spawn f 1
     |
   9 |   write x v
     |   ^^^^^^^^^ this write, in `f`, may run before it or after it
     = spawned at line 5, in `main`: spawn f 2
     |
   4 |   spawn f 1
     |   --------- here they part: what is spawned comes to line 9, while `main` goes on to line 5
     = help: a `sync` in `main` before line 5 would order them
   (esc)
  1 refusal at 1 pair of lines, among 11 requests
  [1]

A get while a spawn is outstanding that was not at the put.

  $ cat > p.cilk <<'END'
  > cilk 1
  > reducer s sum
  > func main z
  > put s 1
  > spawn f 1
  > get a s
  > sync
  > end
  > func f v
  > end
  > END
  $ cilkcheck explain p.cilk --serial
  view-read race: reads with other peers of s, 1 time
    --> p.cilk:6
     |
   4 | put s 1
     | ------- this put, in `main`
     |
   6 | get a s
     | ^^^^^^^ this get, in `main`, has other peers
     |
   5 | spawn f 1
     | --------- this spawn is outstanding at line 6, and not at line 4
     = help: move what stands on line 6 behind the `sync` of `main`, where this spawn has ended
   (esc)
  1 refusal at 1 pair of lines, among 8 requests
  [1]
