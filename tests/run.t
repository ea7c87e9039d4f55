Runs by many workers. Any number of workers leaves one report, or tells one fault.

The tenth Fibonacci number, summed by a reducer in 713 requests.

  $ cat > fib.cilk <<'END'
  > cilk 1
  > mem x
  > reducer h sum
  > func main z
  > put h 0
  > call fib 10
  > get r h
  > write x r
  > end
  > func fib n
  > let t = n < 2
  > if t
  > update h n
  > else
  > let a = n - 1
  > let b = n - 2
  > spawn fib a
  > call fib b
  > sync
  > end
  > end
  > END
  $ for n in 1 2 8 64; do cilkcheck run fib.cilk --workers $n || exit; done
  {"clean":true,"entries":713,"memory":{"x":55},"refusals":[],"schedules":"clean for every schedule"}
  {"clean":true,"entries":713,"memory":{"x":55},"refusals":[],"schedules":"clean for every schedule"}
  {"clean":true,"entries":713,"memory":{"x":55},"refusals":[],"schedules":"clean for every schedule"}
  {"clean":true,"entries":713,"memory":{"x":55},"refusals":[],"schedules":"clean for every schedule"}
  $ for n in 1 2 8 64; do cilkcheck run fib.cilk --workers $n --limit 713 || exit; done
  {"clean":true,"entries":713,"memory":{"x":55},"refusals":[],"schedules":"clean for every schedule"}
  {"clean":true,"entries":713,"memory":{"x":55},"refusals":[],"schedules":"clean for every schedule"}
  {"clean":true,"entries":713,"memory":{"x":55},"refusals":[],"schedules":"clean for every schedule"}
  {"clean":true,"entries":713,"memory":{"x":55},"refusals":[],"schedules":"clean for every schedule"}

A limit of fewer requests than it makes.

  $ for l in 0 1 100 712; do for n in 1 2; do cilkcheck run fib.cilk --workers $n --limit $l; echo $?; done; done
  cilkcheck: limit
  4
  cilkcheck: limit
  4
  cilkcheck: limit
  4
  cilkcheck: limit
  4
  cilkcheck: limit
  4
  cilkcheck: limit
  4
  cilkcheck: limit
  4
  cilkcheck: limit
  4

A function spawns another, which writes a cell, and reads the cell behind a sync.

  $ cat > series.cilk <<'END'
  > cilk 1
  > mem x
  > mem y
  > func main z
  > spawn f 7
  > sync
  > read r x
  > write y r
  > end
  > func f v
  > write x v
  > end
  > END
  $ for n in 1 2 8 64; do cilkcheck run series.cilk --workers $n || exit; done
  {"clean":true,"entries":9,"memory":{"x":7,"y":7},"refusals":[],"schedules":"clean for every schedule"}
  {"clean":true,"entries":9,"memory":{"x":7,"y":7},"refusals":[],"schedules":"clean for every schedule"}
  {"clean":true,"entries":9,"memory":{"x":7,"y":7},"refusals":[],"schedules":"clean for every schedule"}
  {"clean":true,"entries":9,"memory":{"x":7,"y":7},"refusals":[],"schedules":"clean for every schedule"}

Updates by a child and by its spawner, of which the spawner's is the last.

  $ cat > lasts.cilk <<'END'
  > cilk 1
  > mem x
  > reducer h last
  > func main z
  > put h 0
  > spawn f 2
  > update h 3
  > sync
  > get r h
  > write x r
  > end
  > func f v
  > update h v
  > end
  > END
  $ for n in 1 2 8 64; do cilkcheck run lasts.cilk --workers $n || exit; done
  {"clean":true,"entries":11,"memory":{"x":3},"refusals":[],"schedules":"clean for every schedule"}
  {"clean":true,"entries":11,"memory":{"x":3},"refusals":[],"schedules":"clean for every schedule"}
  {"clean":true,"entries":11,"memory":{"x":3},"refusals":[],"schedules":"clean for every schedule"}
  {"clean":true,"entries":11,"memory":{"x":3},"refusals":[],"schedules":"clean for every schedule"}

Four numbers, each written by a strand of its own.

  $ cat > turns.cilk <<'END'
  > cilk 2
  > mem a 4
  > func main z
  > pfor i 4 f
  > end
  > func f n
  > write a[n] n
  > end
  > END
  $ for n in 1 2 8 64; do cilkcheck run turns.cilk --workers $n || exit; done
  {"clean":true,"entries":19,"memory":{"a":[0,1,2,3]},"refusals":[],"schedules":"clean for every schedule"}
  {"clean":true,"entries":19,"memory":{"a":[0,1,2,3]},"refusals":[],"schedules":"clean for every schedule"}
  {"clean":true,"entries":19,"memory":{"a":[0,1,2,3]},"refusals":[],"schedules":"clean for every schedule"}
  {"clean":true,"entries":19,"memory":{"a":[0,1,2,3]},"refusals":[],"schedules":"clean for every schedule"}

The same loop without a turn.

  $ cat > no-turns.cilk <<'END'
  > cilk 2
  > mem a 4
  > func main z
  > pfor i 0 f
  > end
  > func f n
  > write a[n] n
  > end
  > END
  $ for n in 1 2 8 64; do cilkcheck run no-turns.cilk --workers $n || exit; done
  {"clean":true,"entries":3,"memory":{"a":[0,0,0,0]},"refusals":[],"schedules":"clean for every schedule"}
  {"clean":true,"entries":3,"memory":{"a":[0,0,0,0]},"refusals":[],"schedules":"clean for every schedule"}
  {"clean":true,"entries":3,"memory":{"a":[0,0,0,0]},"refusals":[],"schedules":"clean for every schedule"}
  {"clean":true,"entries":3,"memory":{"a":[0,0,0,0]},"refusals":[],"schedules":"clean for every schedule"}

A get of a reducer that nobody has put.

  $ cat > unset.cilk <<'END'
  > cilk 1
  > reducer h sum
  > func main z
  > get r h
  > end
  > END
  $ for n in 1 2 8 64; do cilkcheck run unset.cilk --workers $n; echo $?; done
  {"clean":false,"entries":3,"memory":{},"refusals":[{"entry":1,"line":4,"name":"h","rule":"unset","strand":0,"witness":null}]}
  1
  {"clean":false,"entries":3,"memory":{},"refusals":[{"entry":1,"line":4,"name":"h","rule":"unset","strand":0,"witness":null}]}
  1
  {"clean":false,"entries":3,"memory":{},"refusals":[{"entry":1,"line":4,"name":"h","rule":"unset","strand":0,"witness":null}]}
  1
  {"clean":false,"entries":3,"memory":{},"refusals":[{"entry":1,"line":4,"name":"h","rule":"unset","strand":0,"witness":null}]}
  1

A program that never ends.

  $ cat > endless.cilk <<'END'
  > cilk 1
  > func main z
  > call main 0
  > end
  > END
  $ for n in 1 2; do cilkcheck run endless.cilk --workers $n --limit 5; echo $?; done
  cilkcheck: limit
  4
  cilkcheck: limit
  4

A text that is no program.

  $ cat > none.cilk <<'END'
  > cilk 1
  > END
  $ for n in 1 2; do cilkcheck run none.cilk --workers $n --limit 5; echo $?; done
  cilkcheck: program line 2: NoMain
  2
  cilkcheck: program line 2: NoMain
  2

More than 1,024 functions wait at once: each spawns the next and waits for it, 1,501 at once, in 4,505 requests. By one worker each waits for
the one that it spawns before that begins.

  $ cat > nested.cilk <<'END'
  > cilk 1
  > func main z
  > spawn f 1500
  > end
  > func f n
  > if n
  > let m = n - 1
  > spawn f m
  > end
  > end
  > END
  $ for n in 1 2 8; do cilkcheck run nested.cilk --workers $n || exit; done
  {"clean":true,"entries":4505,"memory":{},"refusals":[],"schedules":"clean for every schedule"}
  {"clean":true,"entries":4505,"memory":{},"refusals":[],"schedules":"clean for every schedule"}
  {"clean":true,"entries":4505,"memory":{},"refusals":[],"schedules":"clean for every schedule"}

A report of more than 64 KiB: of a program that writes 7 into the last of 40,000 cells.

  $ cat > many.cilk <<'END'
  > cilk 1
  > mem a 40000
  > func main z
  > write a[39999] 7
  > end
  > END
  $ cat > many.py <<'END'
  > print('{"clean":true,"entries":3,"memory":{"a":[' + '0,' * 39999 + '7]},"refusals":[],"schedules":"clean for every schedule"}')
  > END
  $ python3 many.py > wanted
  $ cilkcheck run many.cilk > report
  $ cmp report wanted

The same behind a get that finds nothing.

  $ cat > many-unset.cilk <<'END'
  > cilk 1
  > mem a 40000
  > reducer h sum
  > func main z
  > get r h
  > write a[39999] 7
  > end
  > END
  $ cat > many-unset.py <<'END'
  > print('{"clean":false,"entries":4,"memory":{"a":[' + '0,' * 39999 + '7]},"refusals":[{"entry":1,"line":5,"name":"h","rule":"unset","strand":0,"witness":null}]}')
  > END
  $ python3 many-unset.py > wanted
  $ cilkcheck run many-unset.cilk > report
  [1]
  $ cmp report wanted

One worker goes on with the spawner: the spawner's read comes first, and the child's write, which is refused, behind the spawner's sync.

  $ cat > pair.cilk <<'END'
  > cilk 1
  > mem x
  > mem y
  > func main z
  > spawn f 7
  > read r x
  > end
  > func f v
  > write x v
  > end
  > END
  $ cilkcheck run pair.cilk --workers 1
  {"clean":false,"entries":7,"memory":{"x":0,"y":0},"refusals":[{"entry":4,"line":9,"name":"x","rule":"read-write","strand":1,"witness":{"entry":2,"line":6,"strand":2}}]}
  [1]

One worker alone never steals a child: of a program that spawns a write and, behind 10,001 calls, reads what is written, the read comes
first.

  $ cat > stolen.cilk <<'END'
  > cilk 1
  > mem x
  > func main z
  >   spawn f 7
  >   call g 10000
  >   read r x
  > end
  > func f v
  >   write x v
  > end
  > func g n
  >   if n
  >     let m = n - 1
  >     call g m
  >   end
  > end
  > END
  $ cilkcheck run stolen.cilk --workers 1
  {"clean":false,"entries":30010,"memory":{"x":0},"refusals":[{"entry":30007,"line":9,"name":"x","rule":"read-write","strand":1,"witness":{"entry":30005,"line":6,"strand":2}}]}
  [1]

The report of a clean run.

  $ cat > p.cilk <<'END'
  > cilk 1
  > mem x
  > reducer h sum
  > func main z
  >   put h 0
  >   call fib 10
  >   get r h
  >   write x r
  > end
  > func fib n
  >   let t = n < 2
  >   if t
  >     update h n
  >   else
  >     let a = n - 1
  >     let b = n - 2
  >     spawn fib a
  >     call fib b
  >     sync
  >   end
  > end
  > END
  $ cilkcheck run --workers 1 p.cilk
  {"clean":true,"entries":713,"memory":{"x":55},"refusals":[],"schedules":"clean for every schedule"}
