Runs whose trace is written. Of a program of two requests the trace of its one run is known.

  $ cat > short.cilk <<'END'
  > cilk 1
  > func main z
  > end
  > END
  $ cilkcheck run short.cilk --workers 1 --trace short.trace
  {"clean":true,"entries":2,"memory":{},"refusals":[],"schedules":"clean for every schedule"}
  $ cat short.trace
  cilk 1
  sync 0 @3
  return 0 @3
  $ for n in 2 8 64; do cilkcheck run short.cilk --workers $n --trace out || exit; cmp out short.trace || exit; done
  {"clean":true,"entries":2,"memory":{},"refusals":[],"schedules":"clean for every schedule"}
  {"clean":true,"entries":2,"memory":{},"refusals":[],"schedules":"clean for every schedule"}
  {"clean":true,"entries":2,"memory":{},"refusals":[],"schedules":"clean for every schedule"}

A program of one strand.

  $ cat > serial.cilk <<'END'
  > cilk 2
  > mem a 2
  > reducer h digits
  > func main z
  > write a[1] 7
  > bump a[0] 3
  > read r a[1]
  > put h r
  > update h 2
  > call f 5
  > get t h
  > sync
  > end
  > func f v
  > write a[0] v
  > end
  > END
  $ cilkcheck run serial.cilk --workers 1 --trace serial.trace > report
  $ cat serial.trace
  cilk 2
  mem a 2
  reducer h digits
  write 0 a[1] 7 @5
  bump 0 a[0] 3 @6
  read 0 a[1] @7
  put 0 h 7 @8
  update 0 h 2 @9
  call 0 @10
  write 0 a[0] 5 @15
  sync 0 @16
  return 0 @16
  get 0 h @11
  sync 0 @12
  sync 0 @13
  return 0 @13
  $ for n in 2 8 64; do cilkcheck run serial.cilk --workers $n --trace out > report || exit; cmp out serial.trace || exit; done

The limit ends the run, and no trace is written.

  $ for n in 1 2; do cilkcheck run short.cilk --workers $n --trace none --limit 1; echo $?; done
  cilkcheck: limit
  4
  cilkcheck: limit
  4
  $ ls
  out
  report
  serial.cilk
  serial.trace
  short.cilk
  short.trace

Programs with several traces: each is one of a run, and is judged and replayed with its status. Each status but 0 is told.

  $ cat > each.sh <<'END'
  > for n in 1 2 8; do
  >   cilkcheck run $1.cilk --workers $n --trace out > report || echo run $?
  >   cilkcheck judge out > verdicts || echo judge $?
  >   cilkcheck replay $1.cilk out || echo replay $?
  > done
  > END

The tenth Fibonacci number, summed by a reducer.

  $ cat > fib.cilk <<'END'
  > cilk 1
  > mem x
  > reducer h sum
  > func main z
  > put h 0
  > call fib 10
  > get r h
  > write x r
  > end
  > func fib n
  > let t = n < 2
  > if t
  > update h n
  > else
  > let a = n - 1
  > let b = n - 2
  > spawn fib a
  > call fib b
  > sync
  > end
  > end
  > END
  $ sh each.sh fib
  replayed 713
  replayed 713
  replayed 713

A function spawns another, which writes a cell, and reads the cell behind a sync.

  $ cat > series.cilk <<'END'
  > cilk 1
  > mem x
  > mem y
  > func main z
  > spawn f 7
  > sync
  > read r x
  > write y r
  > end
  > func f v
  > write x v
  > end
  > END
  $ sh each.sh series
  replayed 9
  replayed 9
  replayed 9

Updates by a child and by its spawner, of which the spawner's is the last.

  $ cat > lasts.cilk <<'END'
  > cilk 1
  > mem x
  > reducer h last
  > func main z
  > put h 0
  > spawn f 2
  > update h 3
  > sync
  > get r h
  > write x r
  > end
  > func f v
  > update h v
  > end
  > END
  $ sh each.sh lasts
  replayed 11
  replayed 11
  replayed 11

Four numbers, each written by a strand of its own.

  $ cat > turns.cilk <<'END'
  > cilk 2
  > mem a 4
  > func main z
  > pfor i 4 f
  > end
  > func f n
  > write a[n] n
  > end
  > END
  $ sh each.sh turns
  replayed 19
  replayed 19
  replayed 19

A function that spawns another, which writes a cell that it reads.

  $ cat > pair.cilk <<'END'
  > cilk 1
  > mem x
  > mem y
  > func main z
  > spawn f 7
  > read r x
  > end
  > func f v
  > write x v
  > end
  > END
  $ sh each.sh pair
  run 1
  judge 1
  replayed 7
  replay 1
  run 1
  judge 1
  replayed 7
  replay 1
  run 1
  judge 1
  replayed 7
  replay 1

A trace of more than 100,000 entries: of a loop of 33,334 turns, in 100,005 requests.

  $ cat > many-turns.cilk <<'END'
  > cilk 2
  > func main z
  > pfor i 33334 f
  > end
  > func f n
  > end
  > END
  $ cilkcheck run many-turns.cilk --workers 2 --trace out > report
  $ cilkcheck judge out > verdicts
  $ cilkcheck replay many-turns.cilk out
  replayed 100005

The trace is written in place of the report, where it is known, or it is told why there is none.

  $ cilkcheck run short.cilk --workers 1 --trace -
  cilk 1
  sync 0 @3
  return 0 @3
  $ cilkcheck run short.cilk --workers 2 --trace -
  cilk 1
  sync 0 @3
  return 0 @3
  $ cilkcheck run short.cilk --workers 64 --trace - --limit 2
  cilk 1
  sync 0 @3
  return 0 @3
  $ cilkcheck run short.cilk --workers 2 --trace - --limit 1
  cilkcheck: limit
  [4]

A program of one strand.

  $ for n in 1 8; do cilkcheck run serial.cilk --workers $n --trace - > out || exit; cmp out serial.trace || exit; done

By one worker, which goes on with the spawner, the read comes first.

  $ cilkcheck run pair.cilk --workers 1 --trace -
  cilk 1
  mem x
  mem y
  spawn 0 @5
  read 2 x @6
  sync 2 @7
  write 1 x 7 @9
  sync 1 @10
  return 1 @10
  return 3 @7
  [1]

A text that is no program.

  $ cat > none.cilk <<'END'
  > cilk 1
  > foo
  > END
  $ cilkcheck run none.cilk --workers 2 --trace -
  cilkcheck: program line 2: BadWord
  [2]

A trace in place of the report is judged and replayed with the status of its run, too.

  $ cat > alone.sh <<'END'
  > for n in 1 8; do
  >   cilkcheck run $1.cilk --workers $n --trace - > out || echo run $?
  >   cilkcheck judge out > verdicts || echo judge $?
  >   cilkcheck replay $1.cilk out || echo replay $?
  > done
  > END
  $ sh alone.sh fib
  replayed 713
  replayed 713
  $ sh alone.sh lasts
  replayed 11
  replayed 11
  $ sh alone.sh turns
  replayed 19
  replayed 19
  $ sh alone.sh pair
  run 1
  judge 1
  replayed 7
  replay 1
  run 1
  judge 1
  replayed 7
  replay 1

A file is created for a run alone, and where it can be: not in a folder that is not there, not where the limit ends the run, and not where
there is no program.

  $ mkdir desk
  $ cilkcheck run short.cilk --trace desk/out
  {"clean":true,"entries":2,"memory":{},"refusals":[],"schedules":"clean for every schedule"}
  $ cat desk/out
  cilk 1
  sync 0 @3
  return 0 @3
  $ cilkcheck run short.cilk --trace desk/barred/out
  cilkcheck: cannot write desk/barred/out: No such file or directory (os error 2)
  [2]
  $ cilkcheck run short.cilk --trace desk/cut --limit 1
  cilkcheck: limit
  [4]
  $ cilkcheck run none.cilk --trace desk/none
  cilkcheck: program line 2: BadWord
  [2]
  $ ls desk
  out

A trace is not written over its program, whose file has a name of its own, another spelling of it, and that of a link. It is written over
another file, and into a new one.

  $ cat > program <<'END'
  > cilk 1
  > func main z
  > end
  > END
  $ ln -s program link
  $ cp program other
  $ cilkcheck run program --trace program
  cilkcheck: the trace would be written over the program: name another file with '--trace <OUT>'
  [2]
  $ cilkcheck run program --trace ./program
  cilkcheck: the trace would be written over the program, whose file has both names: name another file with '--trace <OUT>'
  [2]
  $ cilkcheck run program --trace link
  cilkcheck: the trace would be written over the program, whose file has both names: name another file with '--trace <OUT>'
  [2]
  $ cat program
  cilk 1
  func main z
  end
  $ cilkcheck run program --trace other
  {"clean":true,"entries":2,"memory":{},"refusals":[],"schedules":"clean for every schedule"}
  $ cat other
  cilk 1
  sync 0 @3
  return 0 @3
  $ cilkcheck run program --trace new
  {"clean":true,"entries":2,"memory":{},"refusals":[],"schedules":"clean for every schedule"}
  $ cat new
  cilk 1
  sync 0 @3
  return 0 @3

A replay writes no trace, so it may read its program as one.

  $ cilkcheck replay program link
  cilkcheck: trace line 2: BadWord
  [2]

A trace on standard output is over no file, and no file is created.

  $ cp program desk
  $ cd desk && cilkcheck run program --trace -
  cilk 1
  sync 0 @3
  return 0 @3
  $ ls desk
  out
  program
