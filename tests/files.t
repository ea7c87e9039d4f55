Standard input and files. A trace on standard input, a program in a file, both in two files, and a trace in a file.

  $ cilkcheck judge <<'END'
  > cilk 1
  > mem x
  > spawn 0
  > read 1 x
  > sync 2
  > return 1
  > write 3 x 4
  > END
  1 split 1 2 3
  2 value 0
  3 waits
  4 ended-joined 3
  5 granted

  $ cat > program <<'END'
  > cilk 1
  > mem x
  > reducer h sum
  > func main z
  > put h 0
  > call fib 10
  > get r h
  > write x r
  > end
  > func fib n
  > let t = n < 2
  > if t
  > update h n
  > else
  > let a = n - 1
  > let b = n - 2
  > spawn fib a
  > call fib b
  > sync
  > end
  > end
  > END
  $ cilkcheck elide program
  x 55
  requests 713

  $ cat > pair <<'END'
  > cilk 1
  > mem x
  > mem y
  > func main z
  > spawn f 7
  > read r x
  > end
  > func f v
  > write x v
  > end
  > END
  $ cat > pair.trace <<'END'
  > cilk 1
  > mem x
  > mem y
  > spawn 0 @5
  > write 1 x 7 @9
  > read 2 x @6
  > sync 1 @10
  > return 1 @10
  > sync 2 @7
  > return 3 @7
  > END
  $ cilkcheck replay pair pair.trace
  replayed 7
  [1]

  $ cat > read.trace <<'END'
  > cilk 1
  > mem x
  > read 0 x
  > END
  $ cilkcheck draw read.trace
  digraph trace {
    0 [label="0\l1 read x\l"];
  }

Where `-` stands, standard input is read, and no file with that name.

  $ cat > ./- <<'END'
  > no text of any kind
  > END
  $ cilkcheck judge - <<'END'
  > cilk 1
  > mem x
  > spawn 0
  > read 1 x
  > sync 2
  > return 1
  > write 3 x 4
  > END
  1 split 1 2 3
  2 value 0
  3 waits
  4 ended-joined 3
  5 granted
  $ cilkcheck elide - < program
  x 55
  requests 713
  $ cilkcheck draw - < read.trace
  digraph trace {
    0 [label="0\l1 read x\l"];
  }
  $ cilkcheck replay - pair.trace < pair
  replayed 7
  [1]
  $ cilkcheck replay pair - < pair.trace
  replayed 7
  [1]

A run of a program in a file by 1 and 2 workers, and of one on standard input.

  $ cilkcheck run program --workers 1
  {"clean":true,"entries":713,"memory":{"x":55},"refusals":[],"schedules":"clean for every schedule"}
  $ cilkcheck run program --workers 2
  {"clean":true,"entries":713,"memory":{"x":55},"refusals":[],"schedules":"clean for every schedule"}
  $ cilkcheck run - --workers 2 < program
  {"clean":true,"entries":713,"memory":{"x":55},"refusals":[],"schedules":"clean for every schedule"}

The trace of a run of a program in a file, and of one on standard input.

  $ cat > there <<'END'
  > cilk 1
  > func main z
  > end
  > END
  $ cilkcheck run there --workers 1 --trace -
  cilk 1
  sync 0 @3
  return 0 @3
  $ cilkcheck run - --workers 2 --trace - <<'END'
  > cilk 2
  > mem a
  > func main z
  > bump a 3
  > end
  > END
  cilk 2
  mem a
  bump 0 a 3 @4
  sync 0 @5
  return 0 @5

What can't be done with a file that is not there. Of a drawing the reason is told.

  $ cilkcheck elide gone
  cilkcheck: read
  [2]
  $ cilkcheck draw gone
  cilkcheck: cannot read gone: No such file or directory (os error 2)
  [2]
  $ cilkcheck replay gone there
  cilkcheck: read
  [2]
  $ cilkcheck replay there gone
  cilkcheck: read
  [2]
  $ echo 'cilk 1' | cilkcheck replay - gone
  cilkcheck: read
  [2]
  $ echo 'cilk 1' | cilkcheck replay gone -
  cilkcheck: read
  [2]
  $ cilkcheck run gone --workers 1
  cilkcheck: read
  [2]
  $ cilkcheck run gone --workers 2
  cilkcheck: read
  [2]
  $ cilkcheck run gone --workers 2 --trace -
  cilkcheck: read
  [2]
