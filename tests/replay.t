A program, and a run of it in which the write comes first.

  $ cat > pair.cilk <<'END'
  > cilk 1
  > mem x
  > mem y
  > func main z
  > spawn f 7
  > read r x
  > end
  > func f v
  > write x v
  > end
  > END
  $ cat > p.trace <<'END'
  > cilk 1
  > mem x
  > mem y
  > spawn 0 @5
  > write 1 x 7 @9
  > read 2 x @6
  > sync 1 @10
  > return 1 @10
  > sync 2 @7
  > return 3 @7
  > END
  $ cilkcheck replay pair.cilk p.trace
  replayed 7
  [1]

The same with a read of the other cell.

  $ cat > p.trace <<'END'
  > cilk 1
  > mem x
  > mem y
  > spawn 0 @5
  > write 1 x 7 @9
  > read 2 y @6
  > sync 1 @10
  > return 1 @10
  > sync 2 @7
  > return 3 @7
  > END
  $ cilkcheck replay pair.cilk p.trace
  strange 3
  [4]

The run without the last request.

  $ cat > p.trace <<'END'
  > cilk 1
  > mem x
  > mem y
  > spawn 0 @5
  > write 1 x 7 @9
  > read 2 x @6
  > sync 1 @10
  > return 1 @10
  > sync 2 @7
  > END
  $ cilkcheck replay pair.cilk p.trace
  unfinished
  [4]

A trace without a request.

  $ cat > p.trace <<'END'
  > cilk 1
  > mem x
  > mem y
  > END
  $ cilkcheck replay pair.cilk p.trace
  unfinished
  [4]

A program of two requests, and its run. The trace may have another version.

  $ cat > short.cilk <<'END'
  > cilk 1
  > func main z
  > end
  > END
  $ cat > p.trace <<'END'
  > cilk 2
  > sync 0 @3
  > return 0 @3
  > END
  $ cilkcheck replay short.cilk p.trace
  replayed 2

The last request has another line than the program's.

  $ cat > p.trace <<'END'
  > cilk 1
  > sync 0 @3
  > return 0 @4
  > END
  $ cilkcheck replay short.cilk p.trace
  strange 2
  [4]

A program that never ends.

  $ cat > endless.cilk <<'END'
  > cilk 1
  > func main z
  > call main 0
  > end
  > END
  $ cat > p.trace <<'END'
  > cilk 1
  > call 0 @3
  > call 0 @3
  > call 0 @3
  > call 0 @3
  > call 0 @3
  > END
  $ cilkcheck replay endless.cilk p.trace
  unfinished
  [4]

Memories and reducers are declared apart, and in any order.

  $ cat > p.cilk <<'END'
  > cilk 1
  > mem a 2
  > reducer h sum
  > func main z
  > get r h
  > end
  > END
  $ cat > p.trace <<'END'
  > cilk 1
  > reducer h sum
  > mem a 2
  > get 0 h @5
  > sync 0 @6
  > return 0 @6
  > END
  $ cilkcheck replay p.cilk p.trace
  replayed 3
  [1]

Traces whose declarations are not their program's: a cell is lacking, with a run behind,

  $ cat > p.trace <<'END'
  > cilk 1
  > mem x
  > spawn 0 @5
  > write 1 x 7 @9
  > read 2 x @6
  > sync 1 @10
  > return 1 @10
  > sync 2 @7
  > return 3 @7
  > END
  $ cilkcheck replay pair.cilk p.trace
  cilkcheck: shape
  [2]

and without one;

  $ cat > p.trace <<'END'
  > cilk 1
  > mem x
  > END
  $ cilkcheck replay pair.cilk p.trace
  cilkcheck: shape
  [2]

the cells are in another order;

  $ cat > p.trace <<'END'
  > cilk 1
  > mem y
  > mem x
  > END
  $ cilkcheck replay pair.cilk p.trace
  cilkcheck: shape
  [2]

an array of one cell is no cell;

  $ cat > p.trace <<'END'
  > cilk 1
  > mem x
  > mem y 1
  > END
  $ cilkcheck replay pair.cilk p.trace
  cilkcheck: shape
  [2]

there is a reducer more;

  $ cat > p.trace <<'END'
  > cilk 1
  > mem x
  > mem y
  > reducer h sum
  > END
  $ cilkcheck replay pair.cilk p.trace
  cilkcheck: shape
  [2]

an array has another length;

  $ cat > p.cilk <<'END'
  > cilk 1
  > mem a 2
  > func main z
  > end
  > END
  $ cat > p.trace <<'END'
  > cilk 1
  > mem a 3
  > END
  $ cilkcheck replay p.cilk p.trace
  cilkcheck: shape
  [2]

a reducer has another monoid;

  $ cat > p.cilk <<'END'
  > cilk 1
  > reducer h sum
  > func main z
  > end
  > END
  $ cat > p.trace <<'END'
  > cilk 1
  > reducer h max
  > END
  $ cilkcheck replay p.cilk p.trace
  cilkcheck: shape
  [2]

a reducer has another name.

  $ cat > p.trace <<'END'
  > cilk 1
  > reducer g sum
  > END
  $ cilkcheck replay p.cilk p.trace
  cilkcheck: shape
  [2]

Texts with faults: of two the program's is told.

  $ printf '' > p.cilk
  $ printf '' > p.trace
  $ cilkcheck replay p.cilk p.trace
  cilkcheck: program line 1: BadHeader
  [2]

A trace without a header.

  $ printf '' > p.trace
  $ cilkcheck replay pair.cilk p.trace
  cilkcheck: trace line 1: BadHeader
  [2]

A trace with a line that is no request.

  $ cat > p.trace <<'END'
  > cilk 1
  > mem x
  > mem y
  > spawn
  > END
  $ cilkcheck replay pair.cilk p.trace
  cilkcheck: trace line 4: BadWord
  [2]

Of two illegal requests the first is told.

  $ cat > p.trace <<'END'
  > cilk 1
  > mem x
  > mem y
  > spawn 0
  > return 3
  > write 9 x 7
  > END
  $ cilkcheck replay pair.cilk p.trace
  cilkcheck: illegal request 2
  [2]

A read, and a write, of a strand that has not begun.

  $ cat > p.trace <<'END'
  > cilk 1
  > mem x
  > mem y
  > read 9 x
  > END
  $ cilkcheck replay pair.cilk p.trace
  cilkcheck: illegal request 1
  [2]
  $ cat > p.trace <<'END'
  > cilk 1
  > mem x
  > mem y
  > write 9 x 7
  > END
  $ cilkcheck replay pair.cilk p.trace
  cilkcheck: illegal request 1
  [2]
