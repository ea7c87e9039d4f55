Programs and their elisions, or why there is none.

The tenth Fibonacci number, summed by a reducer in 713 requests.

  $ cat > fib.cilk <<'END'
  > cilk 1
  > mem x
  > reducer h sum
  > func main z
  > put h 0
  > call fib 10
  > get r h
  > write x r
  > end
  > func fib n
  > let t = n < 2
  > if t
  > update h n
  > else
  > let a = n - 1
  > let b = n - 2
  > spawn fib a
  > call fib b
  > sync
  > end
  > end
  > END
  $ cilkcheck elide fib.cilk
  x 55
  requests 713

713 requests are within a limit of 713.

  $ cilkcheck elide fib.cilk --limit 713
  x 55
  requests 713

A function that spawns another, which writes a cell that it reads.

  $ cat > pair.cilk <<'END'
  > cilk 1
  > mem x
  > mem y
  > func main z
  > spawn f 7
  > read r x
  > end
  > func f v
  > write x v
  > end
  > END
  $ cilkcheck elide pair.cilk
  x 7
  y 0
  requests 7

The same, where the read waits for the write.

  $ cat > series.cilk <<'END'
  > cilk 1
  > mem x
  > mem y
  > func main z
  > spawn f 7
  > sync
  > read r x
  > write y r
  > end
  > func f v
  > write x v
  > end
  > END
  $ cilkcheck elide series.cilk
  x 7
  y 7
  requests 9

Updates by a child and by its spawner, of which the spawner's is the last.

  $ cat > lasts.cilk <<'END'
  > cilk 1
  > mem x
  > reducer h last
  > func main z
  > put h 0
  > spawn f 2
  > update h 3
  > sync
  > get r h
  > write x r
  > end
  > func f v
  > update h v
  > end
  > END
  $ cilkcheck elide lasts.cilk
  x 3
  requests 11

Four numbers, each written by a strand of its own.

  $ cat > turns.cilk <<'END'
  > cilk 2
  > mem a 4
  > func main z
  > pfor i 4 f
  > end
  > func f n
  > write a[n] n
  > end
  > END
  $ cilkcheck elide turns.cilk
  a[0] 0
  a[1] 1
  a[2] 2
  a[3] 3
  requests 19

The same loop without a turn.

  $ cat > no-turns.cilk <<'END'
  > cilk 2
  > mem a 4
  > func main z
  > pfor i 0 f
  > end
  > func f n
  > write a[n] n
  > end
  > END
  $ cilkcheck elide no-turns.cilk
  a[0] 0
  a[1] 0
  a[2] 0
  a[3] 0
  requests 3

Cells and arrays are told in the order of their declarations.

  $ cat > p.cilk <<'END'
  > cilk 1
  > mem x
  > mem a 2
  > mem y
  > func main z
  > write a[1] 5
  > write y 6
  > end
  > END
  $ cilkcheck elide p.cilk
  x 0
  a[0] 0
  a[1] 5
  y 6
  requests 4

A program of two requests, within a limit of two.

  $ cat > p.cilk <<'END'
  > cilk 1
  > func main z
  > end
  > END
  $ cilkcheck elide p.cilk --limit 2
  requests 2

A name of 32 bytes, and the greatest number.

  $ cat > p.cilk <<'END'
  > cilk 1
  > mem abcdefghijklmnopqrstuvwxyz_12345 2
  > func main z
  > write abcdefghijklmnopqrstuvwxyz_12345[1] 18446744073709551615
  > end
  > END
  $ cilkcheck elide p.cilk
  abcdefghijklmnopqrstuvwxyz_12345[0] 0
  abcdefghijklmnopqrstuvwxyz_12345[1] 18446744073709551615
  requests 3

A limit of fewer requests than the program makes.

  $ cilkcheck elide fib.cilk --limit 0
  cilkcheck: limit
  [4]
  $ cilkcheck elide fib.cilk --limit 1
  cilkcheck: limit
  [4]
  $ cilkcheck elide fib.cilk --limit 100
  cilkcheck: limit
  [4]
  $ cilkcheck elide fib.cilk --limit 712
  cilkcheck: limit
  [4]

A program that never ends passes each limit, also the greatest.

  $ cat > endless.cilk <<'END'
  > cilk 1
  > func main z
  > call main 0
  > end
  > END
  $ cilkcheck elide endless.cilk --limit 5
  cilkcheck: limit
  [4]
  $ cilkcheck elide endless.cilk
  cilkcheck: limit
  [4]

Texts that are no programs: one without a header, an array without a cell, a function that has not ended, and a function that
nobody declares.

  $ printf '' > p.cilk
  $ cilkcheck elide p.cilk
  cilkcheck: program line 1: BadHeader
  [2]
  $ cat > p.cilk <<'END'
  > cilk 1
  > mem a 0
  > END
  $ cilkcheck elide p.cilk
  cilkcheck: program line 2: BadNumber
  [2]
  $ cat > p.cilk <<'END'
  > cilk 1
  > func main z
  > sync
  > END
  $ cilkcheck elide p.cilk
  cilkcheck: program line 4: BadNesting
  [2]
  $ cat > p.cilk <<'END'
  > cilk 1
  > func main z
  > spawn g 1
  > end
  > END
  $ cilkcheck elide p.cilk
  cilkcheck: program line 3: UnknownName
  [2]

Programs, and what they leave by their definitions: each cell, and how many requests there are.

The tenth number of Fibonacci, by a reducer, and the limit on the requests.

  $ cat > p.cilk <<'END'
  > cilk 1
  > mem x
  > reducer h sum
  > func main z
  >   put h 0
  >   call fib 10
  >   get r h
  >   write x r
  > end
  > func fib n
  >   let t = n < 2
  >   if t
  >     update h n
  >   else
  >     let a = n - 1
  >     let b = n - 2
  >     spawn fib a
  >     call fib b
  >     sync
  >   end
  > end
  > END
  $ cilkcheck elide p.cilk
  x 55
  requests 713
  $ cilkcheck elide p.cilk --limit 713
  x 55
  requests 713
  $ cilkcheck elide p.cilk --limit 712
  cilkcheck: limit
  [4]
  $ cilkcheck elide p.cilk --limit 0
  cilkcheck: limit
  [4]

A spawn is a call.

  $ cat > p.cilk <<'END'
  > cilk 1
  > mem x
  > mem y
  > func main z
  >   spawn f 7
  >   read r x
  > end
  > func f v
  >   write x v
  > end
  > END
  $ cilkcheck elide p.cilk --limit 100
  x 7
  y 0
  requests 7
  $ cat > p.cilk <<'END'
  > cilk 1
  > mem x
  > mem y
  > func main z
  > spawn f 7
  > sync
  > read r x
  > write y r
  > end
  > func f v
  > write x v
  > end
  > END
  $ cilkcheck elide p.cilk --limit 100
  x 7
  y 7
  requests 9

Reducers are updated in serial order, and a get of no number is zero.

  $ cat > p.cilk <<'END'
  > cilk 1
  > mem x
  > reducer h last
  > func main z
  > put h 0
  > spawn f 2
  > update h 3
  > sync
  > get r h
  > write x r
  > end
  > func f v
  > update h v
  > end
  > END
  $ cilkcheck elide p.cilk --limit 100
  x 3
  requests 11
  $ cat > p.cilk <<'END'
  > cilk 2
  > mem x
  > reducer h digits
  > func main z
  > put h 0
  > spawn f 1
  > update h 2
  > sync
  > get r h
  > write x r
  > end
  > func f v
  > update h v
  > end
  > END
  $ cilkcheck elide p.cilk --limit 100
  x 33
  requests 11
  $ cat > p.cilk <<'END'
  > cilk 1
  > mem x
  > reducer h last
  > func main z
  > write x 5
  > get r h
  > write x r
  > end
  > END
  $ cilkcheck elide p.cilk --limit 100
  x 0
  requests 5

A `pfor` has as many turns as its number says.

  $ cat > p.cilk <<'END'
  > cilk 2
  > mem a 4
  > func main z
  >   pfor i 4 f
  > end
  > func f n
  >   write a[n] n
  > end
  > END
  $ cilkcheck elide p.cilk --limit 100
  a[0] 0
  a[1] 1
  a[2] 2
  a[3] 3
  requests 19
  $ cat > p.cilk <<'END'
  > cilk 2
  > mem a 4
  > mem x
  > func main z
  >   let i = 9
  >   pfor i 0 f
  >   write x i
  > end
  > func f n
  >   write a[n] n
  > end
  > END
  $ cilkcheck elide p.cilk --limit 100
  a[0] 0
  a[1] 0
  a[2] 0
  a[3] 0
  x 9
  requests 4
  $ cat > p.cilk <<'END'
  > cilk 2
  > mem x
  > mem y
  > func main z
  >   let k = 3
  >   pfor k k f
  >   write y k
  > end
  > func f n
  >   bump x n
  > end
  > END
  $ cilkcheck elide p.cilk --limit 100
  x 3
  y 2
  requests 16

Recursion meets the limit.

  $ cat > p.cilk <<'END'
  > cilk 1
  > func main z
  > call main 0
  > end
  > END
  $ cilkcheck elide p.cilk --limit 5
  cilkcheck: limit
  [4]
  $ cilkcheck elide p.cilk --limit 100000
  cilkcheck: limit
  [4]

Numbers are of 64 bits, and `ok` is one.

  $ cat > p.cilk <<'END'
  > cilk 1
  > mem a 6
  > func main z
  > let m = 0 - 1
  > write a[0] m
  > let r = m + 2
  > write a[1] r
  > let r = m * 2
  > write a[2] r
  > let r = m < 0
  > write a[3] r
  > let r = 0 < m
  > write a[4] r
  > write a[5] ok
  > end
  > END
  $ cilkcheck elide p.cilk --limit 100
  a[0] 18446744073709551615
  a[1] 1
  a[2] 18446744073709551614
  a[3] 0
  a[4] 1
  a[5] 1
  requests 8

An index is taken modulo the length.

  $ cat > p.cilk <<'END'
  > cilk 1
  > mem x
  > mem a 3
  > func main z
  > let m = 0 - 2
  > write a[7] 5
  > write a[m] 6
  > read r a[4]
  > write x r
  > end
  > END
  $ cilkcheck elide p.cilk --limit 100
  x 5
  a[0] 0
  a[1] 5
  a[2] 6
  requests 6

A called function has its own registers.

  $ cat > p.cilk <<'END'
  > cilk 1
  > mem x
  > mem y
  > func main z
  > let r = 5
  > call f 1
  > write x r
  > end
  > func f n
  > let r = n + 8
  > write y r
  > end
  > END
  $ cilkcheck elide p.cilk --limit 100
  x 5
  y 9
  requests 7

Either part of an `if` is done.

  $ cat > p.cilk <<'END'
  > cilk 1
  > mem x
  > mem y
  > func main z
  > if ok
  > if z
  > write x 1
  > else
  > write x 2
  > end
  > else
  > write x 3
  > end
  > if z
  > write y 4
  > end
  > end
  > END
  $ cilkcheck elide p.cilk --limit 100
  x 2
  y 0
  requests 3
