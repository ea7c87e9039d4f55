Texts that mean a program, and what it leaves.

A `bump` and a `pfor` of the second version. `main` spawns itself without an end, so the limit ends the run.

  $ cat > p.cilk <<'END'
  > cilk 2
  > mem a 2
  > func main z
  >   bump a[z] 1
  >   pfor i 3 main
  > end
  > END
  $ cilkcheck elide p.cilk --limit 10
  cilkcheck: limit
  [4]

In a text of the first version, the words of the second are names.

  $ cat > p.cilk <<'END'
  > cilk 1
  > mem bump
  > reducer digits sum
  > func main pfor
  > end
  > END
  $ cilkcheck elide p.cilk
  bump 0
  requests 2

One register that is named sixteen times beside a parameter is one.

  $ cat > p.cilk <<'END'
  > cilk 1
  > func main z
  > let r = 0
  > let r = 0
  > let r = 0
  > let r = 0
  > let r = 0
  > let r = 0
  > let r = 0
  > let r = 0
  > let r = 0
  > let r = 0
  > let r = 0
  > let r = 0
  > let r = 0
  > let r = 0
  > let r = 0
  > let r = 0
  > end
  > END
  $ cilkcheck elide p.cilk
  requests 2

The words of the second version name what there is in a text of it too, and `ok` is no register that is assigned.

  $ cat > p.cilk <<'END'
  > cilk 2
  > mem bump
  > reducer digits digits
  > func main pfor
  >   let digits = pfor
  >   bump bump digits
  >   pfor bump 2 pfor
  >   update digits bump
  > end
  > func pfor digits
  > end
  > END
  $ cilkcheck elide p.cilk
  bump 0
  requests 11

  $ cat > p.cilk <<'END'
  > cilk 2
  > mem pfor 2
  > reducer bump digits
  > func main z
  >   read bump pfor[1]
  >   bump pfor[bump] bump
  > end
  > END
  $ cilkcheck elide p.cilk
  pfor[0] 0
  pfor[1] 0
  requests 4

Declarations and names at their limits: a name has 32 bytes at most, whatever it names.

  $ cat > p.cilk <<'END'
  > cilk 1
  > mem a 1000000
  > func main z
  > end
  > END
  $ cilkcheck elide p.cilk | tail -n 2
  a[999999] 0
  requests 2

  $ cat > p.cilk <<'END'
  > cilk 1
  > mem a 999999
  > mem x
  > func main z
  > end
  > END
  $ cilkcheck elide p.cilk | tail -n 3
  a[999998] 0
  x 0
  requests 2

  $ cat > p.cilk <<'END'
  > cilk 1
  > mem a2345678901234567890123456789012
  > reducer b2345678901234567890123456789012 sum
  > func main c2345678901234567890123456789012
  > let d2345678901234567890123456789012 = 0
  > end
  > func e2345678901234567890123456789012 z
  > end
  > END
  $ cilkcheck elide p.cilk
  a2345678901234567890123456789012 0
  requests 2
