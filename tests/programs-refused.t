Texts that mean no program: the first faulty line, and the cause.

Each cause.

  $ printf '' | cilkcheck elide -
  cilkcheck: program line 1: BadHeader
  [2]
  $ printf 'cilk 1\nmem x # \001\n' | cilkcheck elide -
  cilkcheck: program line 2: NotText
  [2]
  $ printf 'cilk 1\nmem\n' | cilkcheck elide -
  cilkcheck: program line 2: BadWord
  [2]
  $ printf 'cilk 1\nmem a 0\n' | cilkcheck elide -
  cilkcheck: program line 2: BadNumber
  [2]
  $ printf 'cilk 1\nfunc main z\n  write x z\nend\n' | cilkcheck elide -
  cilkcheck: program line 3: UnknownName
  [2]
  $ printf 'cilk 1\nmem g\nfunc g z\nend\n' | cilkcheck elide -
  cilkcheck: program line 3: TwiceNamed
  [2]
  $ printf 'cilk 1\nfunc main z\n  else\nend\n' | cilkcheck elide -
  cilkcheck: program line 3: BadNesting
  [2]
  $ printf 'cilk 1\nfunc f z\nend\n' | cilkcheck elide -
  cilkcheck: program line 4: NoMain
  [2]
  $ printf 'cilk 1\nfunc main z\nend\nmem x\n' | cilkcheck elide -
  cilkcheck: program line 4: BadNesting
  [2]
  $ printf 'cilk 1\nfunc main z\n  func f z\n' | cilkcheck elide -
  cilkcheck: program line 3: BadNesting
  [2]
  $ printf 'cilk 1\nfunc f z\n' | cilkcheck elide -
  cilkcheck: program line 3: BadNesting
  [2]
  $ printf 'cilk 1\nsync\n' | cilkcheck elide -
  cilkcheck: program line 2: BadNesting
  [2]

The first faulty line is told.

  $ printf 'cilk 1\nmem x\nmem x\n' | cilkcheck elide -
  cilkcheck: program line 3: TwiceNamed
  [2]
  $ printf 'cilk 1\nmem x\n' | cilkcheck elide -
  cilkcheck: program line 3: NoMain
  [2]
  $ printf 'cilk 1\nfunc main z\nsync\n' | cilkcheck elide -
  cilkcheck: program line 4: BadNesting
  [2]
  $ printf 'cilk 1\n\377\n' | cilkcheck elide -
  cilkcheck: program line 2: NotText
  [2]
  $ printf 'cilk 1\nfunc main z\nfoo\nend\n' | cilkcheck elide -
  cilkcheck: program line 3: BadWord
  [2]
  $ printf 'cilk 1\nfunc main z\nspawn g 1\nend\n' | cilkcheck elide -
  cilkcheck: program line 3: UnknownName
  [2]
  $ printf 'cilk 1\nmem a 2\nfunc main z\n  bump a[z] 1\n  pfor i 3 main\nend\n' | cilkcheck elide -
  cilkcheck: program line 4: BadWord
  [2]
  $ printf 'cilk 1\nfunc main z\n  pfor i 3 main\nend\n' | cilkcheck elide -
  cilkcheck: program line 3: BadWord
  [2]
  $ printf 'cilk 1\nreducer h digits\n' | cilkcheck elide -
  cilkcheck: program line 2: BadWord
  [2]

The words of the second version name what there is in a text of it too, and `ok` is no register that is assigned.

  $ printf 'cilk 2\nmem bump\nmem bump\n' | cilkcheck elide -
  cilkcheck: program line 3: TwiceNamed
  [2]
  $ printf 'cilk 2\nmem pfor\nfunc main z\nend\nfunc pfor z\nend\n' | cilkcheck elide -
  cilkcheck: program line 5: TwiceNamed
  [2]
  $ printf 'cilk 2\nfunc main z\n  pfor ok 3 main\nend\n' | cilkcheck elide -
  cilkcheck: program line 3: BadWord
  [2]
  $ printf 'cilk 2\nmem x\nfunc main z\n  read ok x\nend\n' | cilkcheck elide -
  cilkcheck: program line 4: BadWord
  [2]
  $ printf 'cilk 2\nreducer h sum\nfunc main z\n  get ok h\nend\n' | cilkcheck elide -
  cilkcheck: program line 4: BadWord
  [2]
  $ printf 'cilk 1\nmem x\nfunc main z\n  read ok x\nend\n' | cilkcheck elide -
  cilkcheck: program line 4: BadWord
  [2]
  $ printf 'cilk 1\nreducer h sum\nfunc main z\n  get ok h\nend\n' | cilkcheck elide -
  cilkcheck: program line 4: BadWord
  [2]

What stands in one another.

  $ printf 'cilk 1\nend\n' | cilkcheck elide -
  cilkcheck: program line 2: BadNesting
  [2]
  $ printf 'cilk 1\nif ok\n' | cilkcheck elide -
  cilkcheck: program line 2: BadNesting
  [2]
  $ printf 'cilk 1\nif r\n' | cilkcheck elide -
  cilkcheck: program line 2: UnknownName
  [2]
  $ printf 'cilk 1\nfunc main z\nif z\nelse\nelse\nend\nend\n' | cilkcheck elide -
  cilkcheck: program line 5: BadNesting
  [2]
  $ printf 'cilk 1\nfunc main z\nif z\nend\nelse\nend\n' | cilkcheck elide -
  cilkcheck: program line 5: BadNesting
  [2]
  $ printf 'cilk 1\nfunc main z\nif z\nend\n' | cilkcheck elide -
  cilkcheck: program line 5: BadNesting
  [2]
  $ printf 'cilk 1\nfunc main z\nend\nend\n' | cilkcheck elide -
  cilkcheck: program line 4: BadNesting
  [2]
  $ printf 'cilk 1\nfunc main z\nfunc main n\n' | cilkcheck elide -
  cilkcheck: program line 3: TwiceNamed
  [2]
  $ printf 'cilk 1\nfunc main z\nend\nfunc main z\nend\n' | cilkcheck elide -
  cilkcheck: program line 4: TwiceNamed
  [2]
  $ printf 'cilk 1\nfunc main z\n  call g z\nend\nfunc g z # \377\n' | cilkcheck elide -
  cilkcheck: program line 5: NotText
  [2]
  $ printf 'cilk 1\nfunc main z\n  call g z\nend\nfunc g z 1\n' | cilkcheck elide -
  cilkcheck: program line 3: UnknownName
  [2]

Declarations and names at their limits: a name has 32 bytes at most, whatever it names.

  $ printf 'cilk 1\nmem a 1000000\nmem x\nfunc main z\nend\n' | cilkcheck elide -
  cilkcheck: program line 3: TooMany
  [2]
  $ printf 'cilk 1\nmem a23456789012345678901234567890123\n' | cilkcheck elide -
  cilkcheck: program line 2: BadWord
  [2]
  $ printf 'cilk 1\nreducer b23456789012345678901234567890123 sum\n' | cilkcheck elide -
  cilkcheck: program line 2: BadWord
  [2]
  $ printf 'cilk 1\nfunc main c23456789012345678901234567890123\nend\n' | cilkcheck elide -
  cilkcheck: program line 2: BadWord
  [2]
  $ printf 'cilk 1\nfunc main z\nlet d23456789012345678901234567890123 = 0\nend\n' | cilkcheck elide -
  cilkcheck: program line 3: BadWord
  [2]
  $ printf 'cilk 1\nfunc main z\nend\nfunc e23456789012345678901234567890123 z\nend\n' | cilkcheck elide -
  cilkcheck: program line 4: BadWord
  [2]

Each shorter text than all lines of a program, but for the last line's end, is none of a program:

  $ cat > p.cilk <<'END'
  > cilk 1
  > mem x
  > reducer h sum
  > func main z
  >   put h 0
  >   call fib 10
  >   get r h
  >   write x r
  > end
  > func fib n
  >   let t = n < 2
  >   if t
  >     update h n
  >   else
  >     let a = n - 1
  >     let b = n - 2
  >     spawn fib a
  >     call fib b
  >     sync
  >   end
  > end
  > END
  $ for size in $(seq 0 231); do head -c $size p.cilk | cilkcheck elide - > told 2>&1; [ $? = 2 ] || echo $size; done
  230
  231
