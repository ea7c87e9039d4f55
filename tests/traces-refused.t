Texts that mean no trace: the first faulty line, and the cause.

The first line.

  $ printf '' | cilkcheck judge
  cilkcheck: trace line 1: BadHeader
  [2]
  $ printf 'cilk 3\n' | cilkcheck judge
  cilkcheck: trace line 1: BadHeader
  [2]
  $ printf 'cilk 01\n' | cilkcheck judge
  cilkcheck: trace line 1: BadHeader
  [2]
  $ printf '\ncilk 1\n' | cilkcheck judge
  cilkcheck: trace line 1: BadHeader
  [2]
  $ printf 'cilk 1 1\n' | cilkcheck judge
  cilkcheck: trace line 1: BadHeader
  [2]
  $ printf 'cilk \377\n' | cilkcheck judge
  cilkcheck: trace line 1: NotText
  [2]
  $ printf 'cilk 1\nmem x\nbump 0 x 1\n' | cilkcheck judge
  cilkcheck: trace line 3: BadWord
  [2]
  $ printf 'cilk 1\nreducer h digits\n' | cilkcheck judge
  cilkcheck: trace line 2: BadWord
  [2]
  $ printf 'cilk 2\nreducer h product\n' | cilkcheck judge
  cilkcheck: trace line 2: BadWord
  [2]
  $ printf 'cilk 1\nmem a 0\n' | cilkcheck judge
  cilkcheck: trace line 2: BadNumber
  [2]
  $ printf 'cilk 1\nmem a 1000001\n' | cilkcheck judge
  cilkcheck: trace line 2: BadNumber
  [2]
  $ printf 'cilk 1\nmem a 1000000\nmem b\n' | cilkcheck judge
  cilkcheck: trace line 3: TooMany
  [2]
  $ printf 'cilk 1\nmem a23456789012345678901234567890123\n' | cilkcheck judge
  cilkcheck: trace line 2: BadWord
  [2]

Bytes and words.

  $ printf 'cilk 1\n\377\n' | cilkcheck judge
  cilkcheck: trace line 2: NotText
  [2]
  $ printf 'cilk 1\nmem x # \177\n' | cilkcheck judge
  cilkcheck: trace line 2: NotText
  [2]
  $ printf 'cilk 1\nmem x\rmem y\n' | cilkcheck judge
  cilkcheck: trace line 2: NotText
  [2]
  $ printf 'cilk 1\nmem x\r\r\n' | cilkcheck judge
  cilkcheck: trace line 2: NotText
  [2]
  $ printf 'cilk 1\nmem x\njump 0\n' | cilkcheck judge
  cilkcheck: trace line 3: BadWord
  [2]
  $ printf 'cilk 1\nmem x\nread 0\n' | cilkcheck judge
  cilkcheck: trace line 3: BadWord
  [2]
  $ printf 'cilk 1\nmem x\nread 0 @0\n' | cilkcheck judge
  cilkcheck: trace line 3: BadWord
  [2]
  $ printf 'cilk 1\nsync 0 0\n' | cilkcheck judge
  cilkcheck: trace line 2: BadWord
  [2]
  $ printf 'cilk 1\nmem 5\n' | cilkcheck judge
  cilkcheck: trace line 2: BadWord
  [2]
  $ printf 'cilk 1\nmem X\n' | cilkcheck judge
  cilkcheck: trace line 2: BadWord
  [2]
  $ printf 'cilk 1\nmem x\nread 0 x @1 @2\n' | cilkcheck judge
  cilkcheck: trace line 3: BadWord
  [2]
  $ printf 'cilk 1\nmem a 2\nread 0 a[2\n' | cilkcheck judge
  cilkcheck: trace line 3: BadWord
  [2]

Numbers.

  $ printf 'cilk 1\nmem a 2\nread 0 a[1][1]\n' | cilkcheck judge
  cilkcheck: trace line 3: BadNumber
  [2]
  $ printf 'cilk 1\nmem a 2\nread 0 a[5x]\n' | cilkcheck judge
  cilkcheck: trace line 3: BadNumber
  [2]
  $ printf 'cilk 1\nmem a 2\nread 0 a[2]\n' | cilkcheck judge
  cilkcheck: trace line 3: BadNumber
  [2]
  $ printf 'cilk 1\nmem x\nread 4294967296 x\n' | cilkcheck judge
  cilkcheck: trace line 3: BadNumber
  [2]
  $ printf 'cilk 1\nmem x\nwrite 0 x 18446744073709551616\n' | cilkcheck judge
  cilkcheck: trace line 3: BadNumber
  [2]
  $ printf 'cilk 1\nmem x\nread 0 x @0\n' | cilkcheck judge
  cilkcheck: trace line 3: BadNumber
  [2]
  $ printf 'cilk 1\nmem x\nread 0 x @4294967296\n' | cilkcheck judge
  cilkcheck: trace line 3: BadNumber
  [2]

Names, and the order of lines.

  $ printf 'cilk 1\nmem x\nread 0 y\n' | cilkcheck judge
  cilkcheck: trace line 3: UnknownName
  [2]
  $ printf 'cilk 1\nmem x\nread 0 x[0]\n' | cilkcheck judge
  cilkcheck: trace line 3: UnknownName
  [2]
  $ printf 'cilk 1\nmem a 1\nread 0 a\n' | cilkcheck judge
  cilkcheck: trace line 3: UnknownName
  [2]
  $ printf 'cilk 1\nmem x\nget 0 x\n' | cilkcheck judge
  cilkcheck: trace line 3: UnknownName
  [2]
  $ printf 'cilk 1\nreducer h sum\nread 0 h\n' | cilkcheck judge
  cilkcheck: trace line 3: UnknownName
  [2]
  $ printf 'cilk 1\nread 0 x\nmem x\n' | cilkcheck judge
  cilkcheck: trace line 2: UnknownName
  [2]
  $ printf 'cilk 1\nmem x\nmem x\n' | cilkcheck judge
  cilkcheck: trace line 3: TwiceNamed
  [2]
  $ printf 'cilk 1\nmem x\nreducer x sum\n' | cilkcheck judge
  cilkcheck: trace line 3: TwiceNamed
  [2]
  $ printf 'cilk 1\nreducer x sum\nmem x\n' | cilkcheck judge
  cilkcheck: trace line 3: TwiceNamed
  [2]
  $ printf 'cilk 1\nmem x\nmem x 0\n' | cilkcheck judge
  cilkcheck: trace line 3: BadNumber
  [2]
  $ printf 'cilk 1\nmem x\nsync 0\nmem x\n' | cilkcheck judge
  cilkcheck: trace line 4: TwiceNamed
  [2]
  $ printf 'cilk 1\nmem x\nsync 0\nmem y\n' | cilkcheck judge
  cilkcheck: trace line 4: BadNesting
  [2]
  $ printf 'cilk 1\nsync 0\nreducer h min\n' | cilkcheck judge
  cilkcheck: trace line 3: BadNesting
  [2]
  $ printf 'cilk 1\nread 0 one\n' | cilkcheck judge
  cilkcheck: trace line 2: UnknownName
  [2]
  $ printf 'cilk 1\nmem one\nread 0 on\n' | cilkcheck judge
  cilkcheck: trace line 3: UnknownName
  [2]
  $ printf 'cilk 1\nmem one\nread 0 ones\n' | cilkcheck judge
  cilkcheck: trace line 3: UnknownName
  [2]
  $ printf 'cilk 1\nmem xaa\nread 0 yaa\n' | cilkcheck judge
  cilkcheck: trace line 3: UnknownName
  [2]
  $ printf 'cilk 1\nmem one\nread 0 \303\n' | cilkcheck judge
  cilkcheck: trace line 3: NotText
  [2]

Lines that are nearly plain.

  $ printf 'cilk 1\nmem x\nread 0 x\nread0 x\n' | cilkcheck judge
  cilkcheck: trace line 4: BadWord
  [2]
  $ printf 'cilk 1\nmem x\nread 0 x\nreads 0 x\n' | cilkcheck judge
  cilkcheck: trace line 4: BadWord
  [2]
  $ printf 'cilk 1\nmem x\nread 0 x\nread 0 x@1\n' | cilkcheck judge
  cilkcheck: trace line 4: BadWord
  [2]
  $ printf 'cilk 1\nmem x\nread 0 x\nread 0 x 1\n' | cilkcheck judge
  cilkcheck: trace line 4: BadWord
  [2]
  $ printf 'cilk 1\nmem x\nread 0 x\nread 0 x @\n' | cilkcheck judge
  cilkcheck: trace line 4: BadNumber
  [2]
  $ printf 'cilk 1\nmem x\nread 0 x\nread 0 x @1x\n' | cilkcheck judge
  cilkcheck: trace line 4: BadNumber
  [2]
  $ printf 'cilk 1\nmem x\nread 0 x\nread 0x x\n' | cilkcheck judge
  cilkcheck: trace line 4: BadNumber
  [2]
  $ printf 'cilk 1\nmem x\nread 0 x\nread 0 xx\n' | cilkcheck judge
  cilkcheck: trace line 4: UnknownName
  [2]
  $ printf 'cilk 1\nmem xx\nread 0 xx\nread 0 x\n' | cilkcheck judge
  cilkcheck: trace line 4: UnknownName
  [2]
  $ printf 'cilk 1\nmem a 2\nread 0 a[1]\nread 0 a[1]]\n' | cilkcheck judge
  cilkcheck: trace line 4: BadNumber
  [2]
  $ printf 'cilk 1\nmem a 2\nread 0 a[1]\nread 0 a[]\n' | cilkcheck judge
  cilkcheck: trace line 4: BadWord
  [2]
  $ printf 'cilk 1\nmem x\nwrite 0 x 5\nwrite 0 x 99999999999999999999\n' | cilkcheck judge
  cilkcheck: trace line 4: BadNumber
  [2]
  $ printf 'cilk 1\nreducer h sum\nget 0 h\nget 0 h\013\n' | cilkcheck judge
  cilkcheck: trace line 4: NotText
  [2]
