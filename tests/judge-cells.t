Verdicts on accesses of a cell that race or not.

A trace with the lines of its program: a read beside a write.

  $ cilkcheck judge <<'END'
  > cilk 1
  > mem x
  > mem y
  > spawn 0 @5
  > write 1 x 7 @9
  > read 2 x @6
  > sync 1 @10
  > return 1 @10
  > sync 2 @7
  > return 3 @7
  > END
  1 split 1 2 3
  2 granted
  3 refused write-read 2
  4 same
  5 ended
  6 joined 3
  7 finished
  [1]

A write beside a read of another strand races with it, and not with the read of its own strand.

  $ cilkcheck judge <<'END'
  > cilk 1
  > mem x
  > spawn 0
  > read 1 x
  > read 2 x
  > write 2 x 9
  > END
  1 split 1 2 3
  2 value 0
  3 value 0
  4 refused read-write 2
  [1]

A child's write races with the read of what goes on.

  $ cilkcheck judge <<'END'
  > cilk 1
  > mem x
  > spawn 0
  > read 2 x
  > write 1 x 9
  > END
  1 split 1 2 3
  2 value 0
  3 refused read-write 2
  [1]

The child's own read, which comes later, changes nothing.

  $ cilkcheck judge <<'END'
  > cilk 1
  > mem x
  > spawn 0
  > read 2 x
  > read 1 x
  > write 1 x 9
  > END
  1 split 1 2 3
  2 value 0
  3 value 0
  4 refused read-write 2
  [1]

The write that is refused is not done: the child still reads what it wrote.

  $ cilkcheck judge <<'END'
  > cilk 1
  > mem x
  > spawn 0
  > write 1 x 5
  > write 2 x 6
  > read 1 x
  > END
  1 split 1 2 3
  2 granted
  3 refused write-write 2
  4 value 5
  [1]

Bumps do not race with each other. A read beside one does, and the read behind the join finds both.

  $ cilkcheck judge <<'END'
  > cilk 2
  > mem x
  > write 0 x 1
  > spawn 0
  > bump 1 x 2
  > bump 2 x 3
  > read 2 x
  > sync 2
  > return 1
  > read 3 x
  > END
  1 granted
  2 split 1 2 3
  3 granted
  4 granted
  5 refused bump-read 3
  6 waits
  7 ended-joined 3
  8 value 6
  [1]

A bump adds modulo 2^64.

  $ cilkcheck judge <<'END'
  > cilk 2
  > mem x
  > write 0 x 18446744073709551615
  > bump 0 x 2
  > read 0 x
  > END
  1 granted
  2 granted
  3 value 1

A write beside a bump.

  $ cilkcheck judge <<'END'
  > cilk 2
  > mem x
  > spawn 0
  > bump 1 x 2
  > write 2 x 9
  > END
  1 split 1 2 3
  2 granted
  3 refused bump-write 2
  [1]

A bump beside a write.

  $ cilkcheck judge <<'END'
  > cilk 2
  > mem x
  > spawn 0
  > write 1 x 9
  > bump 2 x 2
  > END
  1 split 1 2 3
  2 granted
  3 refused write-bump 2
  [1]

A bump beside a read.

  $ cilkcheck judge <<'END'
  > cilk 2
  > mem x
  > spawn 0
  > read 1 x
  > bump 2 x 1
  > END
  1 split 1 2 3
  2 value 0
  3 refused read-bump 2
  [1]
