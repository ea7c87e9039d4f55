Verdicts on traces: control, values, limits and faults of texts.

A text with no request has no verdict.

  $ cilkcheck judge <<'END'
  > cilk 1
  > mem x
  > END

A read finds what was written.

  $ cilkcheck judge <<'END'
  > cilk 1
  > mem x
  > write 0 x 5
  > read 0 x
  > END
  1 granted
  2 value 5

A spawn begins a child and what goes on, a cell holds 0 at first, and two reads do not race.

  $ cilkcheck judge <<'END'
  > cilk 1
  > mem x
  > spawn 0
  > read 1 x
  > read 2 x
  > END
  1 split 1 2 3
  2 value 0
  3 value 0

A sync waits for the child, whose return begins the join.

  $ cilkcheck judge <<'END'
  > cilk 1
  > mem x
  > spawn 0
  > read 1 x
  > sync 2
  > return 1
  > write 3 x 4
  > END
  1 split 1 2 3
  2 value 0
  3 waits
  4 ended-joined 3
  5 granted

A sync without an open block goes on as the same strand. Behind the return of the root function no strand runs.

  $ cilkcheck judge <<'END'
  > cilk 1
  > mem x
  > sync 0
  > return 0
  > read 0 x
  > END
  1 same
  2 finished
  illegal not-running
  [2]

A called function has blocks of its own, and its return resumes the caller.

  $ cilkcheck judge <<'END'
  > cilk 1
  > mem x
  > spawn 0
  > call 2
  > spawn 2
  > return 4
  > sync 5
  > return 6
  > sync 6
  > return 1
  > END
  1 split 1 2 3
  2 same
  3 split 4 5 6
  4 ended
  5 joined 6
  6 resumed
  7 waits
  8 ended-joined 3

A function with an open block can't return. The requests behind are judged.

  $ cilkcheck judge <<'END'
  > cilk 1
  > mem x
  > spawn 0
  > return 2
  > read 2 x
  > END
  1 split 1 2 3
  illegal unsynced
  2 value 0
  [2]

No strand with the greatest number runs.

  $ cilkcheck judge <<'END'
  > cilk 1
  > mem x
  > read 4294967295 x
  > END
  illegal not-running
  [2]

The limit is the number of entries: the request past it is not judged.

  $ cilkcheck judge --limit 3 <<'END'
  > cilk 1
  > mem x
  > write 0 x 1
  > write 0 x 2
  > write 0 x 3
  > write 0 x 4
  > END
  1 granted
  2 granted
  3 granted
  illegal limit
  [4]

With limit 0 no request is judged, whatever strand it is of.

  $ cilkcheck judge --limit 0 <<'END'
  > cilk 1
  > mem x
  > return 5
  > END
  illegal limit
  [4]

A text without a header.

  $ printf '' | cilkcheck judge
  cilkcheck: trace line 1: BadHeader
  [2]

A name that is declared twice.

  $ cilkcheck judge <<'END'
  > cilk 1
  > mem x
  > mem x
  > END
  cilkcheck: trace line 3: TwiceNamed
  [2]

An index that is not below the length of its array.

  $ cilkcheck judge <<'END'
  > cilk 1
  > mem a 2
  > read 0 a[2]
  > END
  cilkcheck: trace line 3: BadNumber
  [2]

A loop of 10,000 spawns, with a write behind each hundredth. The children, which end, are strands 1, 4, 6, and so on. The one with an
even number comes from the strand before it, and the one behind it goes on. There are two verdict lines for each spawn, for it and for the
child's end, and one for each write.

  $ cat > loop.py <<'END'
  > trace = open("loop.trace", "w")
  > verdicts = open("loop.verdicts", "w")
  > print("cilk 1\nmem x\nspawn 0\nreturn 1\nspawn 2\nreturn 4", file=trace)
  > print("1 split 1 2 3\n2 ended\n3 split 4 5 3\n4 ended", file=verdicts)
  > for k in range(3, 10001):
  >     print(f"spawn {2 * k - 1}\nreturn {2 * k}", file=trace)
  >     end = 2 * k + (k - 1) // 100
  >     print(f"{end - 1} split {2 * k} {2 * k + 1} 3\n{end} ended", file=verdicts)
  >     if k % 100 == 0:
  >         print(f"write {2 * k + 1} x {k}", file=trace)
  >         print(f"{end + 1} granted", file=verdicts)
  > print("sync 20001\nreturn 3", file=trace)
  > print("20101 joined 3\n20102 finished", file=verdicts)
  > END
  $ python3 loop.py
  $ cilkcheck judge loop.trace > found
  $ cmp found loop.verdicts
