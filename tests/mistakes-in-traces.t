Mistakes that are easily made in traces, and the whole message about each.

`judge` tells the line of the fault and its cause, and `explain` the whole message.

A misspelled request.

  $ cat > p.cilk <<'END'
  > cilk 1
  > mem x
  > wirte 0 x 1
  > END
  $ cilkcheck judge p.cilk
  cilkcheck: trace line 3: BadWord
  [2]
  $ cilkcheck explain p.cilk
  error: no line of a trace begins with this word
   --> p.cilk:3
    |
  3 | wirte 0 x 1
    | ^^^^^
    = help: did you mean `write`?
  [2]

A program in place of a trace.

  $ cat > p.cilk <<'END'
  > cilk 1
  > mem x
  > let r = 1
  > END
  $ cilkcheck judge p.cilk
  cilkcheck: trace line 3: BadWord
  [2]
  $ cilkcheck explain p.cilk
  error: a statement of a program stands in a trace
   --> p.cilk:3
    |
  3 | let r = 1
    | ^^^
    = help: run a program by `cilkcheck run FILE`; behind its declarations it begins with `func`
  [2]

A misspelled `func` at the head of a program.

  $ cat > p.cilk <<'END'
  > cilk 1
  > fucn main z
  > end
  > END
  $ cilkcheck judge p.cilk
  cilkcheck: trace line 2: BadWord
  [2]
  $ cilkcheck explain p.cilk
  error: no line of a trace begins with this word
   --> p.cilk:2
    |
  2 | fucn main z
    | ^^^^
    = help: did you mean `func`, as in a program?
  [2]

A request without its strand.

  $ cat > p.cilk <<'END'
  > cilk 1
  > sync
  > END
  $ cilkcheck judge p.cilk
  cilkcheck: trace line 2: BadWord
  [2]
  $ cilkcheck explain p.cilk
  error: a statement of a program stands in a trace
   --> p.cilk:2
    |
  2 | sync
    | ^^^^
    = the form of this line in a trace is `sync STRAND`
    = help: run a program by `cilkcheck run FILE`; behind its declarations it begins with `func`
  [2]

A request without its value.

  $ cat > p.cilk <<'END'
  > cilk 1
  > mem x
  > write 0 x
  > END
  $ cilkcheck judge p.cilk
  cilkcheck: trace line 3: BadWord
  [2]
  $ cilkcheck explain p.cilk
  error: a word is missing
   --> p.cilk:3
    |
  3 | write 0 x
    | ^^^^^^^^^
    = help: the form of this line is `write STRAND CELL VALUE`
  [2]

A word in place of a value.

  $ cat > p.cilk <<'END'
  > cilk 1
  > mem x
  > write 0 x seven
  > END
  $ cilkcheck judge p.cilk
  cilkcheck: trace line 3: BadWord
  [2]
  $ cilkcheck explain p.cilk
  error: a number is wanted here
   --> p.cilk:3
    |
  3 | write 0 x seven
    |           ^^^^^
    = help: write a number from 0 to 18446744073709551615
    = help: the form of this line is `write STRAND CELL VALUE`
  [2]

A negative value.

  $ cat > p.cilk <<'END'
  > cilk 1
  > mem x
  > write 0 x -1
  > END
  $ cilkcheck judge p.cilk
  cilkcheck: trace line 3: BadWord
  [2]
  $ cilkcheck explain p.cilk
  error: there are no negative numbers
   --> p.cilk:3
    |
  3 | write 0 x -1
    |           ^^
    = help: write a number from 0 to 18446744073709551615
  [2]

A register as an index of a trace.

  $ cat > p.cilk <<'END'
  > cilk 1
  > mem a 4
  > read 0 a[i]
  > END
  $ cilkcheck judge p.cilk
  cilkcheck: trace line 3: BadWord
  [2]
  $ cilkcheck explain p.cilk
  error: a number is wanted here
   --> p.cilk:3
    |
  3 | read 0 a[i]
    |          ^
    = `a` is an array, declared at line 2
    = help: name one of its cells, from `a[0]` to `a[3]`
  [2]

An index past the end.

  $ cat > p.cilk <<'END'
  > cilk 1
  > mem a 4
  > write 0 a[4] 1
  > END
  $ cilkcheck judge p.cilk
  cilkcheck: trace line 3: BadNumber
  [2]
  $ cilkcheck explain p.cilk
  error: an index is past the end of its array
   --> p.cilk:3
    |
  3 | write 0 a[4] 1
    |           ^
    = `a` is an array, declared at line 2
    = help: name one of its cells, from `a[0]` to `a[3]`
  [2]

A strand past its range.

  $ cat > p.cilk <<'END'
  > cilk 1
  > spawn 4294967296
  > END
  $ cilkcheck judge p.cilk
  cilkcheck: trace line 2: BadNumber
  [2]
  $ cilkcheck explain p.cilk
  error: a number is out of its range
   --> p.cilk:2
    |
  2 | spawn 4294967296
    |       ^^^^^^^^^^
    = help: write the number of a strand, from 0 to 4294967295
  [2]

A mark of no line.

  $ cat > p.cilk <<'END'
  > cilk 1
  > mem x
  > read 0 x @0
  > END
  $ cilkcheck judge p.cilk
  cilkcheck: trace line 3: BadNumber
  [2]
  $ cilkcheck explain p.cilk
  error: a mark is `@` and the number of a line
   --> p.cilk:3
    |
  3 | read 0 x @0
    |          ^^
    = help: write the number of a line of the program, from `@1` to `@4294967295`, or no mark
  [2]

A misspelled cell of a trace.

  $ cat > p.cilk <<'END'
  > cilk 1
  > mem total
  > read 0 toatl
  > END
  $ cilkcheck judge p.cilk
  cilkcheck: trace line 3: UnknownName
  [2]
  $ cilkcheck explain p.cilk
  error: no cell has this name
   --> p.cilk:3
    |
  3 | read 0 toatl
    |        ^^^^^
    = help: did you mean `total`?
  [2]

An array without an index in a trace.

  $ cat > p.cilk <<'END'
  > cilk 1
  > mem a 1
  > read 0 a
  > END
  $ cilkcheck judge p.cilk
  cilkcheck: trace line 3: UnknownName
  [2]
  $ cilkcheck explain p.cilk
  error: an array needs an index
   --> p.cilk:3
    |
  3 | read 0 a
    |        ^
    = `a` is an array, declared at line 2
    = help: name one of its cells, from `a[0]` to `a[0]`
  [2]

A cell in place of a reducer of a trace.

  $ cat > p.cilk <<'END'
  > cilk 1
  > mem x
  > get 0 x
  > END
  $ cilkcheck judge p.cilk
  cilkcheck: trace line 3: UnknownName
  [2]
  $ cilkcheck explain p.cilk
  error: a cell stands where a reducer is wanted
   --> p.cilk:3
    |
  3 | get 0 x
    |       ^
    = `x` is one cell, declared at line 2
    = help: a cell is used by `read`, `write` and `bump`
  [2]

A declaration behind a request.

  $ cat > p.cilk <<'END'
  > cilk 1
  > spawn 0
  > mem x
  > END
  $ cilkcheck judge p.cilk
  cilkcheck: trace line 3: BadNesting
  [2]
  $ cilkcheck explain p.cilk
  error: declarations stand before the first request
   --> p.cilk:3
    |
  3 | mem x
    | ^^^^^
    = the first request stands at line 2
    = help: move this line above that one
  [2]

A comment before the header of a trace.

  $ cat > p.cilk <<'END'
  > # a trace
  > cilk 1
  > END
  $ cilkcheck judge p.cilk
  cilkcheck: trace line 1: BadHeader
  [2]
  $ cilkcheck explain p.cilk
  error: a comment stands before the header
   --> p.cilk:1
    |
  1 | # a trace
    | ^
    = help: put the comment below the line `cilk 1`
  [2]

A cell of a trace in upper case.

  $ cat > p.cilk <<'END'
  > cilk 1
  > mem x
  > write 0 X 1
  > END
  $ cilkcheck judge p.cilk
  cilkcheck: trace line 3: BadWord
  [2]
  $ cilkcheck explain p.cilk
  error: a name has lower-case letters, digits and `_` alone
   --> p.cilk:3
    |
  3 | write 0 X 1
    |         ^
    = help: write `x`
  [2]

A word behind a request.

  $ cat > p.cilk <<'END'
  > cilk 1
  > mem x
  > read 0 x 5
  > END
  $ cilkcheck judge p.cilk
  cilkcheck: trace line 3: BadWord
  [2]
  $ cilkcheck explain p.cilk
  error: a word is too much
   --> p.cilk:3
    |
  3 | read 0 x 5
    |          ^
    = help: the form of this line is `read STRAND CELL`
  [2]

A reducer in place of a cell of a trace.

  $ cat > p.cilk <<'END'
  > cilk 1
  > reducer h sum
  > write 0 h 1
  > END
  $ cilkcheck judge p.cilk
  cilkcheck: trace line 3: UnknownName
  [2]
  $ cilkcheck explain p.cilk
  error: a reducer stands where a cell is wanted
   --> p.cilk:3
    |
  3 | write 0 h 1
    |         ^
    = `h` is a reducer, declared at line 2
    = help: a reducer is used by `update`, `put` and `get`
  [2]
