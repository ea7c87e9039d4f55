Mistakes that are easily made in programs, and the whole message about each: names that are not declared as what their places want.

`elide` tells the line of the fault and its cause, and `explain` the whole message. A text without a `func` behind its declarations
is explained as a trace: where it can have a `main` behind its fault, it has one here.

A cell as an operand.

  $ cat > p.cilk <<'END'
  > cilk 1
  > mem x
  > mem y
  > func main z
  >   write y x
  > end
  > END
  $ cilkcheck elide p.cilk
  cilkcheck: program line 5: UnknownName
  [2]
  $ cilkcheck explain p.cilk
  error: a cell cannot be an operand
   --> p.cilk:5
    |
  5 |   write y x
    |           ^
    = `x` is one cell, declared at line 2
    = help: read it into a register first: `read r x`, and use `r`
  [2]

A reducer as an operand.

  $ cat > p.cilk <<'END'
  > cilk 1
  > reducer h sum
  > func main z
  >   let s = h + 1
  > end
  > END
  $ cilkcheck elide p.cilk
  cilkcheck: program line 4: UnknownName
  [2]
  $ cilkcheck explain p.cilk
  error: a reducer cannot be an operand
   --> p.cilk:4
    |
  4 |   let s = h + 1
    |           ^
    = `h` is a reducer, declared at line 2
    = help: get it into a register first: `get r h`, and use `r`
  [2]

An array without an index.

  $ cat > p.cilk <<'END'
  > cilk 1
  > mem a 4
  > func main z
  >   write a 1
  > end
  > END
  $ cilkcheck elide p.cilk
  cilkcheck: program line 4: UnknownName
  [2]
  $ cilkcheck explain p.cilk
  error: an array needs an index
   --> p.cilk:4
    |
  4 |   write a 1
    |         ^
    = `a` is an array, declared at line 2
    = help: name one of its cells, from `a[0]` to `a[3]`
  [2]

A single cell with an index.

  $ cat > p.cilk <<'END'
  > cilk 1
  > mem x
  > func main z
  >   write x[0] 1
  > end
  > END
  $ cilkcheck elide p.cilk
  cilkcheck: program line 4: UnknownName
  [2]
  $ cilkcheck explain p.cilk
  error: a single cell has no index
   --> p.cilk:4
    |
  4 |   write x[0] 1
    |         ^^^^
    = `x` is one cell, declared at line 2
    = help: write `x`, or declare an array, by `mem NAME LENGTH`
  [2]

A reducer in place of a cell.

  $ cat > p.cilk <<'END'
  > cilk 1
  > reducer h sum
  > func main z
  >   write h 1
  > end
  > END
  $ cilkcheck elide p.cilk
  cilkcheck: program line 4: UnknownName
  [2]
  $ cilkcheck explain p.cilk
  error: a reducer stands where a cell is wanted
   --> p.cilk:4
    |
  4 |   write h 1
    |         ^
    = `h` is a reducer, declared at line 2
    = help: a reducer is used by `update`, `put` and `get`
  [2]

A cell in place of a reducer.

  $ cat > p.cilk <<'END'
  > cilk 1
  > mem x
  > func main z
  >   update x 1
  > end
  > END
  $ cilkcheck elide p.cilk
  cilkcheck: program line 4: UnknownName
  [2]
  $ cilkcheck explain p.cilk
  error: a cell stands where a reducer is wanted
   --> p.cilk:4
    |
  4 |   update x 1
    |          ^
    = `x` is one cell, declared at line 2
    = help: a cell is used by `read`, `write` and `bump`
  [2]

A register in place of a cell.

  $ cat > p.cilk <<'END'
  > cilk 1
  > mem x
  > func main z
  >   let r = 1
  >   write r 2
  > end
  > END
  $ cilkcheck elide p.cilk
  cilkcheck: program line 5: UnknownName
  [2]
  $ cilkcheck explain p.cilk
  error: a register stands where a cell is wanted
   --> p.cilk:5
    |
  5 |   write r 2
    |         ^
    = `r` is a register, named first at line 4
    = help: assign a register by `let`, and name a cell here
  [2]

A cell before its register.

  $ cat > p.cilk <<'END'
  > cilk 1
  > mem x
  > func main z
  >   read x r
  > end
  > END
  $ cilkcheck elide p.cilk
  cilkcheck: program line 4: UnknownName
  [2]
  $ cilkcheck explain p.cilk
  error: no cell has this name
   --> p.cilk:4
    |
  4 |   read x r
    |          ^
    = help: the register comes first: `read r x`
  [2]

A misspelled cell.

  $ cat > p.cilk <<'END'
  > cilk 1
  > mem total
  > func main z
  >   write totl z
  > end
  > END
  $ cilkcheck elide p.cilk
  cilkcheck: program line 4: UnknownName
  [2]
  $ cilkcheck explain p.cilk
  error: no cell has this name
   --> p.cilk:4
    |
  4 |   write totl z
    |         ^^^^
    = help: did you mean `total`?
  [2]

A cell that is declared nowhere.

  $ cat > p.cilk <<'END'
  > cilk 1
  > func main z
  >   write x 1
  > end
  > END
  $ cilkcheck elide p.cilk
  cilkcheck: program line 3: UnknownName
  [2]
  $ cilkcheck explain p.cilk
  error: no cell has this name
   --> p.cilk:3
    |
  3 |   write x 1
    |         ^
    = help: declare it before the first function, by `mem NAME`
  [2]

A misspelled register.

  $ cat > p.cilk <<'END'
  > cilk 1
  > mem x
  > func main count
  >   let r = 1
  >   write x cuont
  > end
  > END
  $ cilkcheck elide p.cilk
  cilkcheck: program line 5: UnknownName
  [2]
  $ cilkcheck explain p.cilk
  error: no line above assigns this register
   --> p.cilk:5
    |
  5 |   write x cuont
    |           ^^^^^
    = help: did you mean `count`?
  [2]

A register as an index.

  $ cat > p.cilk <<'END'
  > cilk 1
  > mem a 4
  > func main z
  >   write a[i] 1
  > end
  > END
  $ cilkcheck elide p.cilk
  cilkcheck: program line 4: UnknownName
  [2]
  $ cilkcheck explain p.cilk
  error: no line above assigns this register
   --> p.cilk:4
    |
  4 |   write a[i] 1
    |           ^
    = help: assign it on a line above, as by `let i = 0`
  [2]

A misspelled function.

  $ cat > p.cilk <<'END'
  > cilk 1
  > func main z
  >   spawn mian 1
  > end
  > END
  $ cilkcheck elide p.cilk
  cilkcheck: program line 3: UnknownName
  [2]
  $ cilkcheck explain p.cilk
  error: no function has this name
   --> p.cilk:3
    |
  3 |   spawn mian 1
    |         ^^^^
    = help: did you mean `main`?
  [2]

A name of two things.

  $ cat > p.cilk <<'END'
  > cilk 1
  > mem x
  > reducer x sum
  > func main z
  > end
  > END
  $ cilkcheck elide p.cilk
  cilkcheck: program line 3: TwiceNamed
  [2]
  $ cilkcheck explain p.cilk
  error: a name is declared already; memories, reducers and functions share one space of names
   --> p.cilk:3
    |
  3 | reducer x sum
    |         ^
    = `x` is declared at line 2
    = help: take another name for one of them
  [2]

A misspelled reducer.

  $ cat > p.cilk <<'END'
  > cilk 1
  > reducer count sum
  > func main z
  >   put coutn 1
  > end
  > END
  $ cilkcheck elide p.cilk
  cilkcheck: program line 4: UnknownName
  [2]
  $ cilkcheck explain p.cilk
  error: no reducer has this name
   --> p.cilk:4
    |
  4 |   put coutn 1
    |       ^^^^^
    = help: did you mean `count`?
  [2]
