Names that are declared nowhere, or not as their places want. Each is named by a statement of a function whose parameter is `z`, on line 8.

  $ cat > head <<'END'
  > cilk 2
  > mem x
  > mem a 4
  > reducer h sum
  > func f v
  > end
  > func main z
  > END

Names that no cell has.

  $ (cat head; echo 'read r xx'; echo end) > p.cilk; cilkcheck elide p.cilk; cilkcheck explain p.cilk
  cilkcheck: program line 8: UnknownName
  error: no cell has this name
   --> p.cilk:8
    |
  8 | read r xx
    |        ^^
    = help: did you mean `x`?
  [2]
  $ (cat head; echo 'read r b[i]'; echo end) > p.cilk; cilkcheck elide p.cilk; cilkcheck explain p.cilk
  cilkcheck: program line 8: UnknownName
  error: no cell has this name
   --> p.cilk:8
    |
  8 | read r b[i]
    |        ^^^^
    = help: declare it before the first function, by `mem NAME`
  [2]
  $ (cat head; echo 'read r a[r]'; echo end) > p.cilk; cilkcheck elide p.cilk; cilkcheck explain p.cilk
  cilkcheck: program line 8: UnknownName
  error: no line above assigns this register
   --> p.cilk:8
    |
  8 | read r a[r]
    |          ^
    = help: assign it on a line above, as by `let r = 0`
  [2]
  $ (cat head; echo 'write xx 1'; echo end) > p.cilk; cilkcheck elide p.cilk; cilkcheck explain p.cilk
  cilkcheck: program line 8: UnknownName
  error: no cell has this name
   --> p.cilk:8
    |
  8 | write xx 1
    |       ^^
    = help: did you mean `x`?
  [2]
  $ (cat head; echo 'write a[i] w'; echo end) > p.cilk; cilkcheck elide p.cilk; cilkcheck explain p.cilk
  cilkcheck: program line 8: UnknownName
  error: no line above assigns this register
   --> p.cilk:8
    |
  8 | write a[i] w
    |         ^
    = help: assign it on a line above, as by `let i = 0`
  [2]
  $ (cat head; echo 'write x v'; echo end) > p.cilk; cilkcheck elide p.cilk; cilkcheck explain p.cilk
  cilkcheck: program line 8: UnknownName
  error: no line above assigns this register
   --> p.cilk:8
    |
  8 | write x v
    |         ^
    = help: assign it on a line above, as by `let v = 0`
  [2]
  $ (cat head; echo 'bump xx[z] ok'; echo end) > p.cilk; cilkcheck elide p.cilk; cilkcheck explain p.cilk
  cilkcheck: program line 8: UnknownName
  error: no cell has this name
   --> p.cilk:8
    |
  8 | bump xx[z] ok
    |      ^^^^^
    = help: did you mean `x`?
  [2]

A name of something else.

  $ (cat head; echo 'write h 1'; echo end) > p.cilk; cilkcheck elide p.cilk; cilkcheck explain p.cilk
  cilkcheck: program line 8: UnknownName
  error: a reducer stands where a cell is wanted
   --> p.cilk:8
    |
  8 | write h 1
    |       ^
    = `h` is a reducer, declared at line 4
    = help: a reducer is used by `update`, `put` and `get`
  [2]
  $ (cat head; echo 'let r = x'; echo end) > p.cilk; cilkcheck elide p.cilk; cilkcheck explain p.cilk
  cilkcheck: program line 8: UnknownName
  error: a cell cannot be an operand
   --> p.cilk:8
    |
  8 | let r = x
    |         ^
    = `x` is one cell, declared at line 2
    = help: read it into a register first: `read r x`, and use `r`
  [2]

Names that nothing else has.

In a `let`.

  $ (cat head; echo 'let r = q'; echo end) > p.cilk; cilkcheck elide p.cilk; cilkcheck explain p.cilk
  cilkcheck: program line 8: UnknownName
  error: no line above assigns this register
   --> p.cilk:8
    |
  8 | let r = q
    |         ^
    = help: assign it on a line above, as by `let q = 0`
  [2]
  $ (cat head; echo 'let r = q + p'; echo end) > p.cilk; cilkcheck elide p.cilk; cilkcheck explain p.cilk
  cilkcheck: program line 8: UnknownName
  error: no line above assigns this register
   --> p.cilk:8
    |
  8 | let r = q + p
    |         ^
    = help: assign it on a line above, as by `let q = 0`
  [2]
  $ (cat head; echo 'let r = r - 1'; echo end) > p.cilk; cilkcheck elide p.cilk; cilkcheck explain p.cilk
  cilkcheck: program line 8: UnknownName
  error: no line above assigns this register
   --> p.cilk:8
    |
  8 | let r = r - 1
    |         ^
    = help: assign it on a line above, as by `let r = 0`
  [2]
  $ (cat head; echo 'let r = q * q'; echo end) > p.cilk; cilkcheck elide p.cilk; cilkcheck explain p.cilk
  cilkcheck: program line 8: UnknownName
  error: no line above assigns this register
   --> p.cilk:8
    |
  8 | let r = q * q
    |         ^
    = help: assign it on a line above, as by `let q = 0`
  [2]
  $ (cat head; echo 'let r = 7 < q  # of p'; echo end) > p.cilk; cilkcheck elide p.cilk; cilkcheck explain p.cilk
  cilkcheck: program line 8: UnknownName
  error: no line above assigns this register
   --> p.cilk:8
    |
  8 | let r = 7 < q  # of p
    |             ^
    = help: assign it on a line above, as by `let q = 0`
  [2]

Behind `if`.

  $ (cat head; echo 'if t'; echo end) > p.cilk; cilkcheck elide p.cilk; cilkcheck explain p.cilk
  cilkcheck: program line 8: UnknownName
  error: no line above assigns this register
   --> p.cilk:8
    |
  8 | if t
    |    ^
    = help: assign it on a line above, as by `let t = 0`
  [2]

That no reducer has.

  $ (cat head; echo 'update hh z'; echo end) > p.cilk; cilkcheck elide p.cilk; cilkcheck explain p.cilk
  cilkcheck: program line 8: UnknownName
  error: no reducer has this name
   --> p.cilk:8
    |
  8 | update hh z
    |        ^^
    = help: did you mean `h`?
  [2]
  $ (cat head; echo 'put h w'; echo end) > p.cilk; cilkcheck elide p.cilk; cilkcheck explain p.cilk
  cilkcheck: program line 8: UnknownName
  error: no line above assigns this register
   --> p.cilk:8
    |
  8 | put h w
    |       ^
    = help: assign it on a line above, as by `let w = 0`
  [2]
  $ (cat head; echo 'get r hh'; echo end) > p.cilk; cilkcheck elide p.cilk; cilkcheck explain p.cilk
  cilkcheck: program line 8: UnknownName
  error: no reducer has this name
   --> p.cilk:8
    |
  8 | get r hh
    |       ^^
    = help: did you mean `h`?
  [2]

That no function has.

  $ (cat head; echo 'spawn g 1'; echo end) > p.cilk; cilkcheck elide p.cilk; cilkcheck explain p.cilk
  cilkcheck: program line 8: UnknownName
  error: no function has this name
   --> p.cilk:8
    |
  8 | spawn g 1
    |       ^
    = help: add it: `func NAME PARAMETER`, statements, and `end`
  [2]
  $ (cat head; echo 'call f w'; echo end) > p.cilk; cilkcheck elide p.cilk; cilkcheck explain p.cilk
  cilkcheck: program line 8: UnknownName
  error: no line above assigns this register
   --> p.cilk:8
    |
  8 | call f w
    |        ^
    = help: assign it on a line above, as by `let w = 0`
  [2]
  $ (cat head; echo 'pfor i n g'; echo end) > p.cilk; cilkcheck elide p.cilk; cilkcheck explain p.cilk
  cilkcheck: program line 8: UnknownName
  error: no line above assigns this register
   --> p.cilk:8
    |
  8 | pfor i n g
    |        ^
    = help: assign it on a line above, as by `let n = 0`
  [2]
  $ (cat head; echo 'pfor i i f'; echo end) > p.cilk; cilkcheck elide p.cilk; cilkcheck explain p.cilk
  cilkcheck: program line 8: UnknownName
  error: no line above assigns this register
   --> p.cilk:8
    |
  8 | pfor i i f
    |        ^
    = help: assign it on a line above, as by `let i = 0`
  [2]
