Mistakes that are easily made in programs, and the whole message about each: lines with a word of another shape than its place
wants, or too few or too many words.

`elide` tells the line of the fault and its cause, and `explain` the whole message. A text without a `func` behind its declarations
is explained as a trace: where it can have a `main` behind its fault, it has one here.

A keyword with two letters swapped.

  $ cat > p.cilk <<'END'
  > cilk 1
  > func main z
  >   wirte x 1
  > end
  > END
  $ cilkcheck elide p.cilk
  cilkcheck: program line 3: BadWord
  [2]
  $ cilkcheck explain p.cilk
  error: no line of a program begins with this word
   --> p.cilk:3
    |
  3 |   wirte x 1
    |   ^^^^^
    = help: did you mean `write`?
  [2]

A keyword of another language.

  $ cat > p.cilk <<'END'
  > cilk 1
  > func main z
  >   print z
  > end
  > END
  $ cilkcheck elide p.cilk
  cilkcheck: program line 3: BadWord
  [2]
  $ cilkcheck explain p.cilk
  error: no line of a program begins with this word
   --> p.cilk:3
    |
  3 |   print z
    |   ^^^^^
    = help: begin with `let`, `read`, `write`, `bump`, `update`, `put`, `get`, `spawn`, `call`, `sync`, `if`, `else`, `end` or `pfor`, or declare by `mem`, `reducer` or `func`
  [2]

A name in upper case.

  $ cat > p.cilk <<'END'
  > cilk 1
  > mem Total
  > func main z
  > end
  > END
  $ cilkcheck elide p.cilk
  cilkcheck: program line 2: BadWord
  [2]
  $ cilkcheck explain p.cilk
  error: a name has lower-case letters, digits and `_` alone
   --> p.cilk:2
    |
  2 | mem Total
    |     ^^^^^
    = help: write `total`
  [2]

A cell in upper case.

  $ cat > p.cilk <<'END'
  > cilk 1
  > mem x
  > func main z
  >   write X 1
  > end
  > END
  $ cilkcheck elide p.cilk
  cilkcheck: program line 4: BadWord
  [2]
  $ cilkcheck explain p.cilk
  error: a name has lower-case letters, digits and `_` alone
   --> p.cilk:4
    |
  4 |   write X 1
    |         ^
    = help: write `x`
  [2]

A name of 33 bytes.

  $ cat > p.cilk <<'END'
  > cilk 1
  > mem aaaaaaaaaabbbbbbbbbbccccccccccddd
  > func main z
  > end
  > END
  $ cilkcheck elide p.cilk
  cilkcheck: program line 2: BadWord
  [2]
  $ cilkcheck explain p.cilk
  error: a name has at most 32 bytes
   --> p.cilk:2
    |
  2 | mem aaaaaaaaaabbbbbbbbbbccccccccccddd
    |     ^^^^^^^^^^^^^^^^^^^^^^^^^^^^^^^^^
    = help: shorten it from 33 to 32 bytes
  [2]

A name with a hyphen.

  $ cat > p.cilk <<'END'
  > cilk 1
  > mem left-most
  > func main z
  > end
  > END
  $ cilkcheck elide p.cilk
  cilkcheck: program line 2: BadWord
  [2]
  $ cilkcheck explain p.cilk
  error: this is no name
   --> p.cilk:2
    |
  2 | mem left-most
    |     ^^^^^^^^^
    = help: begin with a lower-case letter, and go on with such letters, digits and `_`
  [2]

A number as a name.

  $ cat > p.cilk <<'END'
  > cilk 1
  > mem 5
  > func main z
  > end
  > END
  $ cilkcheck elide p.cilk
  cilkcheck: program line 2: BadWord
  [2]
  $ cilkcheck explain p.cilk
  error: a number stands where a name is wanted
   --> p.cilk:2
    |
  2 | mem 5
    |     ^
    = help: the form of this line is `mem NAME, or mem NAME LENGTH for an array`
  [2]

A cell of an array as an operand.

  $ cat > p.cilk <<'END'
  > cilk 1
  > mem a 4
  > func main z
  >   let s = a[0]
  > end
  > END
  $ cilkcheck elide p.cilk
  cilkcheck: program line 4: BadWord
  [2]
  $ cilkcheck explain p.cilk
  error: a cell cannot be an operand
   --> p.cilk:4
    |
  4 |   let s = a[0]
    |           ^^^^
    = help: read it into a register first: `read r a[0]`, and use `r`
  [2]

An assignment of `ok`.

  $ cat > p.cilk <<'END'
  > cilk 1
  > func main z
  >   let ok = 1
  > end
  > END
  $ cilkcheck elide p.cilk
  cilkcheck: program line 3: BadWord
  [2]
  $ cilkcheck explain p.cilk
  error: `ok` cannot be assigned
   --> p.cilk:3
    |
  3 |   let ok = 1
    |       ^^
    = each access sets `ok`: to 1 where it is granted, to 0 where it is refused
    = help: name another register
  [2]

A parameter `ok`.

  $ cat > p.cilk <<'END'
  > cilk 1
  > func main ok
  > end
  > END
  $ cilkcheck elide p.cilk
  cilkcheck: program line 2: BadWord
  [2]
  $ cilkcheck explain p.cilk
  error: `ok` cannot be assigned
   --> p.cilk:2
    |
  2 | func main ok
    |           ^^
    = each access sets `ok`: to 1 where it is granted, to 0 where it is refused
    = help: name another register
  [2]

Two operators.

  $ cat > p.cilk <<'END'
  > cilk 1
  > func main z
  >   let r = z + 1 + 2
  > end
  > END
  $ cilkcheck elide p.cilk
  cilkcheck: program line 3: BadWord
  [2]
  $ cilkcheck explain p.cilk
  error: a `let` has one operator at most
   --> p.cilk:3
    |
  3 |   let r = z + 1 + 2
    |                 ^^^
    = help: write a line for each: `let r = z + 1`, then `let r = r + 2`
  [2]

A negative number.

  $ cat > p.cilk <<'END'
  > cilk 1
  > func main z
  >   let r = -5
  > end
  > END
  $ cilkcheck elide p.cilk
  cilkcheck: program line 3: BadWord
  [2]
  $ cilkcheck explain p.cilk
  error: there are no negative numbers
   --> p.cilk:3
    |
  3 |   let r = -5
    |           ^^
    = numbers are modulo 18446744073709551616
    = help: subtract it from 0: `let r = 0 - 5`, and use `r`
  [2]

A trace in place of a program. A test in Rattle shows the message, since `explain` takes the text for the trace that it is.

  $ cat > p.cilk <<'END'
  > cilk 1
  > mem x
  > write 0 x 1
  > END
  $ cilkcheck elide p.cilk
  cilkcheck: program line 3: BadWord
  [2]

Too many arguments.

  $ cat > p.cilk <<'END'
  > cilk 1
  > func main z
  >   spawn main 1 2
  > end
  > END
  $ cilkcheck elide p.cilk
  cilkcheck: program line 3: BadWord
  [2]
  $ cilkcheck explain p.cilk
  error: a function has one parameter
   --> p.cilk:3
    |
  3 |   spawn main 1 2
    |                ^
    = help: the form of this line is `spawn FUNCTION VALUE`
    = help: hand on other values in cells, which the function reads
  [2]

Too many parameters.

  $ cat > p.cilk <<'END'
  > cilk 1
  > func main a b
  > end
  > END
  $ cilkcheck elide p.cilk
  cilkcheck: program line 2: BadWord
  [2]
  $ cilkcheck explain p.cilk
  error: a function has one parameter
   --> p.cilk:2
    |
  2 | func main a b
    |             ^
    = help: the form of this line is `func NAME PARAMETER`
    = help: hand on other values in cells, which the function reads
  [2]

A missing word.

  $ cat > p.cilk <<'END'
  > cilk 1
  > mem x
  > func main z
  >   write x
  > end
  > END
  $ cilkcheck elide p.cilk
  cilkcheck: program line 4: BadWord
  [2]
  $ cilkcheck explain p.cilk
  error: a word is missing
   --> p.cilk:4
    |
  4 |   write x
    |   ^^^^^^^
    = help: the form of this line is `write CELL VALUE`
  [2]

A word of version 2.

  $ cat > p.cilk <<'END'
  > cilk 1
  > mem x
  > func main z
  >   bump x 1
  > end
  > END
  $ cilkcheck elide p.cilk
  cilkcheck: program line 4: BadWord
  [2]
  $ cilkcheck explain p.cilk
  error: this word belongs to version 2
   --> p.cilk:4
    |
  4 |   bump x 1
    |   ^^^^
    = help: write `cilk 2` as the first line
  [2]

A misspelled monoid.

  $ cat > p.cilk <<'END'
  > cilk 1
  > reducer h summ
  > func main z
  > end
  > END
  $ cilkcheck elide p.cilk
  cilkcheck: program line 2: BadWord
  [2]
  $ cilkcheck explain p.cilk
  error: this is no monoid
   --> p.cilk:2
    |
  2 | reducer h summ
    |           ^^^^
    = help: did you mean `sum`?
  [2]

A comparison that is no operator.

  $ cat > p.cilk <<'END'
  > cilk 1
  > func main z
  >   let r = z > 2
  > end
  > END
  $ cilkcheck elide p.cilk
  cilkcheck: program line 3: BadWord
  [2]
  $ cilkcheck explain p.cilk
  error: this is no operator
   --> p.cilk:3
    |
  3 |   let r = z > 2
    |             ^
    = help: swap the two: `let r = 2 < z`
  [2]

Another sign in place of `=`.

  $ cat > p.cilk <<'END'
  > cilk 1
  > func main z
  >   let r := z
  > end
  > END
  $ cilkcheck elide p.cilk
  cilkcheck: program line 3: BadWord
  [2]
  $ cilkcheck explain p.cilk
  error: an `=` is wanted here
   --> p.cilk:3
    |
  3 |   let r := z
    |         ^^
    = help: the form of this line is `let r = VALUE, or let r = VALUE + VALUE, also with -, * and <`
  [2]

Words without spaces.

  $ cat > p.cilk <<'END'
  > cilk 1
  > func main z
  >   let r=z
  > end
  > END
  $ cilkcheck elide p.cilk
  cilkcheck: program line 3: BadWord
  [2]
  $ cilkcheck explain p.cilk
  error: words are separated by spaces
   --> p.cilk:3
    |
  3 |   let r=z
    |       ^^^
    = help: put a space on each side of `=` and of each operator
  [2]

Parentheses.

  $ cat > p.cilk <<'END'
  > cilk 1
  > func main z
  >   spawn main(1)
  > end
  > END
  $ cilkcheck elide p.cilk
  cilkcheck: program line 3: BadWord
  [2]
  $ cilkcheck explain p.cilk
  error: a line has no parentheses
   --> p.cilk:3
    |
  3 |   spawn main(1)
    |         ^^^^^^^
    = help: the form of this line is `spawn FUNCTION VALUE`
  [2]

A condition in parentheses.

  $ cat > p.cilk <<'END'
  > cilk 1
  > func main z
  >   if (z)
  >   end
  > end
  > END
  $ cilkcheck elide p.cilk
  cilkcheck: program line 3: BadWord
  [2]
  $ cilkcheck explain p.cilk
  error: a line has no parentheses
   --> p.cilk:3
    |
  3 |   if (z)
    |      ^^^
    = help: the form of this line is `if r`
  [2]

A sign in place of a value.

  $ cat > p.cilk <<'END'
  > cilk 1
  > mem x
  > func main z
  >   write x = 5
  > end
  > END
  $ cilkcheck elide p.cilk
  cilkcheck: program line 4: BadWord
  [2]
  $ cilkcheck explain p.cilk
  error: an operand is a number or a register
   --> p.cilk:4
    |
  4 |   write x = 5
    |           ^
    = help: the form of this line is `write CELL VALUE`
  [2]

An assignment as in C.

  $ cat > p.cilk <<'END'
  > cilk 1
  > func main z
  >   r = 5
  > end
  > END
  $ cilkcheck elide p.cilk
  cilkcheck: program line 3: BadWord
  [2]
  $ cilkcheck explain p.cilk
  error: no line of a program begins with this word
   --> p.cilk:3
    |
  3 |   r = 5
    |   ^
    = help: assign a register by `let r = 5`, a cell by `write r 5`
  [2]

A `return`.

  $ cat > p.cilk <<'END'
  > cilk 1
  > func main z
  >   return 0
  > end
  > END
  $ cilkcheck elide p.cilk
  cilkcheck: program line 3: BadWord
  [2]
  $ cilkcheck explain p.cilk
  error: a request of a trace stands in a program
   --> p.cilk:3
    |
  3 |   return 0
    |   ^^^^^^
    = help: a function returns at its `end`
  [2]

A semicolon.

  $ cat > p.cilk <<'END'
  > cilk 1
  > func main z
  >   sync;
  > end
  > END
  $ cilkcheck elide p.cilk
  cilkcheck: program line 3: BadWord
  [2]
  $ cilkcheck explain p.cilk
  error: a line ends without a `;`
   --> p.cilk:3
    |
  3 |   sync;
    |   ^^^^^
    = help: leave out the `;`
  [2]

A comment as in C.

  $ cat > p.cilk <<'END'
  > cilk 1
  > // squares
  > END
  $ cilkcheck elide p.cilk
  cilkcheck: program line 2: BadWord
  [2]
  $ cilkcheck explain p.cilk
  error: a comment begins with `#`
   --> p.cilk:2
    |
  2 | // squares
    | ^^
    = help: write `#` before a comment
  [2]

An array declared as in C.

  $ cat > p.cilk <<'END'
  > cilk 1
  > mem a[4]
  > func main z
  > end
  > END
  $ cilkcheck elide p.cilk
  cilkcheck: program line 2: BadWord
  [2]
  $ cilkcheck explain p.cilk
  error: an array is declared by its name and its length
   --> p.cilk:2
    |
  2 | mem a[4]
    |     ^^^^
    = help: write `mem a 4`
  [2]

A condition behind `if`.

  $ cat > p.cilk <<'END'
  > cilk 1
  > func main z
  >   if z < 5
  >   end
  > end
  > END
  $ cilkcheck elide p.cilk
  cilkcheck: program line 3: BadWord
  [2]
  $ cilkcheck explain p.cilk
  error: a word is too much
   --> p.cilk:3
    |
  3 |   if z < 5
    |        ^^^
    = help: assign the condition first: `let t = z < 5`, then `if t`
  [2]

A number behind `if`.

  $ cat > p.cilk <<'END'
  > cilk 1
  > func main z
  >   if 1
  >   end
  > end
  > END
  $ cilkcheck elide p.cilk
  cilkcheck: program line 3: BadWord
  [2]
  $ cilkcheck explain p.cilk
  error: a number stands where a register is wanted
   --> p.cilk:3
    |
  3 |   if 1
    |      ^
    = help: assign a register first: `let t = 1`, then `if t`
  [2]

An `if` behind `else`.

  $ cat > p.cilk <<'END'
  > cilk 1
  > func main z
  >   if z
  >   else if z
  >   end
  > end
  > END
  $ cilkcheck elide p.cilk
  cilkcheck: program line 4: BadWord
  [2]
  $ cilkcheck explain p.cilk
  error: a word is too much
   --> p.cilk:4
    |
  4 |   else if z
    |        ^^^^
    = help: put the `if` on a line of its own behind the `else`, and end both
  [2]

A monoid of version 2.

  $ cat > p.cilk <<'END'
  > cilk 1
  > reducer h digits
  > func main z
  > end
  > END
  $ cilkcheck elide p.cilk
  cilkcheck: program line 2: BadWord
  [2]
  $ cilkcheck explain p.cilk
  error: this word belongs to version 2
   --> p.cilk:2
    |
  2 | reducer h digits
    |           ^^^^^^
    = help: write `cilk 2` as the first line
  [2]

A function without a parameter.

  $ cat > p.cilk <<'END'
  > cilk 1
  > func main
  > END
  $ cilkcheck elide p.cilk
  cilkcheck: program line 2: BadWord
  [2]
  $ cilkcheck explain p.cilk
  error: a word is missing
   --> p.cilk:2
    |
  2 | func main
    | ^^^^^^^^^
    = help: the form of this line is `func NAME PARAMETER`
  [2]
