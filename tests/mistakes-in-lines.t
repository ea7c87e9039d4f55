Mistakes that are easily made in programs, and the whole message about each: bytes, headers, numbers and lines that may not stand
where they do, and limits.

`elide` tells the line of the fault and its cause, and `explain` the whole message. A text without a `func` behind its declarations
is explained as a trace: where it can have a `main` behind its fault, it has one here.

A value past its range.

  $ cat > p.cilk <<'END'
  > cilk 1
  > func main z
  >   let r = 18446744073709551616 # 2^64
  > end
  > END
  $ cilkcheck elide p.cilk
  cilkcheck: program line 3: BadNumber
  [2]
  $ cilkcheck explain p.cilk
  error: a number is out of its range
   --> p.cilk:3
    |
  3 |   let r = 18446744073709551616 # 2^64
    |           ^^^^^^^^^^^^^^^^^^^^
    = help: write a number from 0 to 18446744073709551615
  [2]

A length past its range.

  $ cat > p.cilk <<'END'
  > cilk 1
  > mem a 1000001
  > func main z
  > end
  > END
  $ cilkcheck elide p.cilk
  cilkcheck: program line 2: BadNumber
  [2]
  $ cilkcheck explain p.cilk
  error: a number is out of its range
   --> p.cilk:2
    |
  2 | mem a 1000001
    |       ^^^^^^^
    = help: write a length from 1 to 1000000
  [2]

Letters behind a digit.

  $ cat > p.cilk <<'END'
  > cilk 1
  > func main z
  >   let r = 5x
  > end
  > END
  $ cilkcheck elide p.cilk
  cilkcheck: program line 3: BadNumber
  [2]
  $ cilkcheck explain p.cilk
  error: a number has decimal digits alone
   --> p.cilk:3
    |
  3 |   let r = 5x
    |           ^^
    = help: write decimal digits alone, and spaces around each sign
  [2]

A byte-order mark.

  $ printf '\357\273\277cilk 1\nfunc main z\nend\n' > p.cilk
  $ cilkcheck elide p.cilk
  cilkcheck: program line 1: NotText
  [2]
  $ cilkcheck explain p.cilk
  error: a byte-order mark stands before the header
   --> p.cilk:1
    |
  1 | \xef\xbb\xbfcilk 1 (esc)
    | ^
    = help: save the file without a byte-order mark
  [2]

A letter outside of ASCII.

  $ printf 'cilk 1\nmem gr\303\266\303\237e\nfunc main z\nend\n' > p.cilk
  $ cilkcheck elide p.cilk
  cilkcheck: program line 2: NotText
  [2]
  $ cilkcheck explain p.cilk
  error: a line has printable ASCII characters and tabs alone, in comments too
   --> p.cilk:2
    |
  2 | mem gr\xc3\xb6\xc3\x9fe (esc)
    |       ^
    = help: write it in ASCII, or leave it out
  [2]

A comment before the header.

  $ cat > p.cilk <<'END'
  > # a sum of squares
  > cilk 1
  > END
  $ cilkcheck elide p.cilk
  cilkcheck: program line 1: BadHeader
  [2]
  $ cilkcheck explain p.cilk
  error: a comment stands before the header
   --> p.cilk:1
    |
  1 | # a sum of squares
    | ^
    = help: put the comment below the line `cilk 1`
  [2]

A blank line before the header.

  $ cat > p.cilk <<'END'
  >
  > cilk 1
  > END
  $ cilkcheck elide p.cilk
  cilkcheck: program line 1: BadHeader
  [2]
  $ cilkcheck explain p.cilk
  error: a blank line stands before the header
   --> p.cilk:1
    |
  1 |\x20 (esc)
    |\x20 (esc)
    = help: begin with the line `cilk 1`, and leave out the blank one
  [2]

Another version.

  $ cat > p.cilk <<'END'
  > cilk 3
  > func main z
  > end
  > END
  $ cilkcheck elide p.cilk
  cilkcheck: program line 1: BadHeader
  [2]
  $ cilkcheck explain p.cilk
  error: the version of a text is 1 or 2
   --> p.cilk:1
    |
  1 | cilk 3
    |      ^
    = help: write `cilk 1`, or `cilk 2` for `bump`, `pfor` and `digits`
  [2]

No header.

  $ cat > p.cilk <<'END'
  > mem x
  > func main z
  > end
  > END
  $ cilkcheck elide p.cilk
  cilkcheck: program line 1: BadHeader
  [2]
  $ cilkcheck explain p.cilk
  error: the first line has to be `cilk 1`, or `cilk 2` for `bump`, `pfor` and `digits`
   --> p.cilk:1
    |
  1 | mem x
    | ^^^^^
    = help: put the line `cilk 1` before this one
  [2]

A misspelled header.

  $ cat > p.cilk <<'END'
  > clik 1
  > func main z
  > end
  > END
  $ cilkcheck elide p.cilk
  cilkcheck: program line 1: BadHeader
  [2]
  $ cilkcheck explain p.cilk
  error: the first line has to be `cilk 1`, or `cilk 2` for `bump`, `pfor` and `digits`
   --> p.cilk:1
    |
  1 | clik 1
    | ^^^^^^
    = help: did you mean `cilk`?
  [2]

A declaration behind a function.

  $ cat > p.cilk <<'END'
  > cilk 1
  > func main z
  > end
  > mem x
  > END
  $ cilkcheck elide p.cilk
  cilkcheck: program line 4: BadNesting
  [2]
  $ cilkcheck explain p.cilk
  error: declarations stand before the first function
   --> p.cilk:4
    |
  4 | mem x
    | ^^^^^
    = the first function begins at line 2
    = help: move this line above that one
  [2]

A function in a function.

  $ cat > p.cilk <<'END'
  > cilk 1
  > func main z
  > func f v
  > END
  $ cilkcheck elide p.cilk
  cilkcheck: program line 3: BadNesting
  [2]
  $ cilkcheck explain p.cilk
  error: a function begins within another one
   --> p.cilk:3
    |
  3 | func f v
    | ^^^^^^^^
    = the `func` that is open here begins at line 2
    = help: put an `end` before this line, one for each open `if` too
  [2]

A statement outside of the functions.

  $ cat > p.cilk <<'END'
  > cilk 1
  > func main z
  > end
  > sync
  > END
  $ cilkcheck elide p.cilk
  cilkcheck: program line 4: BadNesting
  [2]
  $ cilkcheck explain p.cilk
  error: a statement stands outside of every function
   --> p.cilk:4
    |
  4 | sync
    | ^^^^
    = no function is open here
    = help: put it between a `func` and its `end`
  [2]

An `else` without an `if`.

  $ cat > p.cilk <<'END'
  > cilk 1
  > func main z
  >   else
  > end
  > END
  $ cilkcheck elide p.cilk
  cilkcheck: program line 3: BadNesting
  [2]
  $ cilkcheck explain p.cilk
  error: an `else` stands without its `if`
   --> p.cilk:3
    |
  3 |   else
    |   ^^^^
    = the `func` that is open here begins at line 2
    = help: put it between an `if` and its `end`
  [2]

A second `else`.

  $ cat > p.cilk <<'END'
  > cilk 1
  > func main z
  >   if z
  >   else
  >   else
  >   end
  > end
  > END
  $ cilkcheck elide p.cilk
  cilkcheck: program line 5: BadNesting
  [2]
  $ cilkcheck explain p.cilk
  error: an `if` has one `else` at most
   --> p.cilk:5
    |
  5 |   else
    |   ^^^^
    = the `if` that is open here begins at line 3
    = help: put an `end` before it, or leave it out
  [2]

An `end` too many.

  $ cat > p.cilk <<'END'
  > cilk 1
  > func main z
  > end
  > end
  > END
  $ cilkcheck elide p.cilk
  cilkcheck: program line 4: BadNesting
  [2]
  $ cilkcheck explain p.cilk
  error: this `end` ends nothing
   --> p.cilk:4
    |
  4 | end
    | ^^^
    = no function is open here
    = help: leave it out, or look for an `end` too many above
  [2]

An `if` without its `end`.

  $ cat > p.cilk <<'END'
  > cilk 1
  > func main z
  >   if z
  > end
  > END
  $ cilkcheck elide p.cilk
  cilkcheck: program line 5: BadNesting
  [2]
  $ cilkcheck explain p.cilk
  error: a function has no `end`
   --> p.cilk:5
    |
  5 |\x20 (esc)
    |\x20 (esc)
    = the `func` that is open here begins at line 2
    = help: add a line `end`
  [2]

An `if` and a function without an `end`.

  $ cat > p.cilk <<'END'
  > cilk 1
  > func main z
  >   if z
  > END
  $ cilkcheck elide p.cilk
  cilkcheck: program line 4: BadNesting
  [2]
  $ cilkcheck explain p.cilk
  error: an `if` has no `end`
   --> p.cilk:4
    |
  4 |\x20 (esc)
    |\x20 (esc)
    = the `if` that is open here begins at line 3
    = help: add a line `end`
  [2]

No `main`. A test in Rattle shows the message, since `explain` takes the text for a trace.

  $ cat > p.cilk <<'END'
  > cilk 1
  > mem x
  > END
  $ cilkcheck elide p.cilk
  cilkcheck: program line 3: NoMain
  [2]

An empty text.

  $ printf '' > p.cilk
  $ cilkcheck elide p.cilk
  cilkcheck: program line 1: BadHeader
  [2]
  $ cilkcheck explain p.cilk
  error: the text is empty
   --> p.cilk:1
    |
  1 |\x20 (esc)
    |\x20 (esc)
    = help: begin with the line `cilk 1`
  [2]

More words in the header.

  $ cat > p.cilk <<'END'
  > cilk 1 x
  > func main z
  > end
  > END
  $ cilkcheck elide p.cilk
  cilkcheck: program line 1: BadHeader
  [2]
  $ cilkcheck explain p.cilk
  error: the header has two words alone
   --> p.cilk:1
    |
  1 | cilk 1 x
    |        ^
    = help: put what follows on the next line
  [2]

A misspelled `main`.

  $ cat > p.cilk <<'END'
  > cilk 1
  > func mian z
  > end
  > END
  $ cilkcheck elide p.cilk
  cilkcheck: program line 4: NoMain
  [2]
  $ cilkcheck explain p.cilk
  error: there is no function `main`
   --> p.cilk:4
    |
  4 |\x20 (esc)
    |\x20 (esc)
    = help: write `main` in place of `mian`
  [2]

More cells than there may be.

  $ cat > p.cilk <<'END'
  > cilk 1
  > mem a 1000000
  > mem b
  > func main z
  > end
  > END
  $ cilkcheck elide p.cilk
  cilkcheck: program line 3: TooMany
  [2]
  $ cilkcheck explain p.cilk
  error: all memories have at most 1000000 cells together
   --> p.cilk:3
    |
  3 | mem b
    | ^^^^^
    = help: declare smaller arrays, or fewer
  [2]

A register too many.

  $ cat > p.cilk <<'END'
  > cilk 1
  > func main z
  > let a = 0
  > let b = 0
  > let c = 0
  > let d = 0
  > let e = 0
  > let f = 0
  > let g = 0
  > let h = 0
  > let i = 0
  > let j = 0
  > let k = 0
  > let l = 0
  > let m = 0
  > let n = 0
  > let o = 0
  > let p = 0
  > end
  > END
  $ cilkcheck elide p.cilk
  cilkcheck: program line 18: TooMany
  [2]
  $ cilkcheck explain p.cilk
  error: a function has at most 16 registers
    --> p.cilk:18
     |
  18 | let p = 0
     | ^^^^^^^^^
     = help: assign again a register whose value is not used below, or put a part into a function of its own
  [2]

A control character.

  $ printf 'cilk 1\nmem \007x\nfunc main z\nend\n' > p.cilk
  $ cilkcheck elide p.cilk
  cilkcheck: program line 2: NotText
  [2]
  $ cilkcheck explain p.cilk
  error: a control character stands on this line
   --> p.cilk:2
    |
  2 | mem \x07x (esc)
    |     ^
    = help: remove it, or put a space in its place
  [2]

The last of 65 lines passes a limit.

  $ { printf 'cilk 1\nfunc main z\n'; seq 65 | sed 's/.*/if z/'; } > p.cilk
  $ cilkcheck elide p.cilk
  cilkcheck: program line 67: TooMany
  [2]
  $ cilkcheck explain p.cilk
  error: at most 64 `if` stand within one another
    --> p.cilk:67
     |
  67 | if z
     | ^^^^
     = help: put the inner part into a function of its own
  [2]
