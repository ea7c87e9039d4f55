Whole messages about faults.

`elide` tells the line of the fault and its cause, and `explain` the whole message. A text without a `func` behind its declarations
is explained as a trace: where it can have a `main` behind its fault, it has one here.

A word that begins no line.

  $ cat > p.cilk <<'END'
  > cilk 1
  > func main z
  >   spwan f 1  # a child
  > end
  > END
  $ cilkcheck elide p.cilk
  cilkcheck: program line 3: BadWord
  [2]
  $ cilkcheck explain p.cilk
  error: no line of a program begins with this word
   --> p.cilk:3
    |
  3 |   spwan f 1  # a child
    |   ^^^^^
    = help: did you mean `spawn`?
  [2]

A name that is nowhere, behind a tab.

  $ printf 'cilk 1\nmem x\nfunc main z\n\tread a x\n\twrite y[a] a\nend\n' > p.cilk
  $ cilkcheck elide p.cilk
  cilkcheck: program line 5: UnknownName
  [2]
  $ cilkcheck explain p.cilk
  error: no cell has this name
   --> p.cilk:5
    |
  5 | \twrite y[a] a (esc)
    | \t      ^^^^ (esc)
    = help: declare it before the first function, by `mem NAME`
  [2]

An if without its end.

  $ cat > p.cilk <<'END'
  > cilk 1
  > func main z
  > if z
  > end
  > END
  $ cilkcheck elide p.cilk
  cilkcheck: program line 5: BadNesting
  [2]
  $ cilkcheck explain p.cilk
  error: a function has no `end`
   --> p.cilk:5
    |
  5 |\x20 (esc)
    |\x20 (esc)
    = the `func` that is open here begins at line 2
    = help: add a line `end`
  [2]

A limit is passed.

  $ printf 'cilk 1\nmem a 1000000\nmem b' > p.cilk
  $ cilkcheck elide p.cilk
  cilkcheck: program line 3: TooMany
  [2]
  $ cilkcheck explain p.cilk
  error: all memories have at most 1000000 cells together
   --> p.cilk:3
    |
  3 | mem b
    | ^^^^^
    = help: declare smaller arrays, or fewer
  [2]

No header.

  $ cat > p.cilk <<'END'
  > # a comment
  > cilk 1
  > END
  $ cilkcheck elide p.cilk
  cilkcheck: program line 1: BadHeader
  [2]
  $ cilkcheck explain p.cilk
  error: a comment stands before the header
   --> p.cilk:1
    |
  1 | # a comment
    | ^
    = help: put the comment below the line `cilk 1`
  [2]

A source of C in place of a program.

  $ cat > p.cilk <<'END'
  > /* counts words */
  > #include <stdio.h>
  >
  > int main(void) { return 0; }
  > END
  $ cilkcheck elide p.cilk
  cilkcheck: program line 1: BadHeader
  [2]
  $ cilkcheck explain p.cilk
  error: this text is C or C++, and no program or trace of `cilkcheck`
   --> p.cilk:1
    |
  1 | /* counts words */
    | ^^^^^^^^^^^^^^^^^^
    = help: compile it with `cilkcheck-cc` or `cilkcheck-c++`, run that program, and explain the trace that it writes
  [2]

Another source of C.

  $ cat > p.cilk <<'END'
  > #include <cilk/cilk.h>
  > int main() {
  > }
  > END
  $ cilkcheck elide p.cilk
  cilkcheck: program line 1: BadHeader
  [2]
  $ cilkcheck explain p.cilk
  error: this text is C or C++, and no program or trace of `cilkcheck`
   --> p.cilk:1
    |
  1 | #include <cilk/cilk.h>
    | ^
    = help: compile it with `cilkcheck-cc` or `cilkcheck-c++`, run that program, and explain the trace that it writes
  [2]

A version that there is not, with such a line below it.

  $ cat > p.cilk <<'END'
  > cilk 3
  > #include <stdio.h>
  > func main z
  > end
  > END
  $ cilkcheck elide p.cilk
  cilkcheck: program line 1: BadHeader
  [2]
  $ cilkcheck explain p.cilk
  error: the version of a text is 1 or 2
   --> p.cilk:1
    |
  1 | cilk 3
    |      ^
    = help: write `cilk 1`, or `cilk 2` for `bump`, `pfor` and `digits`
  [2]

No `main`, painted as on a terminal. With ten lines the column of numbers is wider.

  $ printf 'cilk 1\n\n\n\n\n\n\n\nfunc f z\nend\n' > p.cilk
  $ cilkcheck explain p.cilk --color always
  \x1b[1;31merror\x1b[0m: there is no function `main` (esc)
    \x1b[1;34m-->\x1b[0m p.cilk:11 (esc)
    \x1b[1;34m |\x1b[0m (esc)
  \x1b[1;34m11 |\x1b[0m\x20 (esc)
    \x1b[1;34m |\x1b[0m \x1b[1;31m\x1b[0m (esc)
    \x1b[1;34m =\x1b[0m help: add the function with which the program begins: `func main z` (esc)
  [2]
