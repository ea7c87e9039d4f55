All faults of a text at once, and the whole text about them.

Programs.

A misspelled keyword, a misspelled cell and a missing word: each has nothing to do with the others.

  $ cat > p.cilk <<'END'
  > cilk 1
  > mem total
  > func main z
  >   wirte total 1
  >   read r totl
  >   spawn
  > end
  > END
  $ cilkcheck explain p.cilk
  error: no line of a program begins with this word
   --> p.cilk:4
    |
  4 |   wirte total 1
    |   ^^^^^
    = help: did you mean `write`?
   (esc)
  error: no cell has this name
   --> p.cilk:5
    |
  5 |   read r totl
    |          ^^^^
    = help: did you mean `total`?
   (esc)
  error: a word is missing
   --> p.cilk:6
    |
  6 |   spawn
    |   ^^^^^
    = help: the form of this line is `spawn FUNCTION VALUE`
   (esc)
  3 faults
  [2]

The array of the first fault is unknown in lines 4 and 5, which are passed over, and not in line 6.

  $ cat > p.cilk <<'END'
  > cilk 1
  > mem cells[4]
  > func main z
  >   write cells[1] z
  >   write cells[2] cuont
  >   let count = x1
  > end
  > END
  $ cilkcheck explain p.cilk
  error: an array is declared by its name and its length
   --> p.cilk:2
    |
  2 | mem cells[4]
    |     ^^^^^^^^
    = help: write `mem cells 4`
   (esc)
  error: no line above assigns this register
   --> p.cilk:6
    |
  6 |   let count = x1
    |               ^^
    = help: assign it on a line above, as by `let x1 = 0`
   (esc)
  2 faults
  [2]

The `if` of the first fault has an `end`, which would end the function: what is behind it is in doubt.

  $ cat > p.cilk <<'END'
  > cilk 1
  > func main z
  >   if 1
  >   end
  >   write x 1
  > end
  > END
  $ cilkcheck explain p.cilk
  error: a number stands where a register is wanted
   --> p.cilk:3
    |
  3 |   if 1
    |      ^
    = help: assign a register first: `let t = 1`, then `if t`
  [2]

A misspelled `end`, behind which the next function would begin in this one.

  $ cat > p.cilk <<'END'
  > cilk 1
  > func f v
  >   sync
  > edn
  > func main z
  > end
  > END
  $ cilkcheck explain p.cilk
  error: no line of a program begins with this word
   --> p.cilk:4
    |
  4 | edn
    | ^^^
    = help: did you mean `end`?
  [2]

Letters that are no ASCII behind `func`: the text is to mean a program all the same.

  $ printf 'cilk 1\nmem x # \303\251\nfunc main z # \303\251\nend\n' > p.cilk
  $ cilkcheck explain p.cilk
  error: a line has printable ASCII characters and tabs alone, in comments too
   --> p.cilk:2
    |
  2 | mem x # \xc3\xa9 (esc)
    |         ^
    = help: write it in ASCII, or leave it out
   (esc)
  error: a line has printable ASCII characters and tabs alone, in comments too
   --> p.cilk:3
    |
  3 | func main z # \xc3\xa9 (esc)
    |               ^
    = help: write it in ASCII, or leave it out
   (esc)
  2 faults
  [2]
  $ printf 'cilk 1\nmem g\303\266 2\nmem y\nmem y\nfunc \303\244\n  write y 1\nend\n' > p.cilk
  $ cilkcheck explain p.cilk
  error: a line has printable ASCII characters and tabs alone, in comments too
   --> p.cilk:2
    |
  2 | mem g\xc3\xb6 2 (esc)
    |      ^
    = help: write it in ASCII, or leave it out
   (esc)
  error: a name is declared already; memories, reducers and functions share one space of names
   --> p.cilk:4
    |
  4 | mem y
    |     ^
    = `y` is declared at line 3
    = help: take another name for one of them
   (esc)
  error: a line has printable ASCII characters and tabs alone, in comments too
   --> p.cilk:5
    |
  5 | func \xc3\xa4 (esc)
    |      ^
    = help: write it in ASCII, or leave it out
   (esc)
  3 faults
  [2]

A first word with such a letter decides nothing: the next line does.

  $ printf 'cilk 1\nm\303\251m x\nfunc main z\n  wirte x 1\nend\n' > p.cilk
  $ cilkcheck explain p.cilk
  error: a line has printable ASCII characters and tabs alone, in comments too
   --> p.cilk:2
    |
  2 | m\xc3\xa9m x (esc)
    |  ^
    = help: write it in ASCII, or leave it out
   (esc)
  error: no line of a program begins with this word
   --> p.cilk:4
    |
  4 |   wirte x 1
    |   ^^^^^
    = help: did you mean `write`?
   (esc)
  2 faults
  [2]

A mark before the header, without which the header is another one.

  $ printf '\357\273\277cilk 1\nfunc main\n' > p.cilk
  $ cilkcheck explain p.cilk
  error: a byte-order mark stands before the header
   --> p.cilk:1
    |
  1 | \xef\xbb\xbfcilk 1 (esc)
    | ^
    = help: save the file without a byte-order mark
  [2]

Traces.

A misspelled request, a misspelled cell, and a declaration behind a request.

  $ cat > p.cilk <<'END'
  > cilk 1
  > mem total
  > read 0 total
  > wirte 0 total 1
  > read 0 totl
  > mem y
  > read 0 y
  > END
  $ cilkcheck explain p.cilk
  error: no line of a trace begins with this word
   --> p.cilk:4
    |
  4 | wirte 0 total 1
    | ^^^^^
    = help: did you mean `write`?
   (esc)
  error: no cell has this name
   --> p.cilk:5
    |
  5 | read 0 totl
    |        ^^^^
    = help: did you mean `total`?
   (esc)
  error: declarations stand before the first request
   --> p.cilk:6
    |
  6 | mem y
    | ^^^^^
    = the first request stands at line 3
    = help: move this line above that one
   (esc)
  3 faults
  [2]

A program whose first function is misspelled.

  $ cat > p.cilk <<'END'
  > cilk 1
  > mem x
  > fucn main z
  >   write x z
  > end
  > END
  $ cilkcheck explain p.cilk
  error: no line of a trace begins with this word
   --> p.cilk:3
    |
  3 | fucn main z
    | ^^^^
    = help: did you mean `func`, as in a program?
  [2]

What is told behind the first 20 faults of a text is the last line alone.

  $ { echo 'cilk 1'; seq 20 | sed 's/.*/syn 0/'; } > p.cilk; cilkcheck explain p.cilk | tail -n 2
   (esc)
  20 faults
  $ { echo 'cilk 1'; seq 21 | sed 's/.*/syn 0/'; } > p.cilk; cilkcheck explain p.cilk | tail -n 2
   (esc)
  the first 20 faults; mend these, and explain the file again for more
