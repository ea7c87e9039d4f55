Texts that mean a trace, and what is answered to its requests.

A header alone, without a line feed.

  $ printf 'cilk 1' | cilkcheck judge

Blanks, a comment and a carriage return.

  $ printf '\tcilk  2 # the second\r\n' | cilkcheck judge

The words of the second version.

  $ cat > p.trace <<'END'
  > cilk 2
  > mem x
  > reducer h digits
  > bump 0 x 1
  > update 0 h 2
  > END
  $ cilkcheck judge p.trace
  1 granted
  2 granted

As many cells as there may be.

  $ cat > p.trace <<'END'
  > cilk 1
  > mem a 999999
  > mem b
  > read 0 a[999998]
  > END
  $ cilkcheck judge p.trace
  1 value 0

A name of 32 bytes.

  $ printf 'cilk 1\nmem a2345678901234567890123456789012\n' | cilkcheck judge

The greatest strand, value and mark. The strand does not run, which is no fault of the text.

  $ printf 'cilk 1\nmem x\nwrite 4294967295 x 18446744073709551615 @4294967295\n' | cilkcheck judge
  illegal not-running
  [2]

All words are names.

  $ cat > p.trace <<'END'
  > cilk 1
  > mem mem
  > mem read
  > reducer bump last
  > mem digits
  > read 0 read
  > END
  $ cilkcheck judge p.trace
  1 value 0
