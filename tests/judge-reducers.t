Verdicts on accesses of reducers: reads want equal peers, and combine views.

A get while a child is outstanding has other peers than the put; one behind the join finds the child's update.

  $ cilkcheck judge <<'END'
  > cilk 1
  > reducer h sum
  > put 0 h 0
  > spawn 0
  > update 1 h 5
  > get 2 h
  > return 1
  > sync 2
  > get 3 h
  > END
  1 granted
  2 split 1 2 3
  3 granted
  4 refused view-read 1
  5 ended
  6 joined 3
  7 value 5
  [1]

Of two updates of `last` the one of what goes on counts, though the child's comes later.

  $ cilkcheck judge <<'END'
  > cilk 1
  > reducer h last
  > put 0 h 1
  > spawn 0
  > update 2 h 7
  > update 1 h 5
  > return 1
  > sync 2
  > get 3 h
  > END
  1 granted
  2 split 1 2 3
  3 granted
  4 granted
  5 ended
  6 joined 3
  7 value 7

Of the updates of two children of one block that of the second counts.

  $ cilkcheck judge <<'END'
  > cilk 1
  > reducer h last
  > put 0 h 1
  > spawn 0
  > spawn 2
  > update 1 h 5
  > update 4 h 7
  > return 4
  > return 1
  > sync 5
  > get 3 h
  > END
  1 granted
  2 split 1 2 3
  3 split 4 5 3
  4 granted
  5 granted
  6 ended
  7 ended
  8 joined 3
  9 value 7

A get with no put before it.

  $ cilkcheck judge <<'END'
  > cilk 1
  > reducer h last
  > get 0 h
  > END
  1 refused unset
  [1]

A put sets its own reducer alone, and an update sets none: a get of the other one is unset.

  $ cilkcheck judge <<'END'
  > cilk 1
  > reducer h min
  > reducer g sum
  > put 0 h 5
  > update 0 g 5
  > get 0 g
  > put 0 g 2
  > get 0 g
  > END
  1 granted
  2 granted
  3 refused unset
  4 granted
  5 value 2
  [1]

A get beside a child's put.

  $ cilkcheck judge <<'END'
  > cilk 1
  > reducer h sum
  > spawn 0
  > put 1 h 5
  > get 2 h
  > END
  1 split 1 2 3
  2 granted
  3 refused view-read 2
  [1]

`digits` combines the child's update before that of what goes on, though it comes later.

  $ cilkcheck judge <<'END'
  > cilk 2
  > reducer h digits
  > put 0 h 0
  > spawn 0
  > update 2 h 2
  > update 1 h 1
  > return 1
  > sync 2
  > get 3 h
  > END
  1 granted
  2 split 1 2 3
  3 granted
  4 granted
  5 ended
  6 joined 3
  7 value 33

A child that put a value spawns a child of its own, and finds its update behind the join. A get beside them is refused.

  $ cilkcheck judge <<'END'
  > cilk 1
  > reducer h sum
  > spawn 0
  > put 1 h 5
  > spawn 1
  > update 4 h 1
  > return 4
  > sync 5
  > get 6 h
  > get 2 h
  > END
  1 split 1 2 3
  2 granted
  3 split 4 5 6
  4 granted
  5 ended
  6 joined 6
  7 value 6
  8 refused view-read 2
  [1]

A child's put has other peers than the put before the spawn. It is refused, and changes nothing.

  $ cilkcheck judge <<'END'
  > cilk 1
  > reducer h sum
  > put 0 h 1
  > spawn 0
  > put 1 h 9
  > return 1
  > sync 2
  > get 3 h
  > END
  1 granted
  2 split 1 2 3
  3 refused view-read 1
  4 ended
  5 joined 3
  6 value 1
  [1]

The same where the sync waits, and the child's return begins the join.

  $ cilkcheck judge <<'END'
  > cilk 1
  > reducer h sum
  > put 0 h 1
  > spawn 0
  > put 1 h 9
  > sync 2
  > return 1
  > get 3 h
  > END
  1 granted
  2 split 1 2 3
  3 refused view-read 1
  4 waits
  5 ended-joined 3
  6 value 1
  [1]

`sum` adds modulo 2^64.

  $ cilkcheck judge <<'END'
  > cilk 1
  > reducer h sum
  > put 0 h 18446744073709551615
  > update 0 h 2
  > get 0 h
  > END
  1 granted
  2 granted
  3 value 1

`min` takes the smallest of what was put and of both updates.

  $ cilkcheck judge <<'END'
  > cilk 1
  > reducer h min
  > put 0 h 9
  > spawn 0
  > update 1 h 4
  > update 2 h 6
  > return 1
  > sync 2
  > get 3 h
  > END
  1 granted
  2 split 1 2 3
  3 granted
  4 granted
  5 ended
  6 joined 3
  7 value 4

`max` takes the greatest.

  $ cilkcheck judge <<'END'
  > cilk 1
  > reducer h max
  > put 0 h 3
  > update 0 h 9
  > update 0 h 4
  > get 0 h
  > END
  1 granted
  2 granted
  3 granted
  4 value 9

Peers are those of the whole dag: ones that begin later do not count, and the child's are the same at its put and at its get, with a spawn
by another strand between the two.

  $ cilkcheck judge <<'END'
  > cilk 1
  > reducer h sum
  > spawn 0
  > put 1 h 5
  > spawn 2
  > get 1 h
  > END
  1 split 1 2 3
  2 granted
  3 split 4 5 3
  4 value 5
