Where the strands of two accesses part, and what encloses an access.

A request's mark is its number in the history that is told; accesses of one number stand beside a request of its strand. Two writes of a cell
ask where their strands part: they race if the strands are parallel. A get that finds nothing asks what encloses it.

Of the JSON of an explanation, the pairs are shown so: the group, the line of the spawn by which it is told, the kind, the cells or reducers
and how often, the spawn at which the two strands part, where its child comes to and where its next goes on; then the earlier access and the
refused one, each with its line and the spawns and calls that led there, the innermost first.

  $ cat > show.py <<'END'
  > import json, sys
  > def counted(count, word):
  >     return f"{count} {word}" if count == 1 else f"{count} {word}s"
  > def shown(access):
  >     led = "".join(f", {it['way']} {it['place']['line']}" for it in access["within"])
  >     print(f"   {access['place']['line']} {access['word']}{led}")
  > told = json.load(sys.stdin)
  > for race in told["races"]:
  >     spawn, parting = race["spawn_line"], race["parting"]
  >     line = f"{race['group']} (spawn {spawn})" if spawn else f"{race['group']} (no spawn)"
  >     line += f": {race['kind']} on {', '.join(race['locations'])}, {counted(race['times'], 'time')}"
  >     if parting:
  >         ways = [parting[it]["line"] for it in ("spawn", "child", "next")]
  >         line += ": part at {}, child to {}, next to {}".format(*ways)
  >     print(line)
  >     for access in (race["witness"], race["refused"]):
  >         if access:
  >             shown(access)
  > print(f"{counted(told['refusals'], 'refusal')}, {counted(told['pairs'], 'pair')}")
  > END

Two spawns one after another: the second is on the next side of the first. A strand is parallel neither to the strand that spawned it, nor
to the one that it goes on from, nor to itself.

  $ cat > p.trace <<'END'
  > cilk 1
  > mem a 7
  > write 0 a[4] 1 @1
  > spawn 0 @1
  > write 2 a[5] 1 @2
  > spawn 2 @2
  > write 1 a[0] 1 @3
  > write 4 a[0] 1 @4
  > write 4 a[1] 1 @4
  > write 1 a[1] 1 @3
  > write 1 a[2] 1 @3
  > write 5 a[2] 1 @5
  > write 4 a[3] 1 @4
  > write 5 a[3] 1 @5
  > write 1 a[4] 1 @3
  > write 5 a[5] 1 @5
  > write 4 a[6] 1 @4
  > write 4 a[6] 1 @4
  > END
  $ cilkcheck explain p.trace --format json --all | python3 show.py
  1 (spawn 1): write-write on a[0], 1 time: part at 1, child to 3, next to 2
     3 write, spawned 1
     4 write, spawned 2
  1 (spawn 1): write-write on a[1], 1 time: part at 1, child to 3, next to 2
     4 write, spawned 2
     3 write, spawned 1
  1 (spawn 1): write-write on a[2], 1 time: part at 1, child to 3, next to 5
     3 write, spawned 1
     5 write
  2 (spawn 2): write-write on a[3], 1 time: part at 2, child to 4, next to 5
     4 write, spawned 2
     5 write
  4 refusals, 4 pairs

A spawn by a child: what is on both of its sides is on the child's side of the outer one, its join as well. The join is parallel to neither
of its own sides.

  $ cat > p.trace <<'END'
  > cilk 1
  > mem a 6
  > spawn 0 @1
  > spawn 1 @2
  > write 4 a[0] 1 @4
  > write 2 a[0] 1 @3
  > write 4 a[1] 1 @4
  > write 5 a[1] 1 @5
  > write 2 a[2] 1 @3
  > write 5 a[2] 1 @5
  > write 4 a[4] 1 @4
  > write 5 a[5] 1 @5
  > return 4 @6
  > sync 5 @7
  > write 6 a[3] 1 @8
  > write 2 a[3] 1 @3
  > write 6 a[4] 1 @8
  > write 6 a[5] 1 @8
  > END
  $ cilkcheck explain p.trace --format json --all | python3 show.py
  1 (spawn 1): write-write on a[0], 1 time: part at 1, child to 4, next to 3
     4 write, spawned 2, spawned 1
     3 write
  1 (spawn 1): write-write on a[2], 1 time: part at 1, child to 5, next to 3
     3 write
     5 write, spawned 1
  1 (spawn 1): write-write on a[3], 1 time: part at 1, child to 8, next to 3
     8 write, spawned 1
     3 write
  2 (spawn 2): write-write on a[1], 1 time: part at 2, child to 4, next to 5
     4 write, spawned 2, spawned 1
     5 write, spawned 1
  4 refusals, 4 pairs

Two blocks, the first of a called function: what is before the sync reaches what is behind it.

  $ cat > p.trace <<'END'
  > cilk 1
  > mem a 5
  > call 0 @1
  > spawn 0 @2
  > write 1 a[0] 1 @3
  > write 2 a[0] 1 @4
  > write 1 a[2] 1 @3
  > write 2 a[3] 1 @4
  > write 1 a[4] 1 @3
  > sync 2 @4
  > return 1 @5
  > write 3 a[4] 1 @6
  > return 3 @6
  > spawn 3 @7
  > write 4 a[1] 1 @8
  > write 5 a[1] 1 @9
  > write 4 a[2] 1 @8
  > write 5 a[3] 1 @9
  > END
  $ cilkcheck explain p.trace --format json --all | python3 show.py
  1 (spawn 2): write-write on a[0], 1 time: part at 2, child to 3, next to 4
     3 write, spawned 2, called 1
     4 write, called 1
  2 (spawn 7): write-write on a[1], 1 time: part at 7, child to 8, next to 9
     8 write, spawned 7
     9 write
  2 refusals, 2 pairs

A call, in it a spawn, in the child a call that returns and another: what has returned encloses nothing, and a join stands where its block
began.

  $ cat > p.trace <<'END'
  > cilk 1
  > reducer h sum
  > get 0 h @1
  > get 0 h @2
  > call 0 @2
  > get 0 h @3
  > spawn 0 @3
  > get 1 h @4
  > call 1 @4
  > get 1 h @5
  > return 1 @6
  > call 1 @7
  > get 1 h @8
  > get 2 h @9
  > return 1 @10
  > get 1 h @11
  > return 1 @11
  > sync 2 @12
  > get 3 h @13
  > return 3 @14
  > get 3 h @15
  > END
  $ cilkcheck explain p.trace --format json --all | python3 show.py
  1 (no spawn): unset on h, 1 time
     1 get
  2 (no spawn): unset on h, 1 time
     2 get
  3 (no spawn): unset on h, 1 time
     3 get, called 2
  4 (no spawn): unset on h, 1 time
     4 get, spawned 3, called 2
  5 (no spawn): unset on h, 1 time
     5 get, called 4, spawned 3, called 2
  6 (no spawn): unset on h, 1 time
     8 get, called 7, spawned 3, called 2
  7 (no spawn): unset on h, 1 time
     9 get, called 2
  8 (no spawn): unset on h, 1 time
     11 get, spawned 3, called 2
  9 (no spawn): unset on h, 1 time
     13 get, called 2
  10 (no spawn): unset on h, 1 time
     15 get
  10 refusals, 10 pairs

A spawn by a child, and its join: the outer spawn encloses both, and the inner one its own child alone.

  $ cat > p.trace <<'END'
  > cilk 1
  > reducer h sum
  > spawn 0 @1
  > spawn 1 @2
  > get 4 h @3
  > get 5 h @4
  > return 4 @5
  > sync 5 @6
  > get 6 h @7
  > get 2 h @8
  > END
  $ cilkcheck explain p.trace --format json --all | python3 show.py
  1 (no spawn): unset on h, 1 time
     3 get, spawned 2, spawned 1
  2 (no spawn): unset on h, 1 time
     4 get, spawned 1
  3 (no spawn): unset on h, 1 time
     7 get, spawned 1
  4 (no spawn): unset on h, 1 time
     8 get
  4 refusals, 4 pairs

In a loop of 50 spawns the children of the 20th and of the 40th part at the 20th, and the root function's first strand is parallel to none.

  $ cat > loop.py <<'END'
  > print("cilk 1\nmem x\nmem y\nwrite 0 y 1 @1\nspawn 0 @1\nspawn 2 @2")
  > for before in range(2, 50):
  >     print(f"spawn {2 * before + 1} @{before + 1}")
  > print("write 40 x 1 @51\nwrite 80 x 1 @52\nwrite 80 y 1 @52")
  > END
  $ python3 loop.py > p.trace
  $ cilkcheck explain p.trace --format json --all | python3 show.py
  1 (spawn 20): write-write on x, 1 time: part at 20, child to 51, next to 40
     51 write, spawned 20
     52 write, spawned 40
  1 refusal, 1 pair

In one of 100,000 spawns the child of the 50,000th and what goes on behind the last part at the 50,000th. Nothing encloses what spawns.

  $ cat > loop.py <<'END'
  > print("cilk 1\nmem x\nreducer h sum\nspawn 0 @1\nspawn 2 @2")
  > for before in range(2, 100000):
  >     if before + 1 == 70000:
  >         print("get 139999 h @70000")
  >     print(f"spawn {2 * before + 1} @{before + 1}")
  > print("write 100000 x 1 @100001\nwrite 200001 x 1 @100002")
  > END
  $ python3 loop.py > p.trace
  $ cilkcheck explain p.trace --format json --all | python3 show.py
  1 (no spawn): unset on h, 1 time
     70000 get
  2 (spawn 50000): write-write on x, 1 time: part at 50000, child to 100001, next to 100002
     100001 write, spawned 50000
     100002 write
  2 refusals, 2 pairs
