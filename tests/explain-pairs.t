Pairs of lines that raced, and how their strands came about.

Of the JSON of an explanation, the pairs are shown so: the group, the line of the spawn by which it is told, the kind, the cells or reducers
and how often, the spawn at which the two strands part, where its child comes to and where its next goes on; then the earlier access and the
refused one, each with its line and the spawns and calls that led there, the innermost first.

  $ cat > show.py <<'END'
  > import json, sys
  > def counted(count, word):
  >     return f"{count} {word}" if count == 1 else f"{count} {word}s"
  > def shown(access):
  >     led = "".join(f", {it['way']} {it['place']['line']}" for it in access["within"])
  >     print(f"   {access['place']['line']} {access['word']}{led}")
  > told = json.load(sys.stdin)
  > for race in told["races"]:
  >     spawn, parting = race["spawn_line"], race["parting"]
  >     line = f"{race['group']} (spawn {spawn})" if spawn else f"{race['group']} (no spawn)"
  >     line += f": {race['kind']} on {', '.join(race['locations'])}, {counted(race['times'], 'time')}"
  >     if parting:
  >         ways = [parting[it]["line"] for it in ("spawn", "child", "next")]
  >         line += ": part at {}, child to {}, next to {}".format(*ways)
  >     print(line)
  >     for access in (race["witness"], race["refused"]):
  >         if access:
  >             shown(access)
  > print(f"{counted(told['refusals'], 'refusal')}, {counted(told['pairs'], 'pair')}")
  > END

The same two lines race at two spawns: these are two pairs. Of the one that raced twice the first refusal is told, and not the one in the
call.

  $ cat > p.trace <<'END'
  > cilk 1
  > mem x
  > mem y
  > spawn 0 @1
  > write 1 x 1 @5
  > spawn 2 @3
  > write 4 y 1 @5
  > write 5 x 2 @7
  > write 5 y 2 @7
  > call 5 @9
  > write 5 x 3 @7
  > END
  $ cilkcheck explain p.trace --format json --all | python3 show.py
  1 (spawn 1): write-write on x, 2 times: part at 1, child to 5, next to 7
     5 write, spawned 1
     7 write
  2 (spawn 3): write-write on y, 1 time: part at 3, child to 5, next to 7
     5 write, spawned 3
     7 write
  3 refusals, 2 pairs

In a called function a child calls another, and what goes on a third.

  $ cat > p.trace <<'END'
  > cilk 1
  > mem x
  > call 0 @1
  > spawn 0 @2
  > call 1 @5
  > write 1 x 1 @9
  > return 1 @10
  > call 2 @3
  > write 2 x 2 @12
  > END
  $ cilkcheck explain p.trace --format json --all | python3 show.py
  1 (spawn 2): write-write on x, 1 time: part at 2, child to 9, next to 3
     9 write, called 5, spawned 2, called 1
     12 write, called 3, called 1
  1 refusal, 1 pair

The witness is on the side that goes on, and nothing that the spawn's function called encloses it.

  $ cat > p.trace <<'END'
  > cilk 1
  > mem x
  > spawn 0 @1
  > write 2 x 1 @4
  > write 1 x 2 @5
  > END
  $ cilkcheck explain p.trace --format json --all | python3 show.py
  1 (spawn 1): write-write on x, 1 time: part at 1, child to 5, next to 4
     4 write
     5 write, spawned 1
  1 refusal, 1 pair

The races of two spawns, those of the outer one first and last, between them two of no spawn. Each of these is a group of its own.

  $ cat > p.trace <<'END'
  > cilk 1
  > mem x
  > mem y
  > reducer h sum
  > spawn 0 @1
  > write 1 x 1 @5
  > get 2 h @2
  > spawn 2 @3
  > write 4 y 1 @6
  > write 5 x 2 @7
  > write 5 y 2 @8
  > get 5 h @9
  > write 5 x 3 @9
  > END
  $ cilkcheck explain p.trace --format json --all | python3 show.py
  1 (no spawn): unset on h, 1 time
     2 get
  2 (spawn 1): write-write on x, 1 time: part at 1, child to 5, next to 7
     5 write, spawned 1
     7 write
  2 (spawn 1): write-write on x, 1 time: part at 1, child to 5, next to 9
     5 write, spawned 1
     9 write
  3 (spawn 3): write-write on y, 1 time: part at 3, child to 6, next to 8
     6 write, spawned 3
     8 write
  4 (no spawn): unset on h, 1 time
     9 get
  5 refusals, 5 pairs

Where nothing races there is no group.

  $ printf 'cilk 1\nmem x\nspawn 0 @1\nwrite 1 x 1 @5\n' | cilkcheck explain - --format json --all | python3 show.py
  0 refusals, 0 pairs

A child writes on line 1, and what follows it writes on each of 25 lines: the first twenty pairs are told, and all are counted. Two of them
race once more, in a call. The first refusal of each is told, and a granted write on line 11 is none.

  $ {
  >   printf 'cilk 1\nmem x\nmem y\nspawn 0 @1\nwrite 1 x 1 @1\n'
  >   for line in $(seq 11 35); do echo "write 2 x 1 @$line"; done
  >   printf 'write 2 y 1 @11\ncall 2 @9\nwrite 2 x 1 @35\nwrite 2 x 1 @12\n'
  > } > p.trace
  $ for line in $(seq 11 30); do
  >   if [ $line = 12 ]; then times='2 times'; else times='1 time'; fi
  >   printf "1 (spawn 1): write-write on x, $times: part at 1, child to 1, next to $line\n   1 write, spawned 1\n   $line write\n"
  > done > wanted
  $ echo '27 refusals, 25 pairs' >> wanted
  $ cilkcheck explain p.trace --format json | python3 show.py | cmp - wanted

A chain of 100,000 spawns: the first child writes a cell, and the strand behind the last spawn writes it as often. Each refusal lies as deep
as the chain, so climbs from spawner to spawner would take hours.

  $ cat > chain.py <<'END'
  > print("cilk 1\nmem x\nspawn 0 @1\nwrite 1 x 1 @5\nspawn 2 @2")
  > for at in range(2, 100000):
  >     print(f"spawn {2 * at + 1} @{at + 1}")
  > for _ in range(100000):
  >     print("write 200001 x 2 @7")
  > END
  $ python3 chain.py > p.trace
  $ cilkcheck explain p.trace --format json --all | python3 show.py
  1 (spawn 1): write-write on x, 100000 times: part at 1, child to 5, next to 7
     5 write, spawned 1
     7 write
  100000 refusals, 1 pair
