The warnings of a program stand before what is told of its run.

Each warning but that of a reducer. `x` in line 7 is the register, and a register is told once in its function.

  $ cat > p.cilk <<'END'
  > cilk 1
  > mem x
  > mem a 4
  > reducer h sum
  > func main z
  > let x = 1
  > write a[5] x
  > read y a[4]
  > call sum_up 3
  > end
  > func sum_up h
  > let a = h + 1
  > let a = a + 1
  > end
  > func unused z
  > get r h
  > write a[9] 1
  > end
  > END
  $ cilkcheck explain p.cilk
  warning: `x` is a register here, and a memory by the declaration at line 2
    --> p.cilk:6
     |
   6 | let x = 1
     |     ^
   (esc)
  warning: the index 5 wraps at the length of the array, 4
    --> p.cilk:7
     |
   7 | write a[5] x
     |         ^
   (esc)
  warning: the index 4 wraps at the length of the array, 4
    --> p.cilk:8
     |
   8 | read y a[4]
     |          ^
   (esc)
  warning: `h` is a register here, and a reducer by the declaration at line 4
    --> p.cilk:11
     |
  11 | func sum_up h
     |             ^
   (esc)
  warning: `a` is a register here, and a memory by the declaration at line 3
    --> p.cilk:12
     |
  12 | let a = h + 1
     |     ^
   (esc)
  warning: no spawn or call leads from `main` to `unused`
    --> p.cilk:15
     |
  15 | func unused z
     |      ^^^^^^
   (esc)
  clean for every schedule: no run of this program has a race, and each leaves this memory
  x 0
  a[0] 0
  a[1] 1
  a[2] 0
  a[3] 0

A reducer that is put in a function alone that is not reached.

  $ cat > p.cilk <<'END'
  > cilk 1
  > reducer s last
  > func main z
  > get a s
  > end
  > func f v
  > put s v
  > end
  > END
  $ cilkcheck explain p.cilk
  warning: `s` is read here, and no function that `main` reaches has a `put` of it
   --> p.cilk:4
    |
  4 | get a s
    |       ^
   (esc)
  warning: no spawn or call leads from `main` to `f`
   --> p.cilk:6
    |
  6 | func f v
    |      ^
   (esc)
  unset get: nothing was put before into s, 1 time
   --> p.cilk:4
    |
  4 | get a s
    | ^^^^^^^ this get, in `main`, finds nothing
    = help: a `put` into it has to come first in the serial order
   (esc)
  1 refusal at 1 pair of lines, among 3 requests
  [1]

Functions that a `pfor`, a spawn and a call reach, the last from one that the text has behind it; one that calls itself alone; a reducer
that a reached function puts; and an index that is just below the length.

  $ cat > p.cilk <<'END'
  > cilk 2
  > mem a 2
  > reducer h sum
  > func second v
  > put h v
  > get r h
  > end
  > func alone v
  > call alone v
  > end
  > func first v
  > write a[1] v
  > end
  > func main z
  > pfor i 1 first
  > spawn third 1
  > sync
  > end
  > func third v
  > call second v
  > end
  > END
  $ cilkcheck explain p.cilk
  warning: no spawn or call leads from `main` to `alone`
    --> p.cilk:8
     |
   8 | func alone v
     |      ^^^^^
   (esc)
  clean for every schedule: no run of this program has a race, and each leaves this memory
  a[0] 0
  a[1] 0

One warning more than are told with their lines.

  $ cat > p.cilk <<'END'
  > cilk 1
  > mem a
  > func main z
  > end
  > func f1 a
  > end
  > func f2 a
  > end
  > func f3 a
  > end
  > func f4 a
  > end
  > func f5 a
  > end
  > func f6 a
  > end
  > func f7 a
  > end
  > func f8 a
  > end
  > func f9 a
  > end
  > func g1 a
  > end
  > func g2 z
  > end
  > END
  $ cilkcheck explain p.cilk
  warning: no spawn or call leads from `main` to `f1`
    --> p.cilk:5
     |
   5 | func f1 a
     |      ^^
   (esc)
  warning: `a` is a register here, and a memory by the declaration at line 2
    --> p.cilk:5
     |
   5 | func f1 a
     |         ^
   (esc)
  warning: no spawn or call leads from `main` to `f2`
    --> p.cilk:7
     |
   7 | func f2 a
     |      ^^
   (esc)
  warning: `a` is a register here, and a memory by the declaration at line 2
    --> p.cilk:7
     |
   7 | func f2 a
     |         ^
   (esc)
  warning: no spawn or call leads from `main` to `f3`
    --> p.cilk:9
     |
   9 | func f3 a
     |      ^^
   (esc)
  warning: `a` is a register here, and a memory by the declaration at line 2
    --> p.cilk:9
     |
   9 | func f3 a
     |         ^
   (esc)
  warning: no spawn or call leads from `main` to `f4`
    --> p.cilk:11
     |
  11 | func f4 a
     |      ^^
   (esc)
  warning: `a` is a register here, and a memory by the declaration at line 2
    --> p.cilk:11
     |
  11 | func f4 a
     |         ^
   (esc)
  warning: no spawn or call leads from `main` to `f5`
    --> p.cilk:13
     |
  13 | func f5 a
     |      ^^
   (esc)
  warning: `a` is a register here, and a memory by the declaration at line 2
    --> p.cilk:13
     |
  13 | func f5 a
     |         ^
   (esc)
  warning: no spawn or call leads from `main` to `f6`
    --> p.cilk:15
     |
  15 | func f6 a
     |      ^^
   (esc)
  warning: `a` is a register here, and a memory by the declaration at line 2
    --> p.cilk:15
     |
  15 | func f6 a
     |         ^
   (esc)
  warning: no spawn or call leads from `main` to `f7`
    --> p.cilk:17
     |
  17 | func f7 a
     |      ^^
   (esc)
  warning: `a` is a register here, and a memory by the declaration at line 2
    --> p.cilk:17
     |
  17 | func f7 a
     |         ^
   (esc)
  warning: no spawn or call leads from `main` to `f8`
    --> p.cilk:19
     |
  19 | func f8 a
     |      ^^
   (esc)
  warning: `a` is a register here, and a memory by the declaration at line 2
    --> p.cilk:19
     |
  19 | func f8 a
     |         ^
   (esc)
  warning: no spawn or call leads from `main` to `f9`
    --> p.cilk:21
     |
  21 | func f9 a
     |      ^^
   (esc)
  warning: `a` is a register here, and a memory by the declaration at line 2
    --> p.cilk:21
     |
  21 | func f9 a
     |         ^
   (esc)
  warning: no spawn or call leads from `main` to `g1`
    --> p.cilk:23
     |
  23 | func g1 a
     |      ^^
   (esc)
  warning: `a` is a register here, and a memory by the declaration at line 2
    --> p.cilk:23
     |
  23 | func g1 a
     |         ^
   (esc)
  and 1 more warning
   (esc)
  clean for every schedule: no run of this program has a race, and each leaves this memory
  a 0

Indexes that a register holds, and that wrap at the length of their array in the run that is told: at each line the first one, of a clean,
a cut and a racy run, and in each form. Three accesses have an index that wraps, the last at two indexes; one has none.

  $ cat > p.cilk <<'END'
  > cilk 1
  > mem a 4
  > func main z
  > let i = 5
  > write a[i] 1
  > let j = 3
  > write a[j] 2
  > call f 6
  > call f 9
  > end
  > func f k
  > read r a[k]
  > end
  > END
  $ cilkcheck explain p.cilk
  warning: in this run, the index in `main` is 5 and wraps at the length of the array, 4
    --> p.cilk:5
     |
   5 | write a[i] 1
     |         ^
   (esc)
  warning: in this run, the index in `f` is 6 and wraps at the length of the array, 4
    --> p.cilk:12
     |
  12 | read r a[k]
     |          ^
   (esc)
  clean for every schedule: no run of this program has a race, and each leaves this memory
  a[0] 0
  a[1] 1
  a[2] 0
  a[3] 2
  $ cilkcheck explain p.cilk --serial --format json
  {"memory":[{"cell":"a[0]","value":0},{"cell":"a[1]","value":1},{"cell":"a[2]","value":0},{"cell":"a[3]","value":2}],"outcome":"clean","pairs":0,"races":[],"recorded":[],"refusals":0,"requests":12,"traces":0,"untold":[],"version":1,"warned":2,"warnings":[{"message":"in this run, the index in `main` is 5 and wraps at the length of the array, 4","place":{"code":"write a[i] 1","column":null,"file":"p.cilk","function":null,"line":5},"rule":"wrapped-index"},{"message":"in this run, the index in `f` is 6 and wraps at the length of the array, 4","place":{"code":"read r a[k]","column":null,"file":"p.cilk","function":null,"line":12},"rule":"wrapped-index"}]} (no-eol)
  $ cilkcheck explain p.cilk --serial --format sarif
  {"$schema":"https://json.schemastore.org/sarif-2.1.0.json","runs":[{"invocations":[{"executionSuccessful":true,"toolExecutionNotifications":[]}],"properties":{"memory":[{"cell":"a[0]","value":0},{"cell":"a[1]","value":1},{"cell":"a[2]","value":0},{"cell":"a[3]","value":2}],"more":null,"outcome":"clean","pairs":0,"recorded":[],"refusals":0,"requests":12,"traces":0,"untold":[],"version":1,"warned":2},"results":[{"level":"warning","locations":[{"logicalLocations":[],"physicalLocation":{"artifactLocation":{"uri":"p.cilk"},"region":{"snippet":{"text":"write a[i] 1"},"startLine":5}}}],"message":{"text":"in this run, the index in `main` is 5 and wraps at the length of the array, 4."},"occurrenceCount":1,"properties":{},"relatedLocations":[],"ruleId":"wrapped-index","ruleIndex":8},{"level":"warning","locations":[{"logicalLocations":[],"physicalLocation":{"artifactLocation":{"uri":"p.cilk"},"region":{"snippet":{"text":"read r a[k]"},"startLine":12}}}],"message":{"text":"in this run, the index in `f` is 6 and wraps at the length of the array, 4."},"occurrenceCount":1,"properties":{},"relatedLocations":[],"ruleId":"wrapped-index","ruleIndex":8}],"tool":{"driver":{"name":"cilkcheck","rules":[{"defaultConfiguration":{"level":"error"},"fullDescription":{"text":"Two strands that may run at the same time access one cell, and the order of the two accesses matters. So two runs of the program may differ."},"help":{"text":"Order the two by a sync, give each strand a cell of its own, or use a reducer."},"id":"determinacy-race","name":"DeterminacyRace","shortDescription":{"text":"Two accesses of one cell may run in either order."}},{"defaultConfiguration":{"level":"error"},"fullDescription":{"text":"Two reads of one reducer are of strands with different peers: other strands may run at the same time as one than as the other. What a read finds may depend on the schedule."},"help":{"text":"Move the read behind the sync that waits for the spawn."},"id":"view-read-race","name":"ViewReadRace","shortDescription":{"text":"A reducer is read with other peers than before."}},{"defaultConfiguration":{"level":"error"},"fullDescription":{"text":"A get of a reducer comes before any granted put or get of it."},"help":{"text":"Put a value into the reducer first, in the serial order."},"id":"unset-get","name":"UnsetGet","shortDescription":{"text":"A reducer is read before it is put."}},{"defaultConfiguration":{"level":"error"},"fullDescription":{"text":"A line of the text breaks the rules of programs or of traces. So nothing was run or judged."},"help":{"text":"Write the line as the message says."},"id":"text-fault","name":"TextFault","shortDescription":{"text":"The text means no program and no trace."}},{"defaultConfiguration":{"level":"error"},"fullDescription":{"text":"No history allows the request at its place. So the requests behind it were not judged."},"help":{"text":"Record the trace again, or mend the request."},"id":"illegal-request","name":"IllegalRequest","shortDescription":{"text":"A request of the trace is illegal."}},{"defaultConfiguration":{"level":"warning"},"fullDescription":{"text":"A register is another thing than the memory or reducer of the same name: assigning it writes no cell."},"help":{"text":"Access the memory or reducer by a request, or give the register another name."},"id":"declared-register","name":"DeclaredRegister","shortDescription":{"text":"A register bears the name of a memory or a reducer."}},{"defaultConfiguration":{"level":"warning"},"fullDescription":{"text":"No spawn or call leads from main to the function."},"help":{"text":"Spawn the function, call it, or leave it out."},"id":"unreached-function","name":"UnreachedFunction","shortDescription":{"text":"A function is never reached."}},{"defaultConfiguration":{"level":"warning"},"fullDescription":{"text":"No function that main reaches puts the reducer, so each get of it is refused as unset."},"help":{"text":"Put a value into the reducer first."},"id":"unput-reducer","name":"UnputReducer","shortDescription":{"text":"A reducer is read and never put."}},{"defaultConfiguration":{"level":"warning"},"fullDescription":{"text":"The index is not below the length of the array, and means its remainder by the length."},"help":{"text":"Write an index below the length."},"id":"wrapped-index","name":"WrappedIndex","shortDescription":{"text":"An index wraps at the length of its array."}}]}}}],"version":"2.1.0"} (no-eol)

The limit ends the run before the last access, whose index would wrap too.

  $ cat > p.cilk <<'END'
  > cilk 1
  > mem a 2
  > func main z
  > let i = 2
  > write a[i] 1
  > write a[1] 1
  > write a[i] 2
  > end
  > END
  $ cilkcheck explain p.cilk --workers 1 --limit 2
  warning: in this run, the index in `main` is 2 and wraps at the length of the array, 2
   --> p.cilk:5
    |
  5 | write a[i] 1
    |         ^
   (esc)
  0 refusals at 0 pairs of lines, among 2 requests
  this is no whole run: the limit ended it after 2 requests, and there may be more to tell
  [4]

An index wraps to a cell that another strand writes.

  $ cat > p.cilk <<'END'
  > cilk 1
  > mem a 2
  > func main z
  > spawn f 2
  > write a[0] 1
  > end
  > func f k
  > write a[k] 2
  > end
  > END
  $ cilkcheck explain p.cilk --workers 1
  warning: in this run, the index in `f` is 2 and wraps at the length of the array, 2
   --> p.cilk:8
    |
  8 | write a[k] 2
    |         ^
   (esc)
  race: write-write on a[0], 1 time
   --> p.cilk:8
    |
  5 | write a[0] 1
    | ------------ this write, in `main`
    |
  8 | write a[k] 2
    | ^^^^^^^^^^^^ this write, in `f`, may run before it or after it
    = spawned at line 4, in `main`: spawn f 2
    |
  4 | spawn f 2
    | --------- here they part: what is spawned comes to line 8, while `main` goes on to line 5
    = help: a `sync` in `main` before line 5 would order them
   (esc)
  1 refusal at 1 pair of lines, among 7 requests
  [1]
