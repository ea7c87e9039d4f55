Words of the command line that are refused. Values that are refused, and why.

  $ cilkcheck judge --limit 1000001
  cilkcheck: invalid value for '--limit <N>': a number from 0 to 1000000 is wanted
  [2]
  $ cilkcheck judge --limit many
  cilkcheck: invalid value for '--limit <N>': a number from 0 to 1000000 is wanted
  [2]
  $ cilkcheck elide f --limit 1000001
  cilkcheck: invalid value for '--limit <N>': a number from 0 to 1000000 is wanted
  [2]
  $ cilkcheck run f --workers 0
  cilkcheck: invalid value for '--workers <N>': a number from 1 to 64 is wanted
  [2]
  $ cilkcheck run f --workers 65
  cilkcheck: invalid value for '--workers <N>': a number from 1 to 64 is wanted
  [2]
  $ cilkcheck explain f --color red
  cilkcheck: invalid value for '--color <WHEN>': auto, always or never is wanted
  [2]
  $ cilkcheck explain f --format xml
  cilkcheck: invalid value for '--format <FORM>': text, json or sarif is wanted
  [2]
  $ cilkcheck explain f g --format JSON
  cilkcheck: invalid value for '--format <FORM>': text, json or sarif is wanted
  [2]
  $ cilkcheck run f --trace g --limit 1000001
  cilkcheck: invalid value for '--limit <N>': a number from 0 to 1000000 is wanted
  [2]

Files that are refused, or lacking.

  $ cilkcheck replay - -
  cilkcheck: '-' is given twice: standard input is the program or the trace, and not both
  [2]
  $ cilkcheck run - --trace g
  cilkcheck: a trace belongs to a program that is in a file, which is not standard input: name it
  [2]
  $ cilkcheck elide
  cilkcheck: no file is given; see 'cilkcheck --help'
  [2]
  $ cilkcheck explain
  cilkcheck: no file is given; see 'cilkcheck --help'
  [2]
  $ cilkcheck explain f - g
  cilkcheck: '-' is given among several files: standard input is explained alone
  [2]
  $ cilkcheck explain f g --workers 2
  cilkcheck: '--workers <N>', '--serial' and '--limit <N>' are for one file: several are traces, which are not run
  [2]
  $ cilkcheck explain --limit 5 f g
  cilkcheck: '--workers <N>', '--serial' and '--limit <N>' are for one file: several are traces, which are not run
  [2]
  $ cilkcheck replay f
  cilkcheck: no file is given; see 'cilkcheck --help'
  [2]
  $ cilkcheck draw
  cilkcheck: no file is given; see 'cilkcheck --help'
  [2]
  $ cilkcheck draw --svg
  cilkcheck: no file is given; see 'cilkcheck --help'
  [2]
  $ cilkcheck run --trace f
  cilkcheck: no file is given; see 'cilkcheck --help'
  [2]
  $ cilkcheck run f --trace f
  cilkcheck: the trace would be written over the program: name another file with '--trace <OUT>'
  [2]

Words that are not expected.

  $ cilkcheck elide f g
  cilkcheck: unexpected argument 'g' found
  [2]
  $ cilkcheck replay f g h
  cilkcheck: unexpected argument 'h' found
  [2]
  $ cilkcheck draw g h
  cilkcheck: unexpected argument 'h' found
  [2]
  $ cilkcheck judge x y
  cilkcheck: unexpected argument 'y' found
  [2]
  $ cilkcheck elide f --trace g
  cilkcheck: unexpected argument '--trace' found
  [2]

A word that is none, and which may be meant.

  $ cilkcheck jugde
  cilkcheck: unrecognized subcommand 'jugde'; a similar subcommand exists: 'judge'
  [2]
  $ cilkcheck expain f
  cilkcheck: unrecognized subcommand 'expain'; a similar subcommand exists: 'explain'
  [2]
  $ cilkcheck explain f --serail
  cilkcheck: unexpected argument '--serail' found; a similar argument exists: '--serial'
  [2]
  $ cilkcheck find f
  cilkcheck: unrecognized subcommand 'find'
  [2]
  $ cilkcheck
  cilkcheck: no command is given; see 'cilkcheck --help'
  [2]

Words that ask for the help or the version, and a part of it.

  $ cilkcheck --help | grep ^Usage
  Usage: cilkcheck [COMMAND]
  $ cilkcheck judge --help | grep ^Usage
  Usage: cilkcheck judge [OPTIONS] [FILE]
  $ cilkcheck elide --help | grep ^Usage
  Usage: cilkcheck elide [OPTIONS] <FILE>
  $ cilkcheck run --help | grep ^Usage
  Usage: cilkcheck run [OPTIONS] <FILE>
  $ cilkcheck explain --help | grep ^Usage
  Usage: cilkcheck explain [OPTIONS] <FILE>...
  $ cilkcheck replay --help | grep ^Usage
  Usage: cilkcheck replay <FILE> <TRACE>
  $ cilkcheck draw --help | grep ^Usage
  Usage: cilkcheck draw [OPTIONS] <TRACE>
  $ cilkcheck draw --help | grep -o 'cilkcheck draw both.trace --svg > dag.svg$'
  cilkcheck draw both.trace --svg > dag.svg
  $ cilkcheck --version | head -1
  cilkcheck 0.1.0
