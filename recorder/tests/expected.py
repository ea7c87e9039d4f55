"""What a source says in its comments that its recording has to show.

`race: a` stands at both lines that race (at one line twice, as `race: a a`, where it races with itself); a label on
more lines allows each pair of them, and one has to be found. `spawn: a` stands at the lines of spawns at which the two
may part. `refused` stands at the line that is refused. Labels are separated by spaces; a comma separates the kinds;
what stands behind a semicolon is for the reader.
"""
import re
from collections import Counter
from pathlib import Path

COMMENT = re.compile(r"/\*(.*?)\*/|//(.*)")


class Expected:
    def __init__(self, source):
        self.source = Path(source)
        self.race, self.spawn, self.refused = {}, {}, []
        for number, line in enumerate(self.source.read_text().splitlines(), 1):
            for found in COMMENT.finditer(line):
                for part in (found[1] or found[2] or "").split(";")[0].split(","):
                    kind, _, labels = part.strip().partition(":")
                    if kind == "refused" and not labels.strip():
                        self.refused.append(number)
                    elif kind in ("race", "spawn") and re.fullmatch(r"[a-z0-9 ]+", labels):
                        for label in labels.split():
                            (self.spawn if kind == "spawn" else self.race).setdefault(label, Counter())[number] += 1

    def allows(self, lines, pair):
        one, other = pair
        return lines[one] > 1 if one == other else one in lines and other in lines

    def differences(self, races):
        """What the races of a recording (`verdicts.races`) say otherwise."""
        missing, said = set(self.race), []
        for (rule, _, _), refusals in races.items():
            it = refusals[0]
            places = [place for place in (it.earlier, it.later) if place.line]
            if any(Path(place.file).name != self.source.name for place in places):
                said.append(f"{rule} outside of the source: {it.earlier} and {it.later}")
                continue
            pair = (it.earlier.line or it.later.line, it.later.line)
            labels = [label for label, lines in self.race.items() if self.allows(lines, pair)]
            if not labels:
                said.append(f"{rule} of lines {pair[0]} and {pair[1]}, which is not expected")
                continue
            missing -= set(labels)
            wanted = [line for label in labels for line in self.spawn.get(label, ())]
            for spawn in {it.spawn.line for it in refusals if it.spawn.line}:
                if wanted and spawn not in wanted:
                    others = " or ".join(map(str, sorted(set(wanted))))
                    said.append(f"lines {pair[0]} and {pair[1]} part at line {spawn}, not at {others}")
        lines = {label: ", ".join(map(str, sorted(self.race[label]))) for label in sorted(missing)}
        return said + [f"no race of {label} (lines {it})" for label, it in lines.items()]
