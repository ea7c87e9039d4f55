"""Which directives of OpenMP the recorder can tell apart."""
import re

# worksharing and the like: a thread runs several parts one after another, which would count as one strand
UNTOLD = {"for", "sections", "section", "ordered", "target", "teams", "distribute", "threadprivate", "cancel", "cancellation", "scan", "loop",
          "workshare", "critical", "depobj", "interop", "metadirective", "requires", "assume", "scope"}
CLAUSES = re.compile(r"\b(depend|detach|in_reduction|task_reduction|reduction|copyin|copyprivate|affinity)\s*\(")
STRICT = re.compile(r"\b(grainsize|num_tasks)\s*\(\s*strict\b")
# [[omp::directive(task)]], [[using omp: sequence(..)]]
ATTRIBUTE = re.compile(r"omp\s*::?\s*(?:directive|sequence)\b")


def check(source, used):
    """Refuses what would be judged wrongly. Where the user gave no -fopenmp, the directives are taken out, as the compiler would."""
    for at, token in enumerate(source.tokens):
        if used and token == "omp" and ATTRIBUTE.match("".join(source.words(at, at + 5))):
            source.refuse(at, "a directive of OpenMP as an attribute is not recorded: write it as #pragma omp")
        if source.kinds[at] != "directive" or "pragma" not in token:
            continue
        if re.match(r"\s*#\s*pragma\s+cilk\b", token):      # a grain size
            source.tokens[at] = ""
            continue
        found = re.match(r"\s*#\s*pragma\s+omp\s+(.*)", token)
        if not found:
            continue
        if not used:
            source.tokens[at] = ""
            continue
        words = re.match(r"[a-z \t]*", found.group(1)).group().split()
        if words[:2] == ["declare", "simd"] or words[:1] == ["simd"] or words[:1] == ["end"]:
            continue
        untold = [word for word in words if word in UNTOLD]
        if untold:
            source.refuse(at, f"#pragma omp {' '.join(words)}: {untold[0]} is not recorded (task, taskloop, taskwait, taskgroup, parallel, single, master, atomic, barrier are)")
        clause = CLAUSES.search(found.group(1))
        if clause:
            source.refuse(at, f"#pragma omp {' '.join(words)} with {clause.group(1)} is not recorded")
        strict = STRICT.search(found.group(1))
        if strict:                                          # clang calls the runtime as without it
            why = "leave it out, or make the tasks in a loop"
            source.refuse(at, f"#pragma omp {words[0]}: strict of {strict.group(1)} is not recorded: {why}")
