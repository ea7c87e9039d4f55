// The rewriter's marks, turned into calls of the runtime (runtime/abi.h).
#ifndef CILKCHECK_SPAWNS_H
#define CILKCHECK_SPAWNS_H

namespace llvm {
class Module;
}

namespace cilkcheck {

// Runs before any optimization, since a variable that a child writes has to stay in memory. The site of each call, its
// first argument, is a null pointer that tell_calls replaces; the call's debug location is the place. A statement whose
// spawned call is not certain ends the compilation: one line says `FILE:LINE: error: why`, and the exit status is 70.
void find_spawned_calls(llvm::Module &module);

} // namespace cilkcheck
#endif
