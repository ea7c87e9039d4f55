// The pass of cilkcheck-cc: tells the runtime of each access that another strand could share (runtime/abi.h), with its
// site (rows.h). It runs at the begin of the pipeline, so nothing is told that the program does not do, and nothing is
// optimized away before it is told.
#include "pass.h"
#include "llvm/Passes/PassBuilder.h"
#include "llvm/Passes/PassPlugin.h"
#include "spawns.h"
#include "versions.h"

// spawns.cpp; a plugin without it tells accesses alone
namespace cilkcheck {
__attribute__((weak)) void find_spawned_calls(llvm::Module &module);
}

namespace {

using namespace cilkcheck;

struct RecordAccesses : PassInfoMixin<RecordAccesses> {
  static bool isRequired() { return true; } // of a function with `optnone` too
  PreservedAnalyses run(Module &module, ModuleAnalysisManager &analyses) {
    if (find_spawned_calls)
      find_spawned_calls(module);
    Recording recording(module);
    forget_promises(recording);
    if (!redirect_library(recording))
      return PreservedAnalyses::none();
    inline_placeless(recording);
    auto &functions = analyses.getResult<FunctionAnalysisManagerModuleProxy>(module).getManager();
    for (Function *function : told_functions(recording))
      record(recording, *function, functions);
    if (!module.getModuleInlineAsm().empty())
      recording.note(nullptr, module.getSourceFileName(), 0, "assembly outside of functions");
    tell_objects(recording);
    mark_recorded(recording);
    recording.rows.finish();
    return PreservedAnalyses::none();
  }

private:
  static void record(Recording &recording, Function &function, FunctionAnalysisManager &analyses) {
    copy_arguments(recording, function);
    Names names(function);
    Sites sites(recording, function);
    Teller(recording, function, sites, names).tell_all();
    promote(recording, function, analyses);
    hook_frame(recording, function, sites, names);
    tell_calls(recording, function, sites);
    sites.finish();
  }
};

} // namespace

extern "C" LLVM_ATTRIBUTE_WEAK PassPluginLibraryInfo llvmGetPassPluginInfo() {
  return {LLVM_PLUGIN_API_VERSION, "cilkcheck", "1", [](PassBuilder &builder) {
            builder.registerPipelineStartEPCallback(
                [](ModulePassManager &passes, auto) { passes.addPass(RecordAccesses()); });
          }};
}
