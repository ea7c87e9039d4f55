// What is changed in a module before it is told.
#include "pass.h"
#include "llvm/Analysis/InlineCost.h"
#include "llvm/IR/Constants.h"
#include "llvm/IR/GlobalIFunc.h"
#include "llvm/IR/InstIterator.h"
#include "llvm/IR/IntrinsicInst.h"
#include "llvm/Support/LineIterator.h"
#include "llvm/Transforms/Utils/Cloning.h"
#include "versions.h"
#include <cstdlib>

namespace cilkcheck {

Recording::Recording(Module &module)
    : module(module), layout(module.getDataLayout()), types(module.getContext()), rows(module, types), files(module),
      hooks(module, types) {}

static bool is_own(const Function &function) {
  return function.isIntrinsic() || begins_with(function.getName(), "__cilkcheck_");
}

template <class T> static void forget_arguments(T &of, unsigned count) {
  for (unsigned i = 0; i < count; i++)
    for (auto it : {Attribute::ReadNone, Attribute::ReadOnly, Attribute::WriteOnly, Attribute::NoCapture})
      of.removeParamAttr(i, it);
}

void forget_promises(Recording &recording) {
  for (Function &function : recording.module) {
    if (is_own(function))
      continue;
    // Calls that only read are merged or dropped, and the hooks in them too.
    forget_memory_attributes(function);
    forget_arguments(function, function.arg_size());
    for (Instruction &it : instructions(function))
      if (auto *call = dyn_cast<CallBase>(&it); call && !isa<IntrinsicInst>(call)) {
        forget_memory_attributes(*call);
        forget_arguments(*call, call->arg_size());
      }
  }
}

static StringMap<std::string> library_names(Recording &recording) {
  StringMap<std::string> names;
  LLVMContext &context = recording.module.getContext();
  const char *folder = std::getenv("CILKCHECK_NAMES");
  if (!folder) {
    context.emitError("cilkcheck: CILKCHECK_NAMES, the folder of the lists of functions, is not set");
    return names;
  }
  std::string path = std::string(folder) + "/redirected";
  auto read = MemoryBuffer::getFile(path);
  if (!read) {
    context.emitError("cilkcheck: " + path + ": " + read.getError().message());
    return names;
  }
  for (line_iterator line(**read, true, '#'); !line.is_at_end(); ++line) {
    auto [from, to] = line->split(' ');
    if (!from.empty() && !to.empty())
      names[from] = to.str();
  }
  if (names.empty())
    context.emitError("cilkcheck: " + path + ": no name in it");
  return names;
}

bool redirect_library(Recording &recording) {
  StringMap<std::string> names = library_names(recording);
  if (names.empty())
    return false;
  std::vector<Function *> all;
  for (Function &function : recording.module)
    if (!is_own(function))
      all.push_back(&function);
  for (Function *function : all) {
    auto it = names.find(function->getName());
    // A body that only the inliner would see is the library's.
    if (function->hasAvailableExternallyLinkage()) {
      if (it != names.end())
        function->deleteBody();
      else if (begins_with(function->getName(), "_Z")) {
        function->setLinkage(GlobalValue::LinkOnceODRLinkage);
        function->setComdat(recording.module.getOrInsertComdat(function->getName()));
      } else
        function->setLinkage(GlobalValue::InternalLinkage);
    }
    if (it == names.end() || !function->isDeclaration())
      continue;
    Function *wrapper = recording.module.getFunction(it->second);
    if (!wrapper)
      function->setName(it->second);
    else if (wrapper != function) {
      function->replaceAllUsesWith(ConstantExpr::getPointerCast(wrapper, function->getType()));
      function->eraseFromParent();
    }
  }
  return true;
}

// The functions with this annotation: what the recorder's own headers do in their program's place.
static std::set<const Function *> annotated(const Module &module, StringRef wanted) {
  std::set<const Function *> found;
  auto *annotations = module.getNamedGlobal("llvm.global.annotations");
  auto *rows =
      annotations && annotations->hasInitializer() ? dyn_cast<ConstantArray>(annotations->getInitializer()) : nullptr;
  for (unsigned i = 0; rows && i < rows->getNumOperands(); i++) {
    auto *row = dyn_cast<ConstantStruct>(rows->getOperand(i));
    if (!row || row->getNumOperands() < 2)
      continue;
    auto *function = dyn_cast<Function>(row->getOperand(0)->stripPointerCasts());
    auto *text = dyn_cast<GlobalVariable>(row->getOperand(1)->stripPointerCasts());
    auto *data = text && text->hasInitializer() ? dyn_cast<ConstantDataArray>(text->getInitializer()) : nullptr;
    if (function && data && data->isCString() && data->getAsCString() == wanted)
      found.insert(function);
  }
  return found;
}

// The headers of the processor's intrinsics say `always_inline` and `nodebug`: their accesses are those of the line
// that calls them.
static bool has_no_place(const Function &function) {
  return !function.isDeclaration() && function.hasFnAttribute(Attribute::AlwaysInline) && !function.getSubprogram() &&
         !is_own(function) && !function.isInterposable() && !function.hasFnAttribute(Attribute::Naked);
}

void inline_placeless(Recording &recording) {
  std::vector<Function *> placeless;
  for (Function &function : recording.module)
    if (has_no_place(function) && isInlineViable(function).isSuccess())
      placeless.push_back(&function);
  for (Function *function : placeless)
    for (Instruction &it : instructions(*function))
      if (auto *load = dyn_cast<LoadInst>(&it); load && load->use_empty())
        load->setVolatile(true); // the inliner drops a read that nothing uses
  bool changed = true;
  for (unsigned depth = 0; changed && depth < 16; depth++) {
    changed = false;
    for (Function *function : placeless) {
      SmallVector<CallBase *, 16> calls;
      for (User *user : function->users())
        if (auto *call = dyn_cast<CallBase>(user);
            call && call->getCalledFunction() == function && call->getFunction() != function && !call->isNoInline())
          calls.push_back(call);
      for (CallBase *call : calls) {
        Function &caller = *call->getFunction();
        InlineFunctionInfo info;
        if (!InlineFunction(*call, info).isSuccess())
          continue;
        AttributeFuncs::mergeAttributesForInlining(caller, *function);
        changed = true;
      }
    }
  }
  for (Function *function : placeless)
    if (function->use_empty() && (function->hasLocalLinkage() || function->hasLinkOnceLinkage()))
      function->eraseFromParent();
}

std::vector<Function *> told_functions(Recording &recording) {
  Module &module = recording.module;
  recording.plain = annotated(module, "cilkcheck_plain");
  // A resolver runs while the program is loaded, before any other function can be called.
  for (GlobalIFunc &it : module.ifuncs())
    if (auto *resolver = dyn_cast<Function>(it.getResolver()->stripPointerCasts()))
      recording.plain.insert(resolver);
  std::vector<Function *> told;
  for (Function &function : module) {
    if (is_own(function) || function.isDeclaration() || recording.plain.count(&function))
      continue;
    if (function.hasFnAttribute(Attribute::Naked)) {
      recording.note(function.getEntryBlock().front(), "a naked function");
      continue;
    }
    for (Instruction &it : instructions(function))
      if (auto *call = dyn_cast<IntrinsicInst>(&it); call && call->getIntrinsicID() == Intrinsic::coro_begin)
        recording.coroutines.insert(&function);
    told.push_back(&function);
  }
  return told;
}

} // namespace cilkcheck
