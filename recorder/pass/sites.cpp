// Sites: where an access, a call or a mark stands.
#include "pass.h"
#include "llvm/IR/InstIterator.h"
#include "llvm/IR/IntrinsicInst.h"
#include "versions.h"

namespace cilkcheck {

Position position_of(const Instruction &instruction) {
  if (const DebugLoc &at = instruction.getDebugLoc(); at && at.getLine())
    return {cast<DIScope>(at.getScope())->getFile(), at.getLine(), at.getCol()};
  if (auto *program = instruction.getFunction()->getSubprogram())
    return {program->getFile(), program->getLine(), 0};
  return {};
}

Sites::Sites(Recording &recording, Function &function)
    : recording(recording), function(function), function_text(function_name(function)) {}

Constant *Sites::at(const DIFile *file, unsigned line, unsigned column, StringRef name) {
  Module &module = recording.module;
  const Types &types = recording.types;
  SourceFile *source = recording.files.find(file);
  auto [it, is_new] = numbers.insert({{source, line, column, name.str()}, (unsigned)rows.size()});
  if (is_new)
    rows.push_back({Field::of_text(source ? source->name : module.getSourceFileName()), Field::of_text(function_text),
                    Field::of_text(name), Field::of_text(source ? source->code(line) : ""), Field::of_number(line),
                    Field::of_number(column), Field::of_number(!source || source->system ? CILKCHECK_SYSTEM : 0),
                    Field::of_number(0)});
  if (!stand_in)
    stand_in = new GlobalVariable(module, types.i8, false, GlobalValue::ExternalLinkage, nullptr, "cilkcheck.sites");
  Constant *offset[] = {ConstantInt::get(types.i64, it->second * sizeof(cilkcheck_site))};
  return ConstantExpr::getPointerCast(ConstantExpr::getGetElementPtr(types.i8, stand_in, offset), types.pointer);
}

Constant *Sites::of(const Instruction &instruction, StringRef name) {
  Position it = position_of(instruction);
  return at(it.file, it.line, it.column, name);
}

void Sites::finish() {
  if (!stand_in)
    return;
  GlobalVariable *table = recording.rows.table("cilkcheck_sites", rows, may_be_discarded(function));
  stand_in->replaceAllUsesWith(ConstantExpr::getPointerCast(table, stand_in->getType()));
  stand_in->eraseFromParent();
  stand_in = nullptr;
}

static std::string callee_name(const CallBase &call) {
  auto *callee = dyn_cast<Function>(call.getCalledOperand()->stripPointerCasts());
  return callee ? function_name(*callee) : "";
}

// In a function of the system's headers, or of no known file, the place stays that of the call which led there,
// whatever its callees make of it.
static void keep_place(Recording &recording, Function &function, ArrayRef<CallBase *> calls) {
  Instruction *entry = &*function.getEntryBlock().getFirstInsertionPt();
  while (isa<AllocaInst>(entry))
    entry = entry->getNextNode();
  Value *kept = IRBuilder<>(entry).CreateLoad(recording.types.pointer, recording.hooks.place, "cilkcheck.place");
  auto put_back = [&](Instruction *before) { IRBuilder<>(before).CreateStore(kept, recording.hooks.place); };
  for (BasicBlock &block : function)
    if (block.isLandingPad())
      put_back(&*block.getFirstInsertionPt());
  for (CallBase *call : calls)
    if (auto *invoke = dyn_cast<InvokeInst>(call)) {
      // a block of this edge's own
      BasicBlock *normal = invoke->getNormalDest(),
                 *block = BasicBlock::Create(call->getContext(), "cilkcheck.returned", &function, normal);
      put_back(BranchInst::Create(normal, block));
      normal->replacePhiUsesWith(invoke->getParent(), block);
      invoke->setNormalDest(block);
    } else if (!call->isTerminator() && !call->isMustTailCall())
      put_back(call->getNextNode());
}

// A hook keeps an account of its own, so the program's memory stays in registers around it; it is neither dropped nor
// merged, since it writes. In a header it reads `__cilkcheck_place` besides.
static void keep_memory(Recording &recording, Function &function) {
  for (Instruction &it : instructions(function)) {
    if (!recording.hooks.tells(&it))
      continue;
    auto &hook = cast<CallBase>(it);
    SourceFile *source = recording.files.find(position_of(it).file);
    bool is_defined = hook.getCalledFunction() && !hook.getCalledFunction()->isDeclaration(); // in the canary
    if (source && !source->system && !is_defined)
      hook.setOnlyAccessesInaccessibleMemory();
  }
}

void tell_calls(Recording &recording, Function &function, Sites &sites) {
  keep_memory(recording, function);
  Constant *none = Constant::getNullValue(recording.types.pointer);
  std::vector<CallBase *> calls;
  for (Instruction &it : instructions(function))
    if (auto *call = dyn_cast<CallBase>(&it);
        call && !isa<IntrinsicInst>(call) && !call->isInlineAsm() && !recording.hooks.tells(call))
      calls.push_back(call);
  auto *program = function.getSubprogram();
  SourceFile *source = program ? recording.files.find(program->getFile()) : nullptr;
  bool is_placed = source && !source->system;
  std::vector<CallBase *> others;
  for (CallBase *call : calls) {
    call->addFnAttr(Attribute::NoMerge);
    call->removeFnAttr(Attribute::AlwaysInline); // `flatten` goes before a hooked function's noinline
    auto *callee = call->getCalledFunction();
    if (callee && begins_with(callee->getName(), "__cilkcheck_") && callee->isDeclaration() &&
        !begins_with(callee->getName(), "__cilkcheck_libc_")) {
      if (call->arg_size() && call->getArgOperand(0) == none)
        call->setArgOperand(0, sites.of(*call, ""));
      if (callee != recording.hooks.leave.getCallee()) // a return is the place of the sync before it
        continue;
    }
    if (!is_placed) {
      others.push_back(call);
      continue;
    }
    auto *told = new StoreInst(sites.of(*call, callee_name(*call)), recording.hooks.place, false,
                               recording.layout.getABITypeAlign(recording.types.pointer), call);
    told->setDebugLoc(call->getDebugLoc());
  }
  if (!others.empty())
    keep_place(recording, function, others);
}

void Recording::note(const Function *of, StringRef file, unsigned line, StringRef what) {
  if (!noted.insert({file.str(), line, what.str()}).second)
    return;
  Row row = {Field::of_text(file), Field::of_text(what), Field::of_number(line), Field::of_number(0)};
  rows.keep(rows.table("cilkcheck_notes", {row}, of && may_be_discarded(*of)));
}

void Recording::note(const Instruction &of, StringRef what) {
  Position at = position_of(of);
  SourceFile *source = files.find(at.file);
  note(of.getFunction(), source ? source->name : module.getSourceFileName(), at.line, what);
}

} // namespace cilkcheck
