// Functions whose entry and exit the runtime knows, and where their locals lie.
#include "pass.h"
#include "llvm/IR/InstIterator.h"
#include "llvm/IR/IntrinsicInst.h"
#include "llvm/Transforms/Utils/EscapeEnumerator.h"
#include "versions.h"

namespace cilkcheck {

void copy_arguments(Recording &recording, Function &function) {
  if (recording.coroutines.count(&function))
    return;
  for (Argument &argument : function.args()) {
    if (!argument.hasByValAttr() || !escapes(argument, recording.hooks))
      continue;
    IRBuilder<> builder(&*function.getEntryBlock().getFirstInsertionPt());
    Type *type = argument.getParamByValType();
    Align align = std::max(argument.getParamAlign().valueOrOne(), recording.layout.getPrefTypeAlign(type));
    auto *copy = builder.CreateAlloca(type, nullptr, argument.getName());
    copy->setAlignment(align);
    argument.replaceAllUsesWith(copy);
    builder.CreateMemCpy(copy, align, &argument, argument.getParamAlign(),
                         recording.layout.getTypeAllocSize(type).getFixedValue());
  }
}

static uint64_t local_bytes(const Recording &recording, const AllocaInst &local) {
  auto *count = cast<ConstantInt>(local.getArraySize());
  return recording.layout.getTypeAllocSize(local.getAllocatedType()).getKnownMinValue() * count->getZExtValue();
}

static bool is_marked(const CallBase &call, const Hooks &hooks) {
  auto *callee = call.getCalledFunction();
  return callee && begins_with(callee->getName(), "__cilkcheck_") &&
         !begins_with(callee->getName(), "__cilkcheck_libc_") && !hooks.tells(&call);
}

// What a call puts on the stack for the callee to read.
static bool passes_list(const CallBase &call) {
  auto *callee = call.getCalledFunction();
  return call.getFunctionType()->isVarArg() && !isa<IntrinsicInst>(call) && !call.isInlineAsm() &&
         !(callee && begins_with(callee->getName(), "__cilkcheck_"));
}

namespace {

class Frame {
public:
  Frame(Recording &recording, Function &function, Sites &sites, const Names &names)
      : recording(recording), function(function), sites(sites), names(names) {
    auto *program = function.getSubprogram();
    source = program ? recording.files.find(program->getFile()) : nullptr;
    line = program ? program->getLine() : 0;
  }
  void collect();
  bool is_hooked() const { return needed || !locals.empty() || !lists.empty(); }
  void tell_lists();
  void hook();

private:
  Value *join(IRBuilder<> &builder, std::vector<Row> &rows);
  Recording &recording;
  Function &function;
  Sites &sites;
  const Names &names;
  SourceFile *source;
  unsigned line;
  std::vector<AllocaInst *> locals, lists;
  bool needed = false, calls = false;
};

} // namespace

void Frame::collect() {
  needed = function.getName().contains(".omp");
  for (Instruction &it : instructions(function)) {
    if (auto *local = dyn_cast<AllocaInst>(&it)) {
      if (!local->isSwiftError() && !local->isUsedWithInAlloca() && escapes(*local, recording.hooks))
        (local->isStaticAlloca() && !recording.layout.getTypeAllocSize(local->getAllocatedType()).isScalable() ? locals
                                                                                                               : lists)
            .push_back(local);
    } else if (auto *call = dyn_cast<CallBase>(&it)) {
      calls |= !isa<IntrinsicInst>(call);
      needed |= is_marked(*call, recording.hooks) || passes_list(*call);
      if (auto *intrinsic = dyn_cast<IntrinsicInst>(call))
        needed |= intrinsic->getIntrinsicID() == Intrinsic::vastart;
    }
  }
}

// Memory of a length that only the run knows.
void Frame::tell_lists() {
  const Types &types = recording.types;
  for (AllocaInst *list : lists) {
    auto *variable = names.variable(list);
    IRBuilder<> builder(list->getNextNode());
    builder.SetCurrentDebugLocation(list->getDebugLoc());
    Value *bytes = builder.CreateMul(
        builder.CreateZExtOrTrunc(list->getArraySize(), types.i64),
        builder.getInt64(recording.layout.getTypeAllocSize(list->getAllocatedType()).getKnownMinValue()));
    builder.CreateCall(recording.hooks.dynamic, {builder.CreatePointerCast(list, types.pointer), bytes,
                                                 sites.of(*list, variable ? variable->getName() : "")});
  }
}

// The locals that escape, as parts of one object: no two share a place.
Value *Frame::join(IRBuilder<> &builder, std::vector<Row> &rows) {
  const Types &types = recording.types;
  if (locals.empty())
    return Constant::getNullValue(types.pointer);
  uint64_t end = 0;
  Align align;
  std::vector<uint64_t> offsets;
  for (AllocaInst *local : locals) {
    align = std::max(align, local->getAlign());
    offsets.push_back(alignTo(end, local->getAlign()));
    end = offsets.back() + std::max<uint64_t>(1, local_bytes(recording, *local));
  }
  auto *joined = builder.CreateAlloca(ArrayType::get(types.i8, end), nullptr, "cilkcheck.locals");
  joined->setAlignment(align);
  for (unsigned i = 0; i < locals.size(); i++) {
    AllocaInst *local = locals[i];
    auto *variable = names.variable(local);
    rows.push_back({Field::of_text(variable ? variable->getName() : ""), Field::of_number(offsets[i]),
                    Field::of_number(local_bytes(recording, *local)),
                    Field::of_number(variable ? variable->getLine() : 0)});
    // the part lives as long as the frame
    std::vector<Instruction *> lives;
    SmallVector<Value *, 4> same{local};
    while (!same.empty())
      for (User *user : same.pop_back_val()->users()) {
        auto *call = dyn_cast<IntrinsicInst>(user);
        if (call &&
            (call->getIntrinsicID() == Intrinsic::lifetime_start || call->getIntrinsicID() == Intrinsic::lifetime_end))
          lives.push_back(call);
        else if (isa<BitCastInst>(user))
          same.push_back(user);
      }
    for (Instruction *it : lives)
      it->eraseFromParent();
    Value *part = builder.CreateConstInBoundsGEP2_64(joined->getAllocatedType(), joined, 0, offsets[i]);
    part = builder.CreatePointerCast(part, local->getType(), local->getName());
    local->replaceAllUsesWith(part);
  }
  return builder.CreatePointerCast(joined, types.pointer);
}

void Frame::hook() {
  const Types &types = recording.types;
  Module &module = recording.module;
  bool named = may_be_discarded(function);
  function.removeFnAttr(Attribute::AlwaysInline);
  function.addFnAttr(Attribute::NoInline);
  DebugLoc at;
  if (auto *program = function.getSubprogram())
    at = DILocation::get(module.getContext(), program->getScopeLine(), 0, program);
  IRBuilder<> builder(&*function.getEntryBlock().getFirstInsertionPt());
  builder.SetCurrentDebugLocation(at);
  std::vector<Row> rows;
  Value *begin = join(builder, rows);
  Constant *table = rows.empty() ? nullptr : recording.rows.table("cilkcheck_locals", rows, named);
  Row row = {Field::of_text(function_name(function)),
             Field::of_text(source ? source->name : module.getSourceFileName()),
             Field::of_reference(table),
             Field::of_number(line),
             Field::of_number(rows.size()),
             Field::of_number(!source || source->system ? CILKCHECK_SYSTEM : 0)};
  Constant *frame = ConstantExpr::getPointerCast(recording.rows.table("cilkcheck_frames", {row}, named), types.pointer);
  // behind the return address the caller's stack begins
  Value *top =
      builder.CreateCall(Intrinsic::getDeclaration(&module, Intrinsic::addressofreturnaddress, {types.pointer}), {});
  top = builder.CreateConstGEP1_64(types.i8, top, recording.layout.getPointerSize());
  builder.CreateCall(recording.hooks.enter, {top, begin, frame});
  for (AllocaInst *it : locals)
    it->eraseFromParent(); // not before: the builder may stand at one
  EscapeEnumerator exits(function, "cilkcheck.leaving", calls && !function.doesNotThrow());
  while (IRBuilder<> *exit = exits.Next()) {
    auto *call = exit->CreateCall(recording.hooks.leave, {});
    if (!call->getDebugLoc())
      call->setDebugLoc(at);
  }
}

void hook_frame(Recording &recording, Function &function, Sites &sites, const Names &names) {
  Frame frame(recording, function, sites, names);
  frame.collect();
  frame.tell_lists();
  if (frame.is_hooked() && !recording.coroutines.count(&function))
    frame.hook();
}

} // namespace cilkcheck
