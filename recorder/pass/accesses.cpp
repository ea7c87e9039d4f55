// A hook at each access of memory that another strand could share.
#include "pass.h"
#include "llvm/IR/InlineAsm.h"
#include "llvm/IR/InstIterator.h"
#include "llvm/IR/IntrinsicInst.h"
#include "llvm/Support/MathExtras.h"
#include "versions.h"
#include <cstring>

namespace cilkcheck {

static FunctionCallee access_hook(Module &module, const std::string &name, Type *none, ArrayRef<Type *> arguments) {
  FunctionCallee hook = module.getOrInsertFunction(name, FunctionType::get(none, arguments, false));
  auto *function = dyn_cast<Function>(hook.getCallee());
  if (!function || !function->isDeclaration())
    return hook; // the canary has its own
  function->setDoesNotThrow();
  function->setWillReturn();
  function->addParamAttr(0, Attribute::NoCapture);
  return hook;
}

Hooks::Hooks(Module &module, const Types &types) {
  Type *place_and_site[] = {types.pointer, types.pointer};
  for (unsigned log = 0; log < 5; log++) {
    std::string bytes = std::to_string(1 << log);
    reads[log] = access_hook(module, "__cilkcheck_read" + bytes, types.none, place_and_site);
    writes[log] = access_hook(module, "__cilkcheck_write" + bytes, types.none, place_and_site);
    telling.insert({reads[log].getCallee(), writes[log].getCallee()});
  }
  access = access_hook(module, "__cilkcheck_access", types.none, {types.pointer, types.i64, types.i32, types.pointer});
  telling.insert(access.getCallee());
  auto other = [&](const char *name, ArrayRef<Type *> arguments) {
    FunctionCallee hook = module.getOrInsertFunction(name, FunctionType::get(types.none, arguments, false));
    if (auto *function = dyn_cast<Function>(hook.getCallee()))
      function->setDoesNotThrow();
    return hook;
  };
  enter = other("__cilkcheck_enter", {types.pointer, types.pointer, types.pointer});
  leave = other("__cilkcheck_leave", {});
  dynamic = other("__cilkcheck_dynamic", {types.pointer, types.i64, types.pointer});
  place = module.getOrInsertGlobal("__cilkcheck_place", types.pointer);
  // the runtime is a part of the program; a library of its own reaches it through its table of addresses
  if (auto *global = dyn_cast<GlobalVariable>(place); global && global->isDeclaration())
    global->setDSOLocal(module.getPICLevel() == PICLevel::NotPIC || module.getPIELevel() != PIELevel::Default);
}

bool Hooks::tells(const Value *call) const {
  auto *it = dyn_cast<CallInst>(call);
  return it && telling.count(it->getCalledOperand());
}

Teller::Teller(Recording &recording, Function &function, Sites &sites, const Names &names)
    : recording(recording), function(function), sites(sites), names(names), privacy(recording.hooks) {}

void Teller::emit(IRBuilder<> &builder, Value *pointer, Value *bytes, Value *kind, Constant *site) {
  const Types &types = recording.types;
  builder.CreateCall(recording.hooks.access, {builder.CreatePointerCast(pointer, types.pointer),
                                              builder.CreateZExtOrTrunc(bytes, types.i64), kind, site});
}

void Teller::emit(IRBuilder<> &builder, Value *pointer, Value *bytes, int kind, Constant *site) {
  auto *known = dyn_cast<ConstantInt>(bytes);
  uint64_t size = known ? known->getZExtValue() : 0;
  if (size && size <= 16 && isPowerOf2_64(size) && (kind == CILKCHECK_READ || kind == CILKCHECK_WRITE)) {
    auto &hooks = kind == CILKCHECK_READ ? recording.hooks.reads : recording.hooks.writes;
    builder.CreateCall(hooks[Log2_64(size)], {builder.CreatePointerCast(pointer, recording.types.pointer), site});
  } else if (!known || size)
    emit(builder, pointer, bytes, builder.getInt32(kind), site);
}

void Teller::tell(Instruction &access, Value *pointer, Value *bytes, int kind, Instruction *before) {
  if (pointer->getType()->getPointerAddressSpace()) {
    recording.note(access, "memory of a segment of its own (address space " +
                               std::to_string(pointer->getType()->getPointerAddressSpace()) + ")");
    return;
  }
  if (privacy.is_private(pointer))
    return;
  IRBuilder<> builder(before ? before : &access);
  builder.SetCurrentDebugLocation(access.getDebugLoc());
  auto *known = dyn_cast<ConstantInt>(bytes);
  emit(builder, pointer, bytes, kind,
       sites.of(access, names.access(pointer, known ? known->getZExtValue() : UINT64_MAX, !isa<CallBase>(access))));
}

void Teller::tell(Instruction &access, Value *pointer, uint64_t bytes, int kind, Instruction *before) {
  tell(access, pointer, ConstantInt::get(recording.types.i64, bytes), kind, before);
}

void Teller::tell(Instruction &access, Value *pointer, Type *type, int kind, Instruction *before) {
  TypeSize size = recording.layout.getTypeStoreSize(type);
  if (size.isScalable())
    recording.note(access, "a vector whose length only the machine knows");
  tell(access, pointer, size.getKnownMinValue(), kind, before);
}

// A compare-exchange that fails is a load.
void Teller::tell_exchange(AtomicCmpXchgInst &exchange) {
  Value *pointer = exchange.getPointerOperand();
  uint64_t bytes = recording.layout.getTypeStoreSize(exchange.getNewValOperand()->getType()).getKnownMinValue();
  if (pointer->getType()->getPointerAddressSpace())
    return tell(exchange, pointer, bytes, CILKCHECK_ATOMIC_WRITE);
  if (privacy.is_private(pointer))
    return;
  IRBuilder<> builder(exchange.getNextNode());
  builder.SetCurrentDebugLocation(exchange.getDebugLoc());
  Value *kind = builder.CreateSelect(builder.CreateExtractValue(&exchange, 1), builder.getInt32(CILKCHECK_ATOMIC_WRITE),
                                     builder.getInt32(CILKCHECK_ATOMIC_READ));
  emit(builder, pointer, builder.getInt64(bytes), kind, sites.of(exchange, names.access(pointer, bytes, true)));
}

// Operands in memory are told. What is done through a register, or what a memory clobber stands for, is not known.
void Teller::tell_assembly(CallBase &call) {
  auto *assembly = cast<InlineAsm>(call.getCalledOperand());
  unsigned argument = 0;
  bool clobbers = false, unknown = false;
  std::vector<std::tuple<Value *, Type *, int>> operands;
  for (auto &it : assembly->ParseConstraints()) {
    if (it.Type == InlineAsm::isClobber) {
      for (auto &code : it.Codes)
        clobbers |= code == "{memory}";
      continue;
    }
    if (it.Type != InlineAsm::isInput && it.Type != InlineAsm::isOutput)
      continue; // labels
    if (it.Type == InlineAsm::isOutput && !it.isIndirect)
      continue;
    unsigned number = argument++;
    if (!it.isIndirect || number >= call.arg_size())
      continue;
    Value *pointer = call.getArgOperand(number);
    Type *type = call.getParamAttr(number, Attribute::ElementType).getValueAsType();
#if LLVM_VERSION_MAJOR < 15
    if (!type && !pointer->getType()->isOpaquePointerTy())
      type = pointer->getType()->getPointerElementType();
#endif
    if (type && type->isSized())
      operands.push_back({pointer, type, it.Type == InlineAsm::isOutput ? CILKCHECK_WRITE : CILKCHECK_READ});
    else
      unknown = true;
  }
  for (int kind : {CILKCHECK_READ, CILKCHECK_WRITE})
    for (auto [pointer, type, its_kind] : operands)
      if (its_kind == kind)
        tell(call, pointer, type, kind);
  if ((clobbers || unknown) && !assembly->getAsmString().empty())
    recording.note(call, "inline assembly");
}

// libatomic's functions, for objects that no instruction can access at once. Their lists of arguments are those of its
// ABI.
bool Teller::tell_atomic_library(CallBase &call) {
  auto *callee = call.getCalledFunction();
  if (!callee || !callee->isDeclaration() || !begins_with(callee->getName(), "__atomic_"))
    return false;
  if (!isa<CallInst>(call)) {
    recording.note(call, "an atomic operation as a call that may throw");
    return false;
  }
  StringRef name = callee->getName().drop_front(strlen("__atomic_"));
  Instruction *behind = call.getNextNode();
  auto argument = [&](unsigned i) { return call.getArgOperand(i); };
  unsigned count = call.arg_size(), bytes = 0;
  auto [operation, suffix] = name.rsplit('_');
  if (!suffix.getAsInteger(10, bytes) && bytes && count >= 2) {
    // __atomic_load_8(object, order), __atomic_compare_exchange_8(object, expected, desired, order, order), ..
    if (operation == "load")
      tell(call, argument(0), bytes, CILKCHECK_ATOMIC_READ);
    else if (operation == "compare_exchange" && count >= 5) {
      tell(call, argument(1), bytes, CILKCHECK_READ);
      if (!privacy.is_private(argument(0))) {
        IRBuilder<> builder(behind);
        builder.SetCurrentDebugLocation(call.getDebugLoc());
        Value *kind = builder.CreateSelect(builder.CreateIsNotNull(&call), builder.getInt32(CILKCHECK_ATOMIC_WRITE),
                                           builder.getInt32(CILKCHECK_ATOMIC_READ));
        emit(builder, argument(0), builder.getInt64(bytes), kind, sites.of(call, names.access(argument(0), bytes)));
        if (!privacy.is_private(argument(1)))
          emit(builder, argument(1),
               builder.CreateSelect(builder.CreateIsNotNull(&call), builder.getInt64(0), builder.getInt64(bytes)),
               builder.getInt32(CILKCHECK_WRITE), sites.of(call, names.access(argument(1), bytes)));
      }
    } else
      tell(call, argument(0), bytes, CILKCHECK_ATOMIC_WRITE);
    return true;
  }
  if (name == "load" && count == 4) {
    tell(call, argument(1), argument(0), CILKCHECK_ATOMIC_READ);
    tell(call, argument(2), argument(0), CILKCHECK_WRITE);
  } else if (name == "store" && count == 4) {
    tell(call, argument(2), argument(0), CILKCHECK_READ);
    tell(call, argument(1), argument(0), CILKCHECK_ATOMIC_WRITE);
  } else if (name == "exchange" && count == 5) {
    tell(call, argument(2), argument(0), CILKCHECK_READ);
    tell(call, argument(1), argument(0), CILKCHECK_ATOMIC_WRITE);
    tell(call, argument(3), argument(0), CILKCHECK_WRITE);
  } else if (name == "compare_exchange" && count == 6) {
    tell(call, argument(2), argument(0), CILKCHECK_READ);
    tell(call, argument(3), argument(0), CILKCHECK_READ);
    IRBuilder<> builder(behind);
    builder.SetCurrentDebugLocation(call.getDebugLoc());
    Value *done = builder.CreateIsNotNull(&call);
    if (!privacy.is_private(argument(1)))
      emit(
          builder, argument(1), argument(0),
          builder.CreateSelect(done, builder.getInt32(CILKCHECK_ATOMIC_WRITE), builder.getInt32(CILKCHECK_ATOMIC_READ)),
          sites.of(call, names.access(argument(1), UINT64_MAX)));
    if (!privacy.is_private(argument(2)))
      emit(builder, argument(2), builder.CreateSelect(done, ConstantInt::get(argument(0)->getType(), 0), argument(0)),
           builder.getInt32(CILKCHECK_WRITE), sites.of(call, names.access(argument(2), UINT64_MAX)));
  } else
    return false;
  return true;
}

void Teller::tell_call(CallBase &call) {
  if (call.isInlineAsm())
    return tell_assembly(call);
  if (tell_atomic_library(call))
    return;
  for (unsigned i = 0; i < call.arg_size(); i++)
    if (call.isByValArgument(i))
      tell(call, call.getArgOperand(i), call.getParamByValType(i), CILKCHECK_READ);
  // What a function that is not compiled here returns in memory; where it is recorded elsewhere, its own accesses are
  // the same strand's.
  auto *callee = dyn_cast<Function>(call.getCalledOperand()->stripPointerCasts());
  if (callee && !callee->isDeclaration() && !callee->isInterposable() && !recording.plain.count(callee))
    return;
  for (unsigned i = 0; i < call.arg_size() && i < 2; i++)
    if (call.paramHasAttr(i, Attribute::StructRet)) {
      Instruction *behind = call.getNextNode();
      if (auto *invoke = dyn_cast<InvokeInst>(&call)) {
        // a block of this edge's own
        BasicBlock *normal = invoke->getNormalDest(),
                   *block = BasicBlock::Create(call.getContext(), "cilkcheck.returned", &function, normal);
        behind = BranchInst::Create(normal, block);
        behind->setDebugLoc(call.getDebugLoc());
        normal->replacePhiUsesWith(invoke->getParent(), block);
        invoke->setNormalDest(block);
      } else if (!behind || call.isMustTailCall())
        continue; // the memory is the caller's caller's, which tells it
      tell(call, call.getArgOperand(i), call.getParamAttr(i, Attribute::StructRet).getValueAsType(), CILKCHECK_WRITE,
           behind);
    }
}

void Teller::tell_all() {
  std::vector<Instruction *> all;
  for (Instruction &it : instructions(function))
    all.push_back(&it);
  for (Instruction *it : all) {
    if (auto *load = dyn_cast<LoadInst>(it))
      tell(*it, load->getPointerOperand(), load->getType(), load->isAtomic() ? CILKCHECK_ATOMIC_READ : CILKCHECK_READ);
    else if (auto *store = dyn_cast<StoreInst>(it))
      tell(*it, store->getPointerOperand(), store->getValueOperand()->getType(),
           store->isAtomic() ? CILKCHECK_ATOMIC_WRITE : CILKCHECK_WRITE);
    else if (auto *update = dyn_cast<AtomicRMWInst>(it))
      tell(*it, update->getPointerOperand(), update->getValOperand()->getType(), CILKCHECK_ATOMIC_WRITE);
    else if (auto *exchange = dyn_cast<AtomicCmpXchgInst>(it))
      tell_exchange(*exchange);
    else if (isa<VAArgInst>(it))
      recording.note(*it, "va_arg");
    else if (auto *intrinsic = dyn_cast<IntrinsicInst>(it))
      tell_intrinsic(*intrinsic);
    else if (auto *call = dyn_cast<CallBase>(it))
      tell_call(*call);
  }
}

} // namespace cilkcheck
