// Which memory other strands may know of.
#include "pass.h"
#include "llvm/IR/IntrinsicInst.h"
#include "llvm/IR/Operator.h"
#include "versions.h"

namespace cilkcheck {

// The same steps as `escapes` below, backwards: what is found to be private here has no use that is not seen there.
const Value *base_of(const Value *pointer) {
  for (;;) {
    if (auto *address = dyn_cast<GEPOperator>(pointer))
      pointer = address->getPointerOperand();
    else if (auto *cast = dyn_cast<BitCastOperator>(pointer))
      pointer = cast->getOperand(0);
#if LLVM_VERSION_MAJOR >= 16
    else if (auto *call = dyn_cast<IntrinsicInst>(pointer);
             call && call->getIntrinsicID() == Intrinsic::threadlocal_address)
      pointer = call->getArgOperand(0);
#endif
    else
      return pointer;
  }
}

// Intrinsics that access what a pointer leads to, or not even that, and keep nothing of it.
static bool keeps_nothing(const IntrinsicInst &call) {
  if (isa<DbgInfoIntrinsic>(call) || isa<AnyMemIntrinsic>(call))
    return true;
  switch (call.getIntrinsicID()) {
  case Intrinsic::lifetime_start:
  case Intrinsic::lifetime_end:
  case Intrinsic::objectsize:
  case Intrinsic::assume:
  case Intrinsic::prefetch:
  case Intrinsic::var_annotation:
  case Intrinsic::vastart:
  case Intrinsic::vacopy:
  case Intrinsic::vaend:
  case Intrinsic::masked_load:
  case Intrinsic::masked_store:
  case Intrinsic::masked_expandload:
  case Intrinsic::masked_compressstore:
    return true;
  default:
    return begins_with(call.getCalledFunction()->getName(), "llvm.x86.") && !call.getType()->isPointerTy();
  }
}

static bool use_escapes(const Use &use, const Hooks &hooks, SmallVectorImpl<const Value *> &same) {
  const User *user = use.getUser();
  if (isa<GEPOperator>(user) || isa<BitCastOperator>(user)) {
    same.push_back(user);
    return false;
  }
  if (isa<LoadInst>(user) || isa<VAArgInst>(user) || isa<ICmpInst>(user))
    return false;
  if (isa<StoreInst>(user))
    return use.getOperandNo() != StoreInst::getPointerOperandIndex();
  if (isa<AtomicRMWInst>(user))
    return use.getOperandNo() != AtomicRMWInst::getPointerOperandIndex();
  if (isa<AtomicCmpXchgInst>(user))
    return use.getOperandNo() != AtomicCmpXchgInst::getPointerOperandIndex();
  if (auto *call = dyn_cast<CallBase>(user)) {
    if (!call->isDataOperand(&use))
      return true;
    if (hooks.tells(call))
      return false;
    if (auto *intrinsic = dyn_cast<IntrinsicInst>(call))
      return !keeps_nothing(*intrinsic);
    return !(call->isArgOperand(&use) && call->isByValArgument(call->getArgOperandNo(&use)));
  }
  return true;
}

bool escapes(const Value &memory, const Hooks &hooks) {
  SmallVector<const Value *, 16> same{&memory};
  while (!same.empty())
    for (const Use &use : same.pop_back_val()->uses())
      if (use_escapes(use, hooks, same))
        return true;
  return false;
}

bool Privacy::is_private(const Value *pointer) {
  const Value *base = base_of(pointer);
  // What is declared `extern const` here may be a variable where it is defined.
  if (auto *global = dyn_cast<GlobalVariable>(base))
    return (global->isConstant() && global->hasInitializer()) || begins_with(global->getName(), "llvm.");
  auto *argument = dyn_cast<Argument>(base);
  if (!isa<AllocaInst>(base) && !(argument && argument->hasByValAttr()))
    return false;
  auto [at, is_new] = escaping.insert({base, true});
  if (is_new)
    at->second = escapes(*base, hooks);
  return !at->second;
}

} // namespace cilkcheck
