// What the compiler's intrinsics access.
#include "pass.h"
#include "llvm/IR/IntrinsicInst.h"
#include "versions.h"
#include <cstring>

namespace cilkcheck {

// Whether a lane is accessed: its bit, or in the older forms the sign bit of the mask's lane.
Value *Teller::lane_bit(IRBuilder<> &builder, Value *mask, unsigned lane) {
  if (mask->getType()->isIntegerTy()) // a bit for each lane
    return builder.CreateTrunc(builder.CreateLShr(mask, uint64_t(lane)), builder.getInt1Ty());
  Value *bit = builder.CreateExtractElement(mask, uint64_t(lane));
  if (bit->getType()->isIntegerTy(1))
    return bit;
  Type *integer = builder.getIntNTy(bit->getType()->getScalarSizeInBits());
  return builder.CreateICmpSLT(builder.CreateBitCast(bit, integer), ConstantInt::get(integer, 0));
}

// Each lane by itself; one that the mask leaves out accesses no byte.
void Teller::tell_lanes(IntrinsicInst &call, Value *pointer, Type *type, Value *mask, int kind) {
  auto *vector = dyn_cast<FixedVectorType>(type);
  if (!vector)
    return recording.note(call, "a vector whose length only the machine knows");
  bool gathered = pointer->getType()->isVectorTy();
  if (!gathered && privacy.is_private(pointer))
    return;
  Type *element = vector->getElementType();
  uint64_t bytes = recording.layout.getTypeStoreSize(element).getFixedValue();
  Constant *site = sites.of(call, gathered ? "" : names.access(pointer, bytes));
  IRBuilder<> builder(&call);
  if (!gathered)
    pointer = builder.CreatePointerCast(pointer, recording.types.pointer);
  for (unsigned lane = 0; lane < vector->getNumElements(); lane++) {
    Value *bit = lane_bit(builder, mask, lane);
    Value *size = builder.CreateSelect(bit, builder.getInt64(bytes), builder.getInt64(0));
    Value *at = gathered ? builder.CreateExtractElement(pointer, uint64_t(lane))
                         : builder.CreateConstGEP1_64(recording.types.i8, pointer, lane * bytes);
    emit(builder, at, size, kind, site);
  }
}

// base + index * scale, for each lane
void Teller::tell_indexed(IntrinsicInst &call, Value *base, Value *indices, Value *scale, Value *mask, Type *type,
                          int kind) {
  auto *vector = cast<FixedVectorType>(type);
  uint64_t bytes = recording.layout.getTypeStoreSize(vector->getElementType()).getFixedValue();
  unsigned lanes = std::min(vector->getNumElements(), cast<FixedVectorType>(indices->getType())->getNumElements());
  Constant *site = sites.of(call, names.access(base, bytes));
  IRBuilder<> builder(&call);
  base = builder.CreatePointerCast(base, recording.types.pointer);
  scale = builder.CreateZExt(scale, recording.types.i64);
  for (unsigned lane = 0; lane < lanes; lane++) {
    Value *size = builder.CreateSelect(lane_bit(builder, mask, lane), builder.getInt64(bytes), builder.getInt64(0));
    Value *offset = builder.CreateMul(
        builder.CreateSExt(builder.CreateExtractElement(indices, uint64_t(lane)), recording.types.i64), scale);
    emit(builder, builder.CreateGEP(recording.types.i8, base, offset), size, kind, site);
  }
}

// As many elements in a row as the mask has bits.
void Teller::tell_packed(IntrinsicInst &call, Value *pointer, Type *type, Value *mask, int kind) {
  auto *vector = dyn_cast<FixedVectorType>(type);
  if (!vector)
    return recording.note(call, "a vector whose length only the machine knows");
  IRBuilder<> builder(&call);
  uint64_t bytes = recording.layout.getTypeStoreSize(vector->getElementType()).getFixedValue();
  Value *count = builder.getInt64(0);
  for (unsigned lane = 0; lane < vector->getNumElements(); lane++)
    count = builder.CreateAdd(count, builder.CreateZExt(lane_bit(builder, mask, lane), recording.types.i64));
  tell(call, pointer, builder.CreateMul(count, builder.getInt64(bytes)), kind);
}

bool Teller::touches_shared(const IntrinsicInst &call) {
  if (!call.mayReadOrWriteMemory())
    return false;
  for (const Use &it : call.args())
    if (it->getType()->isPtrOrPtrVectorTy() && (it->getType()->isVectorTy() || !privacy.is_private(it)))
      return true;
  return false;
}

// The processor's own. False: not known.
bool Teller::tell_x86(IntrinsicInst &call, StringRef name) {
  auto argument = [&](unsigned i) { return call.getArgOperand(i); };
  auto ends = [&](StringRef suffix) { return ends_with(name, suffix); };
  auto has = [&](StringRef part) { return name.contains(part); };
  if (has("prefetch") || has("gatherpf") || has("scatterpf") || has("clflush") || has("clwb") || has("cldemote") ||
      has("umonitor") || has("monitor"))
    return true; // they access nothing that the program can see
  if (has(".maskload.")) {
    tell_lanes(call, argument(0), call.getType(), argument(1), CILKCHECK_READ);
    return true;
  }
  if (has(".maskstore.")) {
    tell_lanes(call, argument(0), argument(2)->getType(), argument(1), CILKCHECK_WRITE);
    return true;
  }
  if (ends(".maskmov.dqu") || ends("mmx.maskmovq")) {
    if (!argument(0)->getType()->isVectorTy() || !isa<FixedVectorType>(argument(1)->getType()))
      return false;
    tell_lanes(call, argument(2), argument(0)->getType(), argument(1), CILKCHECK_WRITE);
    return true;
  }
  // gather(source, base, indices, mask, scale), scatter(base, mask, indices, values, scale)
  if ((has(".gather.") || has(".gather3")) && call.arg_size() == 5 && call.getType()->isVectorTy() &&
      argument(1)->getType()->isPointerTy()) {
    tell_indexed(call, argument(1), argument(2), argument(4), argument(3), call.getType(), CILKCHECK_READ);
    return true;
  }
  if ((has(".scatter.") || has(".scatterdiv") || has(".scattersiv")) && call.arg_size() == 5 &&
      argument(0)->getType()->isPointerTy() && argument(3)->getType()->isVectorTy()) {
    tell_indexed(call, argument(0), argument(2), argument(4), argument(1), argument(3)->getType(), CILKCHECK_WRITE);
    return true;
  }
  struct Plain {
    const char *name;
    unsigned argument, bytes; // 0 bytes: those of the result, or of the other argument
    int kind;
  };
  static const Plain known[] = {
      {"sse3.ldu.dq", 0, 16, CILKCHECK_READ},    {"avx.ldu.dq.256", 0, 32, CILKCHECK_READ},
      {"sse.ldmxcsr", 0, 4, CILKCHECK_READ},     {"sse.stmxcsr", 0, 4, CILKCHECK_WRITE},
      {"fxsave", 0, 512, CILKCHECK_WRITE},       {"fxsave64", 0, 512, CILKCHECK_WRITE},
      {"fxrstor", 0, 512, CILKCHECK_READ},       {"fxrstor64", 0, 512, CILKCHECK_READ},
      {"sse4a.movnt.sd", 0, 8, CILKCHECK_WRITE}, {"sse4a.movnt.ss", 0, 4, CILKCHECK_WRITE},
      {"directstore32", 0, 4, CILKCHECK_WRITE},  {"directstore64", 0, 8, CILKCHECK_WRITE},
      {"movdir64b", 1, 64, CILKCHECK_READ},      {"movdir64b", 0, 64, CILKCHECK_WRITE},
      {"aesenc128kl", 1, 48, CILKCHECK_READ},    {"aesdec128kl", 1, 48, CILKCHECK_READ},
      {"aesenc256kl", 1, 64, CILKCHECK_READ},    {"aesdec256kl", 1, 64, CILKCHECK_READ},
      {"mmx.movnt.dq", 0, 8, CILKCHECK_WRITE},   {"sse2.movnt.i", 0, 4, CILKCHECK_WRITE},
  };
  bool is_known = false;
  for (const Plain &it : known)
    if (name == it.name) {
      tell(call, argument(it.argument), uint64_t(it.bytes), it.kind);
      is_known = true;
    }
  return is_known;
}

void Teller::tell_intrinsic(IntrinsicInst &call) {
  if (isa<DbgInfoIntrinsic>(call))
    return;
  if (auto *copy = dyn_cast<AnyMemTransferInst>(&call)) {
    tell(call, copy->getRawSource(), copy->getLength(), CILKCHECK_READ);
    tell(call, copy->getRawDest(), copy->getLength(), CILKCHECK_WRITE);
    return;
  }
  if (auto *set = dyn_cast<AnyMemSetInst>(&call))
    return tell(call, set->getRawDest(), set->getLength(), CILKCHECK_WRITE);
  auto argument = [&](unsigned i) { return call.getArgOperand(i); };
  constexpr uint64_t va_list_bytes = 24;
  StringRef name = call.getCalledFunction()->getName();
  switch (call.getIntrinsicID()) {
  case Intrinsic::masked_load:
    return tell_lanes(call, argument(0), call.getType(), argument(2), CILKCHECK_READ);
  case Intrinsic::masked_store:
    return tell_lanes(call, argument(1), argument(0)->getType(), argument(3), CILKCHECK_WRITE);
  case Intrinsic::masked_gather:
    return tell_lanes(call, argument(0), call.getType(), argument(2), CILKCHECK_READ);
  case Intrinsic::masked_scatter:
    return tell_lanes(call, argument(1), argument(0)->getType(), argument(3), CILKCHECK_WRITE);
  case Intrinsic::masked_expandload:
    return tell_packed(call, argument(0), call.getType(), argument(1), CILKCHECK_READ);
  case Intrinsic::masked_compressstore:
    return tell_packed(call, argument(1), argument(0)->getType(), argument(2), CILKCHECK_WRITE);
  case Intrinsic::vastart:
    return tell(call, argument(0), va_list_bytes, CILKCHECK_WRITE);
  case Intrinsic::vacopy:
    tell(call, argument(1), va_list_bytes, CILKCHECK_READ);
    return tell(call, argument(0), va_list_bytes, CILKCHECK_WRITE);
  // they access nothing
  case Intrinsic::vaend:
  case Intrinsic::lifetime_start:
  case Intrinsic::lifetime_end:
  case Intrinsic::invariant_start:
  case Intrinsic::invariant_end:
  case Intrinsic::launder_invariant_group:
  case Intrinsic::strip_invariant_group:
  case Intrinsic::experimental_noalias_scope_decl:
  case Intrinsic::prefetch:
  case Intrinsic::assume:
  case Intrinsic::var_annotation:
  case Intrinsic::ptr_annotation:
  case Intrinsic::stacksave:
  case Intrinsic::stackrestore:
  case Intrinsic::eh_typeid_for:
  case Intrinsic::trap:
  case Intrinsic::debugtrap:
  case Intrinsic::sideeffect:
  case Intrinsic::objectsize:
  case Intrinsic::instrprof_increment:
  case Intrinsic::instrprof_increment_step:
  case Intrinsic::instrprof_value_profile:
    return;
  default:
    break;
  }
  if (begins_with(name, "llvm.coro.") || !touches_shared(call))
    return;
  if (begins_with(name, "llvm.x86.") && tell_x86(call, name.drop_front(strlen("llvm.x86."))))
    return;
  recording.note(call, ("intrinsic " + name).str());
}

} // namespace cilkcheck
