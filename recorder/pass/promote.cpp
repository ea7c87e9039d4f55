// SROA behind the telling: nothing that it takes away is lost, and what it makes private is told no more.
#include "pass.h"
#include "llvm/Analysis/AssumptionCache.h"
#include "llvm/IR/Dominators.h"
#include "llvm/IR/InstIterator.h"
#include "llvm/IR/IntrinsicInst.h"
#include "llvm/IR/Operator.h"
#include "versions.h"

namespace cilkcheck {

// The accesses told of private memory. True: there were some.
static bool forget_private(Recording &recording, Function &function) {
  Privacy privacy(recording.hooks);
  std::vector<Instruction *> gone;
  for (Instruction &it : instructions(function))
    if (recording.hooks.tells(&it) && privacy.is_private(cast<CallInst>(it).getArgOperand(0)))
      gone.push_back(&it);
  for (Instruction *it : gone)
    it->eraseFromParent();
  return !gone.empty();
}

namespace {

// Numbers for values, equal for two that are computed in the same way from the same values without reading memory.
class ValueNumbers {
public:
  unsigned of(Value *value, unsigned depth = 0) {
    if (auto it = numbers.find(value); it != numbers.end())
      return it->second;
    auto *instruction = dyn_cast<Instruction>(value);
    unsigned number;
    if (instruction && depth < 8 && is_pure(*instruction)) {
      std::vector<uintptr_t> key{instruction->getOpcode(), (uintptr_t)instruction->getType()};
      if (auto *address = dyn_cast<GetElementPtrInst>(instruction))
        key.push_back((uintptr_t)address->getSourceElementType());
      for (Value *operand : instruction->operands())
        key.push_back(of(operand, depth + 1));
      number = computed.insert({key, next}).first->second;
    } else
      number = next;
    if (number == next)
      next++;
    return numbers[value] = number;
  }

private:
  static bool is_pure(const Instruction &it) {
    return isa<GetElementPtrInst>(it) || isa<CastInst>(it) || isa<BinaryOperator>(it);
  }
  unsigned next = 1;
  DenseMap<Value *, unsigned> numbers;
  std::map<std::vector<uintptr_t>, unsigned> computed;
};

} // namespace

// A strand's further access of the same bytes changes nothing: a read behind a read or write, a write behind a write.
static void forget_repeated(Recording &recording, Function &function) {
  struct Told {
    uint64_t read = 0, written = 0;
  };
  ValueNumbers numbers;
  std::vector<Instruction *> gone;
  for (BasicBlock &block : function) {
    DenseMap<unsigned, Told> told;
    for (Instruction &it : block) {
      if (it.isAtomic())
        told.clear();
      auto *call = dyn_cast<CallBase>(&it);
      if (!call || isa<IntrinsicInst>(call))
        continue;
      if (!recording.hooks.tells(call)) {
        told.clear();
        continue;
      }
      uint64_t bytes = 0;
      bool writes = false;
      for (unsigned log = 0; log < 5; log++) {
        bool reads = call->getCalledOperand() == recording.hooks.reads[log].getCallee();
        writes |= call->getCalledOperand() == recording.hooks.writes[log].getCallee();
        if (reads || writes) {
          bytes = uint64_t(1) << log;
          break;
        }
      }
      if (call->getCalledOperand() == recording.hooks.access.getCallee()) {
        auto *size = dyn_cast<ConstantInt>(call->getArgOperand(1)),
             *kind = dyn_cast<ConstantInt>(call->getArgOperand(2));
        if (!size || !kind || (kind->getZExtValue() != CILKCHECK_READ && kind->getZExtValue() != CILKCHECK_WRITE))
          continue;
        bytes = size->getZExtValue();
        writes = kind->getZExtValue() == CILKCHECK_WRITE;
      }
      Told &before = told[numbers.of(call->getArgOperand(0)->stripPointerCasts())];
      if (before.written >= bytes || (!writes && before.read >= bytes))
        gone.push_back(call);
      else
        (writes ? before.written : before.read) = bytes;
    }
  }
  for (Instruction *it : gone)
    it->eraseFromParent();
}

void promote(Recording &recording, Function &function, FunctionAnalysisManager &analyses) {
  // Locals of a coroutine lie in its frame on the heap, those of a function that setjmp returns to twice are its
  // author's business.
  if (!recording.coroutines.count(&function) && !function.callsFunctionThatReturnsTwice())
    for (unsigned rounds = 0; rounds < 3; rounds++) {
      analyses.invalidate(function, PreservedAnalyses::none());
      make_sroa().run(function, analyses);
      if (!forget_private(recording, function))
        break;
    }
  analyses.invalidate(function, PreservedAnalyses::none());
  forget_repeated(recording, function);
}

} // namespace cilkcheck
