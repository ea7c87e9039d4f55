// Where LLVM 14 to 19 differ.
#ifndef CILKCHECK_PASS_VERSIONS_H
#define CILKCHECK_PASS_VERSIONS_H
#include "llvm/Config/llvm-config.h"
#include "llvm/IR/Attributes.h"
#include "llvm/IR/DebugInfo.h"
#include "llvm/IR/Function.h"
#include "llvm/IR/Instructions.h"
#include "llvm/IR/IntrinsicInst.h"
#include "llvm/IR/Module.h"
#include "llvm/Transforms/Scalar/SROA.h"
#if LLVM_VERSION_MAJOR < 14 || LLVM_VERSION_MAJOR > 19
#error "cilkcheck's pass is written for LLVM 14 to 19"
#endif
#if LLVM_VERSION_MAJOR >= 19
#include "llvm/IR/DebugProgramInstruction.h"
#endif

namespace cilkcheck {

inline bool begins_with(llvm::StringRef text, llvm::StringRef prefix) {
  return text.take_front(prefix.size()) == prefix;
}
inline bool ends_with(llvm::StringRef text, llvm::StringRef suffix) { return text.take_back(suffix.size()) == suffix; }

inline llvm::SROAPass make_sroa() {
#if LLVM_VERSION_MAJOR >= 16
  return llvm::SROAPass(llvm::SROAOptions::PreserveCFG);
#else
  return llvm::SROAPass();
#endif
}

// Takes from a function or a call what it says of memory: with hooks in it, that is not true.
template <class T> void forget_memory_attributes(T &of) {
#if LLVM_VERSION_MAJOR >= 16
  of.removeFnAttr(llvm::Attribute::Memory);
#else
  for (auto it :
       {llvm::Attribute::ReadNone, llvm::Attribute::ReadOnly, llvm::Attribute::WriteOnly, llvm::Attribute::ArgMemOnly,
        llvm::Attribute::InaccessibleMemOnly, llvm::Attribute::InaccessibleMemOrArgMemOnly})
    of.removeFnAttr(it);
#endif
}

// Calls `declared(address, variable, expression)` for each debug record that says where a variable lies. From 17 on
// clang -O1 says it by dbg.assign, from 19 on by records beside the instructions.
template <class F> void each_declaration(llvm::Instruction &instruction, F declared) {
#if LLVM_VERSION_MAJOR >= 19
  for (llvm::DbgVariableRecord &it : llvm::filterDbgVars(instruction.getDbgRecordRange())) {
    if (it.isDbgDeclare())
      declared(it.getVariableLocationOp(0), it.getVariable(), it.getExpression());
    else if (it.isDbgAssign())
      declared(it.getAddress(), it.getVariable(), it.getAddressExpression());
  }
#endif
  if (auto *it = llvm::dyn_cast<llvm::DbgDeclareInst>(&instruction))
    declared(it->getAddress(), it->getVariable(), it->getExpression());
#if LLVM_VERSION_MAJOR >= 17
  if (auto *it = llvm::dyn_cast<llvm::DbgAssignIntrinsic>(&instruction))
    declared(it->getAddress(), it->getVariable(), it->getAddressExpression());
#endif
}

} // namespace cilkcheck
#endif
