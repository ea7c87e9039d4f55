// Finds the call that a spawn's statement spawns, and turns the rewriter's marks into calls of the runtime.
//
// The rewriter leaves the user's statement as it is, between a mark and its end. The child begins directly before the
// spawned call, and ends at the mark's end. Of the calls that every way from the mark to its end makes, the spawned one
// is the last that the statement names. The language itself calls behind it: destructors, constructors and conversion
// operators for the result, assignment operators, `get` of a structured binding. Where one of these might be taken for
// the spawned call, or another for it, the statement is refused: a child that begins too late loses races.
#include "spawns.h"
#include "pass.h"
#include "versions.h"
#include "llvm/ADT/STLExtras.h"
#include "llvm/ADT/SetVector.h"
#include "llvm/ADT/SmallPtrSet.h"
#include "llvm/ADT/SmallVector.h"
#include "llvm/Analysis/CaptureTracking.h"
#include "llvm/Analysis/ValueTracking.h"
#include "llvm/Demangle/Demangle.h"
#include "llvm/IR/CFG.h"
#include "llvm/IR/Constants.h"
#include "llvm/IR/DataLayout.h"
#include "llvm/IR/Dominators.h"
#include "llvm/IR/IRBuilder.h"
#include "llvm/IR/InstIterator.h"
#include "llvm/IR/Instructions.h"
#include "llvm/IR/IntrinsicInst.h"
#include "llvm/IR/Module.h"
#include "llvm/Support/raw_ostream.h"
#include <algorithm>
#include <cstdlib>
#include <memory>
#include <string>
#include <utility>
#include <vector>

using namespace llvm;
using cilkcheck::begins_with;

namespace {

constexpr int REFUSED = 70;

// What the rewriter tells of a statement (rewriter/spawns.py): what the language may call behind the spawned call,
// beside destructors.
enum class Form { nothing, assigned, bound, unclear };
constexpr unsigned ASSIGNS_INSIDE = 8;    // with a form: the call's own text assigns to variables
constexpr char NAMELESS[] = "operator()"; // an object is called, or a pointer

struct MarkName {
  const char *mark, *call;
};
// Marks that are one call of the runtime each. Those of abi.h that take more than the site keep their arguments.
constexpr MarkName MARKS[] = {
    {"__cilkcheck_mark_sync", "__cilkcheck_sync"},
    {"__cilkcheck_mark_sync_left", "__cilkcheck_sync"},
    {"_ZN17__cilkcheck_syncsD1Ev", "__cilkcheck_sync"},
    {"_ZN17__cilkcheck_syncsD2Ev", "__cilkcheck_sync"},
    {"__cilkcheck_mark_scope_begin", "__cilkcheck_scope_begin"},
    {"_ZN17__cilkcheck_scopeC1Ev", "__cilkcheck_scope_begin"},
    {"_ZN17__cilkcheck_scopeC2Ev", "__cilkcheck_scope_begin"},
    {"__cilkcheck_mark_scope_left", "__cilkcheck_scope_left"},
    {"_ZN17__cilkcheck_scopeD1Ev", "__cilkcheck_scope_left"},
    {"_ZN17__cilkcheck_scopeD2Ev", "__cilkcheck_scope_left"},
    {"__cilkcheck_mark_outlined", "__cilkcheck_outlined"},
    {"__cilkcheck_mark_reducer", "__cilkcheck_reducer"},
    {"__cilkcheck_mark_hide", "__cilkcheck_hide"},
    {"__cilkcheck_mark_spawned", "__cilkcheck_child_end"},
    {"_ZN17__cilkcheck_spawnD1Ev", "__cilkcheck_child_left"},
    {"_ZN17__cilkcheck_spawnD2Ev", "__cilkcheck_child_left"},
    {"_ZN17__cilkcheck_spawn4leftEv", "__cilkcheck_child_left"},
};
constexpr const char *WITH_ARGUMENTS[] = {"__cilkcheck_reducer", "__cilkcheck_hide", "__cilkcheck_child_left"};
constexpr const char *SPAWN_OF_C = "__cilkcheck_mark_spawn";
constexpr const char *SPAWN_OF_CXX = "_ZN17__cilkcheck_spawnC";

StringRef name_of(const CallBase &call) {
  const Function *callee = call.getCalledFunction();
  return callee ? callee->getName() : StringRef();
}

const char *runtime_call(StringRef mark) {
  for (const MarkName &it : MARKS)
    if (mark == it.mark)
      return it.call;
  return nullptr;
}
bool is_any(StringRef name, ArrayRef<const char *> names) { return is_contained(names, name); }
bool is_spawn(StringRef name) { return name == SPAWN_OF_C || begins_with(name, SPAWN_OF_CXX); }

// Ends the compilation with a message in clang's form, which the wrapper takes up.
[[noreturn]] void refuse(const Instruction &at, const Twine &why) {
  auto &module = const_cast<Module &>(*at.getModule());
  cilkcheck::Position place = cilkcheck::position_of(at);
  cilkcheck::SourceFiles files(module);
  auto *file = files.find(place.file);
  errs() << (file ? file->name : module.getSourceFileName()) << ":" << place.line << ": error: " << why << "\n";
  exit(REFUSED);
}

// ---- what is called ----

// A call that every way from a mark to its end makes.
struct Called {
  CallBase *call;
  std::string base; // the function's unqualified name; empty where a pointer is called
  bool is_constructor = false;
  bool is_language = false; // the statement may make it without naming it
  bool is_indirect() const { return !call->getCalledFunction(); }
  bool is_object() const { return base == NAMELESS; }
};

bool is_assignment(StringRef base) {
  return begins_with(base, "operator") && base.size() > 8 && base.back() == '=' && base != "operator==" &&
         base != "operator!=" && base != "operator<=" && base != "operator>=";
}

// Functions that clang calls for what is no call in the source.
bool is_compilers(StringRef name) {
  for (const char *start : {"__cxa_", "_Unwind_", "__atomic_", "__cilkcheck_", "__clang_", "__kmpc_", "__ubsan_",
                            "__mul", "__div", "_ZTW", "_ZTH", "__tls_", "_ZN17__cilkcheck_"})
    if (begins_with(name, start)) {
      bool is_complex = begins_with(name, "__mul") || begins_with(name, "__div");
      if (!is_complex || (name.size() == 8 && name.substr(6) == "c3"))
        return true;
    }
  return false;
}

Called called(CallBase &call, Form form) {
  Called out{&call, ""};
  const Function *callee = dyn_cast<Function>(call.getCalledOperand()->stripPointerCasts());
  if (!callee)
    return out;
  StringRef name = callee->getName();
  if (begins_with(name, "\1"))
    name = name.drop_front();
  out.base = name.str();
  if (is_compilers(name)) {
    out.is_language = true;
    return out;
  }
  if (!begins_with(name, "_Z"))
    return out;
  ItaniumPartialDemangler parts;
  if (parts.partialDemangle(out.base.c_str()) || !parts.isFunction()) {
    out.is_language = parts.isSpecialName();
    return out;
  }
  size_t room = 0;
  if (char *base = parts.getFunctionBaseName(nullptr, &room)) {
    out.base = base;
    std::free(base);
  }
  out.is_constructor = parts.isCtorOrDtor();
  out.is_language = out.is_constructor || begins_with(out.base, "operator ") ||
                    (form != Form::nothing && is_assignment(out.base)) || (form == Form::bound && out.base == "get");
  return out;
}

// ---- the statement ----

struct Region {
  SetVector<Instruction *> inside;          // in the order of the walk, the ends not among them
  SmallVector<Instruction *, 4> ends, dead; // calls of the end; where control never comes behind a call
};

Instruction *behind(Instruction &it) {
  auto *invoke = dyn_cast<InvokeInst>(&it);
  return invoke ? &invoke->getNormalDest()->front() : it.getNextNode();
}

// What runs behind `from`, up to an end, with or without the ways of exceptions.
template <class IsEnd> Region walk(Instruction &from, IsEnd is_end, bool exceptions) {
  Region out;
  SmallPtrSet<BasicBlock *, 16> seen;
  SmallVector<Instruction *, 16> work{behind(from)};
  if (auto *invoke = dyn_cast<InvokeInst>(&from); invoke && exceptions)
    work.push_back(&invoke->getUnwindDest()->front());
  while (!work.empty()) {
    for (Instruction *it = work.pop_back_val(); it && it != &from; it = it->getNextNode()) {
      if (is_end(*it)) {
        out.ends.push_back(it);
        break;
      }
      out.inside.insert(it);
      if (isa<UnreachableInst>(it))
        out.dead.push_back(it);
      if (!it->isTerminator())
        continue;
      auto *invoke = dyn_cast<InvokeInst>(it);
      for (BasicBlock *next : successors(it->getParent()))
        if ((exceptions || !invoke || next == invoke->getNormalDest()) && seen.insert(next).second)
          work.push_back(&next->front());
    }
  }
  return out;
}

// The functions that the module calls instead of marks.
class Runtime {
public:
  explicit Runtime(Module &module)
      : module(module), context(module.getContext()), pointer(PointerType::getUnqual(Type::getInt8Ty(context))) {}

  // A call before `before`, at the place of `at`. With a site, and with further arguments as they come where `is_open`.
  CallInst *call(StringRef name, ArrayRef<Value *> arguments, Instruction &before, const Instruction &at,
                 bool is_open = false, bool has_site = true) {
    IRBuilder<> builder(&before);
    SmallVector<Value *, 8> all;
    if (has_site)
      all.push_back(ConstantPointerNull::get(pointer));
    for (Value *it : arguments)
      all.push_back(it->getType()->isPointerTy() ? builder.CreatePointerBitCastOrAddrSpaceCast(it, pointer) : it);
    SmallVector<Type *, 8> types;
    for (Value *it : ArrayRef<Value *>(all).take_front(is_open ? fixed(name) : all.size()))
      types.push_back(it->getType());
    FunctionCallee callee =
        module.getOrInsertFunction(name, FunctionType::get(Type::getVoidTy(context), types, is_open));
    if (auto *function = dyn_cast<Function>(callee.getCallee()))
      function->setDoesNotThrow();
    CallInst *made = builder.CreateCall(callee, all);
    made->setDoesNotThrow();
    made->addFnAttr(Attribute::NoMerge);
    made->setDebugLoc(at.getDebugLoc());
    return made;
  }

private:
  static size_t fixed(StringRef name) { return name == "__cilkcheck_child_begins" ? 2 : 1; }
  Module &module;
  LLVMContext &context;
  PointerType *pointer;
};

void remove(CallBase &mark) {
  if (auto *invoke = dyn_cast<InvokeInst>(&mark)) {
    BranchInst::Create(invoke->getNormalDest(), invoke);
    invoke->getUnwindDest()->removePredecessor(invoke->getParent());
  }
  if (!mark.use_empty())
    mark.replaceAllUsesWith(UndefValue::get(mark.getType()));
  mark.eraseFromParent();
}

class Spawn {
public:
  Spawn(CallBase &mark, const DominatorTree &order, Runtime &runtime) : mark(mark), order(order), runtime(runtime) {
    is_cxx = name_of(mark) != SPAWN_OF_C;
    object = is_cxx ? mark.getArgOperand(0)->stripPointerCasts() : mark.getArgOperand(0);
    StringRef text;
    if (!getConstantStringInfo(mark.getArgOperand(1), text))
      refuse(mark, "a spawn without a name");
    name = text.str();
    uint64_t told = cast<ConstantInt>(mark.getArgOperand(2))->getZExtValue();
    form = static_cast<Form>(told & ~uint64_t{ASSIGNS_INSIDE});
    assigns_inside = told & ASSIGNS_INSIDE;
    if (mark.arg_size() > 3 && !isa<ConstantPointerNull>(mark.getArgOperand(3)))
      place = mark.getArgOperand(3);
  }

  void lower() {
    auto is_end = [this](Instruction &it) { return ends(it); };
    normal = walk(mark, is_end, false);
    all = walk(mark, is_end, true);
    Called spawned = find();
    own_parameters(*spawned.call);
    SetVector<Value *> shared;
    if (is_cxx)
      shared.insert(object);
    if (place)
      shared.insert(place);
    for (Value *it : written(*spawned.call))
      shared.insert(it);
    runtime.call(is_cxx ? "__cilkcheck_child_begins" : "__cilkcheck_child_begin", shared.getArrayRef(), *spawned.call,
                 mark, true);
    renew_temporaries();
    if (!is_cxx)
      return;
    runtime.call("__cilkcheck_child_awaited", {object}, mark, mark);
    // a place that is a temporary was made before the mark: the next one there is another
    if (place && !is_zero(mark.getArgOperand(4)))
      for (Instruction *it : all.ends)
        runtime.call("__cilkcheck_fresh", {place, mark.getArgOperand(4)}, *it->getNextNode(), *it, false, false);
  }

private:
  static bool is_zero(const Value *value) {
    auto *number = dyn_cast<ConstantInt>(value);
    return number && number->isZero();
  }

  bool ends(Instruction &it) const {
    auto *call = dyn_cast<CallBase>(&it);
    if (!call || call->arg_size() == 0)
      return false;
    StringRef mark_name = name_of(*call);
    if (!is_cxx)
      return mark_name == "__cilkcheck_mark_spawned" && call->getArgOperand(0) == object;
    const char *becomes = runtime_call(mark_name);
    return becomes && StringRef(becomes) == "__cilkcheck_child_left" &&
           call->getArgOperand(0)->stripPointerCasts() == object;
  }

  bool is_named(const Called &it) const {
    return name == NAMELESS ? it.is_indirect() || it.is_object() : it.base == name;
  }

  // The calls on every way to the end, in their order.
  std::vector<Called> candidates() const {
    ArrayRef<Instruction *> to = normal.ends.empty() ? normal.dead : normal.ends;
    std::vector<Called> out;
    for (Instruction *it : normal.inside) {
      auto *call = dyn_cast<CallBase>(it);
      if (!call || isa<IntrinsicInst>(call) || call->isInlineAsm() || is_spawn(name_of(*call)) ||
          runtime_call(name_of(*call)))
        continue;
      if (!to.empty() && all_of(to, [&](Instruction *end) { return order.dominates(call, end); }))
        out.push_back(called(*call, form));
    }
    std::sort(out.begin(), out.end(), [this](const Called &one, const Called &other) {
      return one.call != other.call && order.dominates(one.call, other.call);
    });
    return out;
  }

  [[noreturn]] void uncertain() const {
    refuse(mark, "cilk_spawn of " + (name == NAMELESS ? Twine("an object or a pointer") : Twine(name)) +
                     " in a statement with other calls: put their results into variables first");
  }

  Called find() const {
    std::vector<Called> calls = candidates();
    auto at = std::find_if(calls.rbegin(), calls.rend(),
                           [this](const Called &it) { return !it.is_language || is_named(it); });
    if (at == calls.rend()) {
      if (any_of(normal.inside, [](Instruction *it) {
            auto *call = dyn_cast<IntrinsicInst>(it);
            return call && !isa<DbgInfoIntrinsic>(call) && !call->isLifetimeStartOrEnd();
          }))
        refuse(mark,
               "cilk_spawn of " + name + ", for which the compiler makes no call: spawn a block, cilk_spawn { .. }");
      refuse(mark, "cilk_spawn of " + (name == NAMELESS ? Twine("what is no call")
                                                        : Twine(name) + ", which the statement does not always call"));
    }
    size_t others = 0; // calls before it that the statement names
    bool has_named = false, has_pointer = false;
    for (auto it = at + 1; it != calls.rend(); ++it) {
      others += !it->is_language;
      has_named |= it->base == name;
      has_pointer |= it->is_indirect() || it->is_object();
    }
    bool named = is_named(*at), direct = !at->is_indirect() && !at->is_object();
    // a direct call of another name: the name is that of a reference, or of the assembler; or a type, whose constructor
    // is called
    if (!named && direct &&
        any_of(make_range(calls.rbegin(), at), [](const Called &it) { return it.is_constructor && it.base[0] != '~'; }))
      uncertain();
    if (form == Form::nothing)
      return *at;
    // an object may bear the name of a function that an argument calls, and the language may call a virtual operator
    if (!named && has_named)
      uncertain();
    if (form == Form::unclear && others)
      uncertain();
    if (at->is_language && (is_assignment(name) || has_named))
      uncertain();
    if (at->is_indirect() && others && may_be_language(*at->call, calls))
      uncertain();
    if (!named && direct && has_pointer)
      uncertain();
    return *at;
  }

  // Whether the call may be that of a virtual operator: the function comes out of the table of its first argument,
  // `this`.
  static bool is_virtual(const CallBase &call, const Value *self) {
    const Value *callee = call.getCalledOperand()->stripPointerCasts();
    auto *function = dyn_cast<LoadInst>(callee);
    if (!function)
      return isa<ExtractValueInst>(callee) || isa<CallBase>(callee);
    auto *table = dyn_cast<LoadInst>(getUnderlyingObject(function->getPointerOperand(), 0));
    return table && table->getPointerOperand()->stripPointerCasts() == self;
  }

  // Whether the language may call it for an earlier call's result: an assignment, whose own result nobody uses, or a
  // conversion.
  static bool may_be_language(const CallBase &call, ArrayRef<Called> calls) {
    bool by_pointer = call.hasStructRetAttr();
    if (call.arg_size() < 1u + by_pointer)
      return false;
    const Value *self = call.getArgOperand(by_pointer)->stripPointerCasts();
    if (!is_virtual(call, self))
      return false;
    if (call.use_empty() && !by_pointer)
      return true;
    if (call.arg_size() > 1u + by_pointer)
      return false;
    self = getUnderlyingObject(self, 0);
    return any_of(calls, [&](const Called &it) {
      return self == it.call || (it.call != &call && it.call->hasStructRetAttr() &&
                                 getUnderlyingObject(it.call->getArgOperand(0), 0) == self);
    });
  }

  // A structure by value is the callee's copy. The machine makes it as it calls; the spawner has to.
  void own_parameters(CallBase &call) {
    const DataLayout &layout = call.getModule()->getDataLayout();
    for (unsigned i = 0; i < call.arg_size(); i++) {
      if (!call.isByValArgument(i))
        continue;
      auto *local = dyn_cast<AllocaInst>(call.getArgOperand(i)->stripPointerCasts());
      if (local && is_own(*local))
        continue;
      Type *type = call.getParamByValType(i);
      MaybeAlign align = call.getParamAlign(i);
      IRBuilder<> entry(&*call.getFunction()->getEntryBlock().getFirstInsertionPt());
      AllocaInst *copy = entry.CreateAlloca(type);
      if (align)
        copy->setAlignment(std::max(*align, copy->getAlign()));
      IRBuilder<> builder(&call);
      builder.SetCurrentDebugLocation(call.getDebugLoc());
      Value *to = builder.CreatePointerBitCastOrAddrSpaceCast(copy, call.getArgOperand(i)->getType());
      all.inside.insert(builder.CreateMemCpy(to, copy->getAlign(), call.getArgOperand(i), align,
                                             layout.getTypeAllocSize(type).getFixedValue()));
      if (auto *cast = dyn_cast<Instruction>(to))
        all.inside.insert(cast);
      call.setArgOperand(i, to);
      copies.push_back(copy);
    }
  }

  // Locals that the child writes or is handed, and that others may use: as long as their addresses are not seen, SROA
  // would make values of them.
  SetVector<Value *> written(CallBase &call) const {
    SetVector<Value *> out;
    auto add = [&](const Value *pointer) {
      SmallVector<const Value *, 4> objects;
      getUnderlyingObjects(pointer, objects, nullptr, 0);
      for (const Value *it : objects) {
        auto *local = const_cast<Value *>(it);
        auto *argument = dyn_cast<Argument>(local);
        if (local == object || !(isa<AllocaInst>(local) || (argument && argument->hasByValAttr())))
          continue;
        if (auto *variable = dyn_cast<AllocaInst>(local); variable && is_own(*variable))
          continue;
        out.insert(local);
      }
    };
    auto add_arguments = [&](CallBase &it) {
      for (Value *argument : it.args())
        if (argument->getType()->isPointerTy())
          add(argument);
    };
    add_arguments(call);
    auto is_end = [this](Instruction &it) { return ends(it); };
    for (Instruction *it : walk(call, is_end, false).inside) {
      if (auto *store = dyn_cast<StoreInst>(it))
        add(store->getPointerOperand());
      else if (auto *exchange = dyn_cast<AtomicCmpXchgInst>(it))
        add(exchange->getPointerOperand());
      else if (auto *update = dyn_cast<AtomicRMWInst>(it))
        add(update->getPointerOperand());
      else if (auto *fill = dyn_cast<AnyMemIntrinsic>(it))
        add(fill->getRawDest());
      else if (auto *other = dyn_cast<CallBase>(it); other && !isa<DbgInfoIntrinsic>(it) && !it->isLifetimeStartOrEnd())
        add_arguments(*other);
    }
    return out;
  }

  // Whether it is memory that the compiler took for this statement. A variable of the user's may be used here alone,
  // too: as a temporary it would be another one for each spawn, and its races were lost. What the compiler takes it
  // fills before any other use. In C it hands no such address to a function but for results and structures by value: a
  // compound literal is a variable.
  bool is_temporary(AllocaInst &local) const {
    if (&local == object || assigns_inside)
      return false;
    SmallVector<Instruction *, 8> work{&local}, fills, uses;
    SmallPtrSet<Instruction *, 8> seen;
    while (!work.empty()) {
      Instruction *address = work.pop_back_val();
      for (User *user : address->users()) {
        auto *it = cast<Instruction>(user);
        if (it->isLifetimeStartOrEnd() || isa<DbgInfoIntrinsic>(it))
          continue;
        if (isa<BitCastInst>(it) || isa<AddrSpaceCastInst>(it) || isa<GetElementPtrInst>(it) || isa<PHINode>(it) ||
            isa<SelectInst>(it)) {
          if (seen.insert(it).second)
            work.push_back(it);
          continue;
        }
        if (!all.inside.count(it) || (!is_cxx && hands_over(*it, address)))
          return false;
        (does_fill(*it, address) ? fills : uses).push_back(it);
      }
    }
    return !fills.empty() && none_of(uses, [&](Instruction *use) {
      return any_of(fills, [&](Instruction *fill) { return order.dominates(use, fill); });
    });
  }

  bool does_fill(Instruction &it, const Value *address) const {
    if (auto *store = dyn_cast<StoreInst>(&it))
      return store->getPointerOperand() == address && store->getValueOperand() != address;
    if (auto *fill = dyn_cast<AnyMemIntrinsic>(&it))
      return fill->getRawDest() == address;
    auto *call = dyn_cast<CallBase>(&it);
    if (!call || call->arg_size() == 0 || call->getArgOperand(0) != address)
      return false;
    Called callee = called(*call, form);
    return call->hasStructRetAttr() || (callee.is_constructor && callee.base[0] != '~');
  }

  static bool hands_over(Instruction &it, const Value *address) {
    if (auto *store = dyn_cast<StoreInst>(&it))
      return store->getValueOperand() == address;
    auto *call = dyn_cast<CallBase>(&it);
    if (!call || isa<IntrinsicInst>(call))
      return isa<PtrToIntInst>(it);
    for (unsigned i = 0; i < call->arg_size(); i++)
      if (call->getArgOperand(i) == address && !call->isByValArgument(i) &&
          !call->paramHasAttr(i, Attribute::StructRet))
        return true;
    return false;
  }

  bool is_own(AllocaInst &local) const { return is_contained(copies, &local) || is_temporary(local); }

  // Temporaries, and arguments in memory: in Cilk each spawn has its own.
  void renew_temporaries() {
    Function &function = *mark.getFunction();
    const DataLayout &layout = function.getParent()->getDataLayout();
    for (Instruction &it : function.getEntryBlock()) {
      auto *local = dyn_cast<AllocaInst>(&it);
      if (!local || !local->isStaticAlloca() || !is_own(*local))
        continue;
      if (!is_contained(copies, local) && !PointerMayBeCaptured(local, true, true))
        continue;
      uint64_t bytes = layout.getTypeAllocSize(local->getAllocatedType()).getFixedValue() *
                       cast<ConstantInt>(local->getArraySize())->getZExtValue();
      if (!bytes)
        continue;
      Value *size = ConstantInt::get(Type::getInt64Ty(function.getContext()), bytes);
      runtime.call("__cilkcheck_fresh", {local, size}, mark, mark, false, false);
    }
  }

  CallBase &mark;
  const DominatorTree &order;
  Runtime &runtime;
  bool is_cxx;
  Value *object;          // C++: the statement's object; C: its number
  Value *place = nullptr; // what the statement assigns to
  std::string name;
  Form form;
  bool assigns_inside;
  Region normal, all;
  SmallVector<AllocaInst *, 2> copies;
};

void replace_marks(Function &function, Runtime &runtime) {
  SmallVector<CallBase *, 16> spawns, marks;
  for (Instruction &it : instructions(function))
    if (auto *call = dyn_cast<CallBase>(&it)) {
      if (is_spawn(name_of(*call)))
        spawns.push_back(call);
      else if (runtime_call(name_of(*call)))
        marks.push_back(call);
    }
  if (spawns.empty() && marks.empty())
    return;
  DominatorTree order(function);
  for (CallBase *it : spawns)
    if (order.isReachableFromEntry(it->getParent()))
      Spawn(*it, order, runtime).lower();
  for (CallBase *it : marks) {
    const char *name = runtime_call(name_of(*it));
    SmallVector<Value *, 4> arguments;
    if (is_any(name, WITH_ARGUMENTS))
      arguments.append(it->arg_begin(), it->arg_end());
    runtime.call(name, arguments, *it, *it);
  }
  for (CallBase *it : concat<CallBase *>(spawns, marks))
    remove(*it);
  // An exception that leaves the function: its children end before its locals are destroyed.
  for (BasicBlock &block : function)
    if (LandingPadInst *pad = block.getLandingPadInst()) {
      Instruction &before = *block.getFirstInsertionPt();
      runtime.call("__cilkcheck_unwound", {IRBuilder<>(&before).CreateExtractValue(pad, 1)}, before, *pad);
    }
}

} // namespace

void cilkcheck::find_spawned_calls(Module &module) {
  Runtime runtime(module);
  for (Function &function : module)
    replace_marks(function, runtime);
  for (Function &function : make_early_inc_range(module))
    if (function.isDeclaration() && function.use_empty() &&
        (is_spawn(function.getName()) || runtime_call(function.getName())))
      function.eraseFromParent();
}
