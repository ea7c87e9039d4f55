// Names of what is accessed, for people alone.
#include "pass.h"
#include "llvm/BinaryFormat/Dwarf.h"
#include "llvm/Demangle/Demangle.h"
#include "llvm/IR/InstIterator.h"
#include "llvm/IR/Operator.h"
#include "versions.h"
#include <cstdlib>
#include <cstring>

namespace cilkcheck {

static DIType *bare(DIType *type) {
  while (auto *it = dyn_cast_or_null<DIDerivedType>(type)) {
    switch (it->getTag()) {
    case dwarf::DW_TAG_typedef:
    case dwarf::DW_TAG_const_type:
    case dwarf::DW_TAG_volatile_type:
    case dwarf::DW_TAG_restrict_type:
    case dwarf::DW_TAG_atomic_type:
      type = it->getBaseType();
      continue;
    default:
      return type;
    }
  }
  return type;
}
static uint64_t bytes_of(DIType *type) {
  type = bare(type);
  return type ? type->getSizeInBits() / 8 : 0;
}
static DICompositeType *array(DIType *type) {
  auto *it = dyn_cast_or_null<DICompositeType>(bare(type));
  return it && it->getTag() == dwarf::DW_TAG_array_type && !it->isVector() ? it : nullptr;
}
// The type behind N of the array's bounds.
static DIType *element_of(DICompositeType &array) { return array.getBaseType(); }
static uint64_t bounds_of(DICompositeType &array) { return array.getElements().size(); }
static DICompositeType *structure(DIType *type) {
  auto *it = dyn_cast_or_null<DICompositeType>(bare(type));
  return it && (it->getTag() == dwarf::DW_TAG_structure_type || it->getTag() == dwarf::DW_TAG_class_type) ? it
                                                                                                          : nullptr;
}
static bool is_member(const DINode *node) {
  auto *it = dyn_cast<DIDerivedType>(node);
  return it && !it->isStaticMember() &&
         (it->getTag() == dwarf::DW_TAG_member || it->getTag() == dwarf::DW_TAG_inheritance);
}
// The only member, or base class, where the bytes lie; none where bit-fields share them.
static DIDerivedType *member_at(DICompositeType &type, uint64_t offset, uint64_t bytes) {
  DIDerivedType *found = nullptr;
  for (DINode *node : type.getElements()) {
    if (!is_member(node))
      continue;
    auto *it = cast<DIDerivedType>(node);
    uint64_t size = it->getSizeInBits() ? it->getSizeInBits() : bytes_of(it->getBaseType()) * 8;
    uint64_t from = it->getOffsetInBits(), to = from + size;
    if (from >= (offset + bytes) * 8 || to <= offset * 8)
      continue;
    if (found)
      return nullptr;
    found = it;
  }
  return found;
}
// The array without a length at the end of a structure.
static DIDerivedType *tail_of(DICompositeType &type) {
  DIDerivedType *last = nullptr;
  for (DINode *node : type.getElements())
    if (is_member(node))
      last = cast<DIDerivedType>(node);
  return last && array(last->getBaseType()) && !bytes_of(last->getBaseType()) ? last : nullptr;
}

Names::Names(Function &function) : layout(function.getParent()->getDataLayout()) {
  for (Instruction &it : instructions(function))
    each_declaration(it, [&](Value *memory, DILocalVariable *variable, DIExpression *expression) {
      if (memory)
        variables.insert({memory->stripPointerCasts(), {variable, expression && expression->startsWithDeref()}});
    });
  // an argument in memory: the variable lies where the argument points to, which is kept for the debugger alone
  for (auto &[holder, told] :
       SmallVector<std::pair<const Value *, std::pair<DILocalVariable *, bool>>, 8>(variables.begin(), variables.end()))
    if (told.second)
      for (const User *user : holder->users())
        if (auto *store = dyn_cast<StoreInst>(user); store && store->getPointerOperand() == holder)
          variables.insert({store->getValueOperand(), {told.first, false}});
}

DILocalVariable *Names::variable(const Value *memory) const {
  auto it = variables.find(memory);
  return it == variables.end() ? nullptr : it->second.first;
}

std::string Names::show(const Lvalue &it) { return it.pointee ? "*" + it.text : it.text; }

static std::string in_brackets(const std::string &text) { return text[0] == '*' ? "(" + text + ")" : text; }

Names::Lvalue Names::index(const Lvalue &of, DIType *element) { return {in_brackets(of.text) + "[]", element, false}; }

Names::Lvalue Names::member(const Lvalue &of, const DIDerivedType &which) {
  if (which.getTag() == dwarf::DW_TAG_inheritance || which.getName().empty())
    return {of.text, which.getBaseType(), of.pointee};
  return {in_brackets(of.text) + (of.pointee ? "->" : ".") + which.getName().str(), which.getBaseType(), false};
}

// The part of `from` that lies `offset` bytes behind its begin, as small as BYTES. One value is the innermost part that
// holds it.
Names::Lvalue Names::walk(Lvalue from, int64_t offset, uint64_t bytes, bool one_value) {
  for (unsigned steps = 0; steps < 16; steps++) {
    int64_t size = bytes_of(from.type);
    if (auto *whole = structure(from.type); whole && offset >= 0 && tail_of(*whole)) {
      auto *tail = tail_of(*whole);
      int64_t begin = tail->getOffsetInBits() / 8;
      if (offset >= begin) {
        from = member(from, *tail);
        offset -= begin;
        continue;
      }
    }
    if (from.pointee && (offset < 0 || (size && offset >= size))) {
      from = index(from, from.type);
      offset = size ? (offset % size + size) % size : 0;
      continue;
    }
    bool counted = array(from.type) && !size && (offset || bytes != UINT64_MAX); // its length is a variable's
    if ((!size && !counted) || offset < 0 || (!offset && !counted && bytes >= (uint64_t)size && !one_value))
      break;
    if (auto *it = array(from.type)) {
      uint64_t element = bytes_of(element_of(*it));
      if (!element || (one_value && element < bytes))
        break;
      Lvalue whole = from.pointee ? Lvalue{show(from), from.type, false} : from;
      from = whole;
      for (uint64_t bound = 0; bound < bounds_of(*it); bound++)
        from = index(from, element_of(*it));
      offset %= element;
    } else if (auto *it = structure(from.type)) {
      if (it->getName() == "__va_list_tag")
        return {}; // clang's own
      auto *which = member_at(*it, offset, one_value ? std::min<uint64_t>(bytes, 16) : 1);
      if (!which || (one_value && bytes_of(which->getBaseType()) < bytes) || which->isArtificial())
        break;
      from = member(from, *which);
      offset -= which->getOffsetInBits() / 8;
    } else
      break;
  }
  return from;
}

// An address with an index that is no constant.
Names::Lvalue Names::element(Lvalue base, const GEPOperator &address) const {
  auto zero = [](const Value *index) {
    auto *it = dyn_cast<ConstantInt>(index);
    return it && it->isZero();
  };
  Type *type = address.getSourceElementType();
  uint64_t step = layout.getTypeAllocSize(type).getKnownMinValue();
  auto at = address.idx_begin();
  // a member at offset 0 has no address computation of its own
  while (auto *fields = structure(base.type)) {
    auto *first = isa<StructType>(type) && step >= bytes_of(fields) ? nullptr : member_at(*fields, 0, 1);
    if (!first || (step >= bytes_of(fields) && !isa<ArrayType>(type)))
      break;
    base = member(base, *first);
  }
  if (!zero(*at)) {
    auto *whole = array(base.type);
    if (!base.pointee || (whole && step < bytes_of(base.type))) {
      // an array that has become a pointer to its first element
      if (!whole)
        return base.type ? base : index(base, nullptr);
      base = index({show(base), base.type, false},
                   step == bytes_of(element_of(*whole)) || bounds_of(*whole) == 1 ? element_of(*whole) : whole);
    } else
      base = index(base, base.type);
  }
  for (++at; at != address.idx_end(); ++at) {
    if (auto *fields = dyn_cast<StructType>(type)) {
      unsigned field = cast<ConstantInt>(*at)->getZExtValue();
      uint64_t offset = layout.getStructLayout(fields)->getElementOffset(field);
      type = fields->getElementType(field);
      if (offset || !isa<StructType>(type))
        base = walk(base, offset, std::max<uint64_t>(1, layout.getTypeAllocSize(type).getKnownMinValue()));
      continue;
    }
    auto *elements = dyn_cast<ArrayType>(type);
    if (!elements)
      return base;
    type = elements->getElementType();
    auto *whole = array(base.type);
    // one bound of several: the type of what is left is not written in the debug information
    DIType *left = whole && bounds_of(*whole) == 1  ? element_of(*whole)
                   : whole && !isa<ArrayType>(type) ? element_of(*whole)
                                                    : base.type;
    base = index(base.pointee ? Lvalue{show(base), base.type, false} : base, left);
  }
  return base;
}

// What a memory cell without a name holds, where it is written once.
static Value *only_value(Value *cell) {
  Value *found = nullptr;
  for (User *user : cell->users()) {
    auto *store = dyn_cast<StoreInst>(user);
    if (!store && !isa<LoadInst>(user) && !isa<BitCastInst>(user) && !isa<IntrinsicInst>(user))
      return nullptr;
    if (!store)
      continue;
    if (found || store->getPointerOperand() != cell)
      return nullptr;
    found = store->getValueOperand();
  }
  return found;
}

Names::Lvalue Names::lvalue(Value *pointer, unsigned depth) const {
  if (depth > 12)
    return {};
  if (auto it = variables.find(pointer); it != variables.end() && !it->second.second)
    return {it->second.first->getName().str(), it->second.first->getType(), false};
  if (auto *global = dyn_cast<GlobalVariable>(pointer)) {
    SmallVector<DIGlobalVariableExpression *, 1> known;
    global->getDebugInfo(known);
    if (known.empty())
      return {global->hasPrivateLinkage() ? "" : demangle(global->getName().str()), nullptr, false};
    return {known[0]->getVariable()->getName().str(), known[0]->getVariable()->getType(), false};
  }
  if (auto *cast = dyn_cast<BitCastOperator>(pointer))
    return lvalue(cast->getOperand(0), depth + 1);
  if (auto *call = dyn_cast<IntrinsicInst>(pointer); call && base_of(call) != call)
    return lvalue(call->getArgOperand(0), depth + 1);
  if (auto *address = dyn_cast<GEPOperator>(pointer)) {
    Lvalue base = lvalue(address->getPointerOperand(), depth + 1);
    if (!base)
      return base;
    APInt offset(layout.getIndexTypeSizeInBits(address->getType()), 0);
    if (!address->accumulateConstantOffset(layout, offset))
      return element(base, *address);
    return offset.isZero() ? base : walk(base, offset.getSExtValue(), UINT64_MAX);
  }
  if (auto *load = dyn_cast<LoadInst>(pointer)) {
    if (auto it = variables.find(load->getPointerOperand()); it != variables.end() && it->second.second)
      return {it->second.first->getName().str(), it->second.first->getType(), false};
    Lvalue holder = lvalue(load->getPointerOperand(), depth + 1);
    if (auto *held =
            !holder && isa<AllocaInst>(load->getPointerOperand()) ? only_value(load->getPointerOperand()) : nullptr)
      return lvalue(held, depth + 1);
    if (!holder)
      return holder;
    holder = walk(holder, 0, layout.getPointerSize(), true);
    auto *type = dyn_cast_or_null<DIDerivedType>(bare(holder.type));
    if (!type)
      return {show(holder), nullptr, true};
    bool reference =
        type->getTag() == dwarf::DW_TAG_reference_type || type->getTag() == dwarf::DW_TAG_rvalue_reference_type;
    return {show(holder), type->getBaseType(), !reference};
  }
  return {};
}

std::string Names::access(Value *pointer, uint64_t bytes, bool one_value) const {
  Lvalue it = lvalue(pointer, 0);
  return it ? show(walk(it, 0, std::max<uint64_t>(1, bytes), one_value)) : "";
}

// The last name of a function, as the source has it.
static std::string unqualified(StringRef linkage) {
  if (begins_with(linkage, "__cilkcheck_libc_"))
    linkage = linkage.drop_front(strlen("__cilkcheck_libc_"));
  if (!begins_with(linkage, "_Z"))
    return linkage.str();
  ItaniumPartialDemangler demangler;
  std::string text = linkage.str();
  if (demangler.partialDemangle(text.c_str()))
    return text;
  size_t size = 0;
  char *name = demangler.isFunction() ? demangler.getFunctionBaseName(nullptr, &size) : nullptr;
  if (name)
    text = name;
  std::free(name);
  return text;
}

std::string function_name(const Function &function) {
  const Function *it = &function;
  for (unsigned steps = 0; steps < 8 && it->getName().contains(".omp"); steps++) {
    const Function *caller = nullptr;
    for (const User *user : it->users()) {
      while (isa<ConstantExpr>(user) && user->hasOneUse())
        user = *user->user_begin();
      if (auto *instruction = dyn_cast<Instruction>(user))
        caller = instruction->getFunction();
    }
    if (!caller || caller == it)
      break;
    it = caller;
  }
  auto *program = it->getSubprogram();
  return program && !program->getName().empty() ? program->getName().str() : unqualified(it->getName());
}

} // namespace cilkcheck
