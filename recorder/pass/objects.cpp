// Global and static objects by name.
#include "pass.h"
#include "llvm/Demangle/Demangle.h"
#include "versions.h"

namespace cilkcheck {

// A library may be loaded where another object's symbol of this name comes first: there the row leads to the library's
// own by an alias.
static Constant *own_address(Module &module, GlobalVariable &object) {
  bool is_library = module.getPICLevel() != PICLevel::NotPIC && module.getPIELevel() == PIELevel::Default;
  if (!is_library || object.hasLocalLinkage() || !object.hasDefaultVisibility())
    return &object;
  if (!object.hasExternalLinkage() || object.hasComdat())
    return nullptr;
  return GlobalAlias::create(GlobalValue::PrivateLinkage, "cilkcheck.object", &object);
}

void tell_objects(Recording &recording) {
  std::vector<GlobalVariable *> objects;
  for (GlobalVariable &it : recording.module.globals())
    if (!it.isDeclaration() && !it.isConstant() && !it.isThreadLocal() && !it.hasAvailableExternallyLinkage() &&
        !it.hasAppendingLinkage() && !begins_with(it.getName(), "llvm.") &&
        !begins_with(it.getSection(), "cilkcheck_") && !it.getAddressSpace())
      objects.push_back(&it);
  for (GlobalVariable *object : objects) {
    Constant *address = own_address(recording.module, *object);
    if (!address)
      continue;
    SmallVector<DIGlobalVariableExpression *, 1> known;
    object->getDebugInfo(known);
    DIGlobalVariable *variable = known.empty() ? nullptr : known[0]->getVariable();
    SourceFile *source = variable ? recording.files.find(variable->getFile()) : nullptr;
    Row row = {Field::of_address(address),
               Field::of_wide(recording.layout.getTypeAllocSize(object->getValueType()).getFixedValue()),
               Field::of_text(variable ? variable->getName().str() : demangle(object->getName().str())),
               Field::of_text(source ? source->name : ""),
               Field::of_number(variable ? variable->getLine() : 0),
               Field::of_number(source && source->system ? CILKCHECK_SYSTEM : 0)};
    GlobalVariable *table = recording.rows.table("cilkcheck_objects", {row}, false);
    table->setComdat(object->getComdat());
    recording.rows.keep(table);
  }
}

void mark_recorded(Recording &recording) {
  Module &module = recording.module;
  const Types &types = recording.types;
  Constant *version = module.getOrInsertGlobal(CILKCHECK_VERSION_NAME, types.i8);
  auto *reference = new GlobalVariable(module, types.pointer, false, GlobalValue::PrivateLinkage,
                                       ConstantExpr::getPointerCast(version, types.pointer), "cilkcheck.version");
  reference->setSection("cilkcheck_version");
  recording.rows.keep(reference);
}

} // namespace cilkcheck
