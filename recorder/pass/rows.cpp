// Tables of rows.
#include "pass.h"
#include "llvm/ADT/SmallString.h"
#include "llvm/Support/MD5.h"
#include "llvm/Transforms/Utils/ModuleUtils.h"

namespace cilkcheck {

Types::Types(LLVMContext &context)
    : none(Type::getVoidTy(context)), i8(Type::getInt8Ty(context)), i32(Type::getInt32Ty(context)),
      i64(Type::getInt64Ty(context)), pointer(PointerType::getUnqual(i8)) {}

bool may_be_discarded(const Function &function) {
  return function.hasComdat() || function.hasLinkOnceLinkage() || function.hasWeakLinkage();
}

Constant *Rows::text(StringRef text) {
  Constant *&it = texts[text];
  if (!it) {
    auto *data = ConstantDataArray::getString(module.getContext(), text);
    auto *global =
        new GlobalVariable(module, data->getType(), true, GlobalValue::PrivateLinkage, data, "cilkcheck.text");
    global->setUnnamedAddr(GlobalValue::UnnamedAddr::Global); // so the linker merges equal ones
    global->setAlignment(Align(1));
    it = global;
  }
  return it;
}

static Type *type_of(const Field &field, const Types &types) {
  return field.kind == Field::Address || field.kind == Field::Wide ? types.i64 : types.i32;
}

Constant *Rows::field(const Field &field, Constant *at) {
  if (field.kind == Field::Number)
    return ConstantInt::get(types.i32, field.number);
  if (field.kind == Field::Wide)
    return ConstantInt::get(types.i64, field.number);
  Constant *target = field.kind == Field::Text ? (field.text.empty() ? nullptr : text(field.text)) : field.target;
  if (!target)
    return ConstantInt::get(types.i32, 0);
  Constant *difference =
      ConstantExpr::getSub(ConstantExpr::getPtrToInt(target, types.i64), ConstantExpr::getPtrToInt(at, types.i64));
  return field.kind == Field::Address ? difference : ConstantExpr::getTrunc(difference, types.i32);
}

// Two tables of one hash have equal contents: a reference to another table is a name that is a hash itself.
static std::string hash_of(StringRef section, const std::vector<Row> &rows) {
  MD5 hash;
  auto add = [&](StringRef part) {
    hash.update(std::to_string(part.size()) + ":");
    hash.update(part);
  };
  add(section);
  for (const Row &row : rows)
    for (const Field &field : row)
      add(field.kind == Field::Text ? field.text
          : field.target            ? field.target->getName().str()
                                    : std::to_string(field.number));
  MD5::MD5Result result;
  hash.final(result);
  return std::string(result.digest());
}

GlobalVariable *Rows::table(StringRef section, const std::vector<Row> &rows, bool named) {
  std::string name = named ? "__" + section.str() + "_" + hash_of(section, rows) : section.str();
  if (auto *known = named ? module.getNamedGlobal(name) : nullptr)
    return known;
  std::vector<Type *> fields;
  for (const Field &it : rows.front())
    fields.push_back(type_of(it, types));
  auto *row_type = StructType::get(module.getContext(), fields);
  auto *type = ArrayType::get(row_type, rows.size());
  auto *table = new GlobalVariable(module, type, true, GlobalValue::PrivateLinkage, nullptr, name);
  std::vector<Constant *> values;
  for (unsigned r = 0; r < rows.size(); r++) {
    std::vector<Constant *> row;
    for (unsigned f = 0; f < rows[r].size(); f++) {
      Constant *indices[] = {ConstantInt::get(types.i64, 0), ConstantInt::get(types.i64, r),
                             ConstantInt::get(types.i32, f)};
      row.push_back(field(rows[r][f], ConstantExpr::getInBoundsGetElementPtr(type, table, indices)));
    }
    values.push_back(ConstantStruct::get(row_type, row));
  }
  table->setInitializer(ConstantArray::get(type, values));
  table->setSection(section);
  table->setAlignment(Align(8));
  if (named) {
    table->setLinkage(GlobalValue::LinkOnceODRLinkage);
    table->setVisibility(GlobalValue::HiddenVisibility);
    table->setComdat(module.getOrInsertComdat(name));
  }
  return table;
}

void Rows::finish() {
  if (!kept.empty())
    appendToUsed(module, kept);
}

} // namespace cilkcheck
