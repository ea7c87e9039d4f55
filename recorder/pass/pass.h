// What the parts of the pass share. plugin.cpp says in which order they run.
#ifndef CILKCHECK_PASS_H
#define CILKCHECK_PASS_H
#include "llvm/ADT/DenseMap.h"
#include "llvm/ADT/SmallVector.h"
#include "llvm/ADT/StringMap.h"
#include "llvm/IR/DataLayout.h"
#include "llvm/IR/DebugInfoMetadata.h"
#include "llvm/IR/Function.h"
#include "llvm/IR/IRBuilder.h"
#include "llvm/IR/Instructions.h"
#include "llvm/IR/IntrinsicInst.h"
#include "llvm/IR/Module.h"
#include "llvm/IR/PassManager.h"
#include "llvm/Support/MemoryBuffer.h"
#include <map>
#include <memory>
#include <set>
#include <string>
#include <tuple>
#include <vector>
#include "rows.h"

namespace cilkcheck {

using namespace llvm;

struct Types {
  explicit Types(LLVMContext &context);
  Type *none;
  IntegerType *i8, *i32, *i64;
  PointerType *pointer; // i8 *: up to 14, pointers have types
};

// ---- rows.cpp ----

// A field of a row: a reference to a text or to another global, or a number.
struct Field {
  enum Kind { Text, Reference, Address, Number, Wide } kind;
  std::string text;
  Constant *target = nullptr;
  uint64_t number = 0;

  static Field of_text(StringRef text) { return {Text, text.str(), nullptr, 0}; }
  static Field of_reference(Constant *target) { return {Reference, "", target, 0}; }
  static Field of_address(Constant *target) { return {Address, "", target, 0}; }
  static Field of_number(uint64_t number) { return {Number, "", nullptr, number}; }
  static Field of_wide(uint64_t number) { return {Wide, "", nullptr, number}; }
};
using Row = std::vector<Field>;

class Rows {
public:
  Rows(Module &module, const Types &types) : module(module), types(types) {}
  // A table in `section`. A named one is called by the hash of its contents and may be merged with its like of other
  // objects.
  GlobalVariable *table(StringRef section, const std::vector<Row> &rows, bool named);
  // Keeps a table that nothing refers to.
  void keep(GlobalVariable *table) { kept.push_back(table); }
  void finish();

private:
  Constant *text(StringRef text);
  Constant *field(const Field &field, Constant *at);
  Module &module;
  const Types &types;
  StringMap<Constant *> texts;
  std::vector<GlobalValue *> kept;
};

// Whether the linker may discard the function, or take another object's in its place.
bool may_be_discarded(const Function &function);

// ---- files.cpp ----

// A source file: how it is called, and its lines as they stand on the disk.
class SourceFile {
public:
  SourceFile(const DIFile &file, StringRef unit_directory, StringRef own_headers);
  std::string name;
  bool system = false;
  StringRef code(unsigned line);

private:
  std::string path;
  bool is_read = false;
  std::unique_ptr<MemoryBuffer> buffer;
  std::vector<std::string> lines;
};

class SourceFiles {
public:
  explicit SourceFiles(Module &module);
  SourceFile *find(const DIFile *file);

private:
  std::string unit_directory, own_headers;
  DenseMap<const DIFile *, std::unique_ptr<SourceFile>> files;
};

// ---- the module's state ----

// What runs in place of an access.
struct Hooks {
  Hooks(Module &module, const Types &types);
  FunctionCallee reads[5], writes[5], access, enter, leave, dynamic;
  Constant *place;
  // Whether the call tells an access.
  bool tells(const Value *call) const;

private:
  std::set<const Value *> telling;
};

struct Recording {
  explicit Recording(Module &module);
  Module &module;
  const DataLayout &layout;
  Types types;
  Rows rows;
  SourceFiles files;
  Hooks hooks;
  std::set<const Function *> plain; // told nothing, by their own wish or because they run before the program
  std::set<const Function *> coroutines;

  void note(const Function *of, StringRef file, unsigned line, StringRef what);
  void note(const Instruction &of, StringRef what);

private:
  std::set<std::tuple<std::string, unsigned, std::string>> noted;
};

// ---- prepare.cpp ----

// What is false once accesses are told: attributes that say what a function does to memory, and bodies that only the
// inliner sees.
void forget_promises(Recording &recording);
// Calls of libc's functions go to the runtime's wrappers. False: the list could not be read, and clang has been told.
bool redirect_library(Recording &recording);
// Puts functions that have no place in the source into their callers.
void inline_placeless(Recording &recording);
// The functions that are told, in order; fills `plain` and `coroutines`.
std::vector<Function *> told_functions(Recording &recording);

// ---- names.cpp ----

// The names of what a function accesses, by the debug information that stands there before SROA.
class Names {
public:
  explicit Names(Function &function);
  // Of what lies at `pointer`, BYTES of it, as one value or as a block; empty: not known.
  std::string access(Value *pointer, uint64_t bytes, bool one_value = false) const;
  // The variable that lies in this memory.
  DILocalVariable *variable(const Value *memory) const;

private:
  struct Lvalue {
    std::string text;
    DIType *type = nullptr;
    bool pointee = false; // the text is the pointer's
    explicit operator bool() const { return !text.empty(); }
  };
  static std::string show(const Lvalue &it);
  static Lvalue index(const Lvalue &of, DIType *element);
  static Lvalue member(const Lvalue &of, const DIDerivedType &which);
  static Lvalue walk(Lvalue from, int64_t offset, uint64_t bytes, bool one_value = false);
  Lvalue lvalue(Value *pointer, unsigned depth) const;
  Lvalue element(Lvalue base, const GEPOperator &address) const;

  const DataLayout &layout;
  DenseMap<const Value *, std::pair<DILocalVariable *, bool>> variables; // with: it holds the variable's address
};

// The unqualified name in the source; of a part that clang took out for OpenMP, its function's.
std::string function_name(const Function &function);

// ---- sites.cpp ----

// The sites of one function.
class Sites {
public:
  Sites(Recording &recording, Function &function);
  Sites(const Sites &) = delete;
  Constant *of(const Instruction &instruction, StringRef name);
  Constant *at(const DIFile *file, unsigned line, unsigned column, StringRef name);
  // Writes the table, to which the constants above lead from then on.
  void finish();

private:
  Recording &recording;
  Function &function;
  std::string function_text;
  std::vector<Row> rows;
  std::map<std::tuple<const SourceFile *, unsigned, unsigned, std::string>, unsigned> numbers;
  GlobalVariable *stand_in = nullptr;
};

// Where an instruction stands: its file and line, else its function's.
struct Position {
  const DIFile *file = nullptr;
  unsigned line = 0, column = 0;
};
Position position_of(const Instruction &instruction);
// The site of each call, for marks as an argument and for all others in `__cilkcheck_place`.
void tell_calls(Recording &recording, Function &function, Sites &sites);

// ---- escapes.cpp ----

// The object whose part the pointer is.
const Value *base_of(const Value *pointer);
// Whether memory of the running function may be known to others. A use that is not understood is an escape.
bool escapes(const Value &memory, const Hooks &hooks);
// Whether no other strand can write there, or could read what is written there.
class Privacy {
public:
  explicit Privacy(const Hooks &hooks) : hooks(hooks) {}
  bool is_private(const Value *pointer);

private:
  const Hooks &hooks;
  DenseMap<const Value *, bool> escaping;
};

// ---- accesses.cpp, intrinsics.cpp ----

class Teller {
public:
  Teller(Recording &recording, Function &function, Sites &sites, const Names &names);
  void tell_all();

private:
  void tell(Instruction &access, Value *pointer, Value *bytes, int kind, Instruction *before = nullptr);
  void tell(Instruction &access, Value *pointer, uint64_t bytes, int kind, Instruction *before = nullptr);
  void tell(Instruction &access, Value *pointer, Type *type, int kind, Instruction *before = nullptr);
  void tell_exchange(AtomicCmpXchgInst &exchange);
  void tell_call(CallBase &call);
  void tell_assembly(CallBase &call);
  bool tell_atomic_library(CallBase &call);
  void tell_intrinsic(IntrinsicInst &call);
  bool tell_x86(IntrinsicInst &call, StringRef name);
  void tell_lanes(IntrinsicInst &call, Value *pointer, Type *vector, Value *mask, int kind);
  void tell_indexed(IntrinsicInst &call, Value *base, Value *indices, Value *scale, Value *mask, Type *vector,
                    int kind);
  void tell_packed(IntrinsicInst &call, Value *pointer, Type *vector, Value *mask, int kind);
  Value *lane_bit(IRBuilder<> &builder, Value *mask, unsigned lane);
  bool touches_shared(const IntrinsicInst &call);
  void emit(IRBuilder<> &builder, Value *pointer, Value *bytes, int kind, Constant *site);
  void emit(IRBuilder<> &builder, Value *pointer, Value *bytes, Value *kind, Constant *site);

  Recording &recording;
  Function &function;
  Sites &sites;
  const Names &names;
  Privacy privacy;
};

// ---- promote.cpp ----

// SROA; then takes away what is told of memory that has become private, and what one strand tells twice.
void promote(Recording &recording, Function &function, FunctionAnalysisManager &analyses);

// ---- frames.cpp ----

// Arguments in memory become locals, so that no life of theirs ends with another call's.
void copy_arguments(Recording &recording, Function &function);
void hook_frame(Recording &recording, Function &function, Sites &sites, const Names &names);

// ---- objects.cpp ----

void tell_objects(Recording &recording);
// The reference to the runtime's version.
void mark_recorded(Recording &recording);

} // namespace cilkcheck
#endif
