// Source files, by the debug information.
#include "pass.h"
#include "llvm/ADT/SmallString.h"
#include "llvm/Support/FileSystem.h"
#include "llvm/Support/Path.h"
#include "versions.h"
#include <cstdlib>

namespace cilkcheck {

static std::string normal(StringRef path) {
  SmallString<256> real;
  if (!sys::fs::real_path(path, real))
    return std::string(real);
  SmallString<256> absolute(path);
  sys::fs::make_absolute(absolute);
  sys::path::remove_dots(absolute, true);
  return std::string(absolute);
}

SourceFile::SourceFile(const DIFile &file, StringRef unit_directory, StringRef own_headers)
    : name(file.getFilename()), path(name) {
  // clang takes apart what a file's path and the working directory begin with
  if (!sys::path::is_absolute(path) && !file.getDirectory().empty()) {
    path = (file.getDirectory() + "/" + path).str();
    if (file.getDirectory() != unit_directory)
      name = path;
  }
  std::string where = normal(path);
  system = begins_with(where, "/usr/include/") || begins_with(where, "/usr/lib/") ||
           begins_with(path, "/usr/include/") || begins_with(path, "/usr/lib/") ||
           (!own_headers.empty() && begins_with(where, own_headers));
}

StringRef SourceFile::code(unsigned line) {
  if (!is_read) {
    is_read = true;
    // (to open a pipe may wait for ever)
    if (!sys::fs::is_regular_file(path))
      return {};
    if (auto read = MemoryBuffer::getFile(path)) {
      buffer = std::move(*read);
      StringRef rest = buffer->getBuffer();
      while (!rest.empty()) {
        auto [first, others] = rest.split('\n');
        lines.push_back(first.str());
        rest = others;
      }
      for (std::string &it : lines)
        for (char &c : it)
          c = c == '\t' || c == '\r' || c == '\0' ? ' ' : c;
      buffer.reset();
    }
  }
  return line && line <= lines.size() ? StringRef(lines[line - 1]).trim(' ') : StringRef();
}

SourceFiles::SourceFiles(Module &module) {
  for (DICompileUnit *unit : module.debug_compile_units())
    unit_directory = unit->getDirectory().str();
  if (const char *names = std::getenv("CILKCHECK_NAMES"))
    own_headers = normal((StringRef(names) + "/../include").str()) + "/";
}

SourceFile *SourceFiles::find(const DIFile *file) {
  if (!file)
    return nullptr;
  auto &it = files[file];
  if (!it)
    it = std::make_unique<SourceFile>(*file, unit_directory, own_headers);
  return it.get();
}

} // namespace cilkcheck
