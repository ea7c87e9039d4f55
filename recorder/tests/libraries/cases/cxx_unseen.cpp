// expect: clean; unseen: std::use_facet; plain: no; a function of libstdc++ that is in no list
#include <locale>
int main() {
  const auto &kind = std::use_facet<std::ctype<char>>(std::locale::classic());
  return kind.is(std::ctype_base::digit, '7') - 1;
}
