// Names of functions.
#include "names.hpp"

#include <sys/stat.h>

#include <cstdlib>
#include <fstream>

#include "check.hpp"
#include "source.hpp"

TEST(names_of_cpp_are_demangled) {
  EXPECT(demangled("_ZN3one3twoIiEEvT_"), "void one::two<int>(int)");
  EXPECT(demangled("PlasmaImage"), "PlasmaImage");
  EXPECT(demangled("i"), "i");  // and no name of a type
  EXPECT(demangled("_Znonsense"), "_Znonsense");
}

TEST(arguments_of_templates_are_left_out) {
  EXPECT(short_name("main"), "main");
  EXPECT(short_name("void one::two<int>(int)"), "void one::two<..>(int)");
  EXPECT(short_name("a<b<c>, d<e> >::f<g>(h<i> const&)"), "a<..>::f<..>(h<..> const&)");
}

TEST(operators_with_angles_are_no_templates) {
  EXPECT(short_name("operator<<(int)"), "operator<<(int)");
  EXPECT(short_name("a<b>::operator-><c>() const"), "a<..>::operator-><c>() const");
  EXPECT(short_name("a::operator<=>(a const&)"), "a::operator<=>(a const&)");
  EXPECT(short_name("a<&(b::operator>(int))>::c"), "a<..>::c");
}

TEST(what_does_not_end_stays_as_it_is) { EXPECT(short_name("a<b"), "a<b"); }

TEST(lines_are_named_by_the_newest_of_llvm_or_else_by_binutils) {
  char folder[] = "/tmp/spanprof-resolver-XXXXXX";
  std::string in = mkdtemp(folder);
  auto put = [&](const std::string &name) {
    std::ofstream(in + "/" + name).close();
    chmod((in + "/" + name).c_str(), 0700);
  };
  EXPECT(resolver_in("/none:" + in), "addr2line");
  put("llvm-addr2line");
  EXPECT(resolver_in("/none:" + in), "llvm-addr2line");
  put("llvm-addr2line-16"), put("llvm-addr2line-19");
  EXPECT(resolver_in("/none:" + in), "llvm-addr2line-19");
  EXPECT(resolver_in(""), "addr2line");
  for (const char *name : {"llvm-addr2line", "llvm-addr2line-16", "llvm-addr2line-19", ""})
    std::remove((in + "/" + name).c_str());
}
