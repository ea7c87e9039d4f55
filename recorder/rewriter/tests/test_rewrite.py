"""The rewriter by itself: a text in, the text out, or the line that refuses it. The expected texts are written by hand.

    python3 -m unittest discover -s recorder/rewriter/tests
"""
import re
import sys
import unittest
from pathlib import Path

sys.path.insert(0, str(Path(__file__).resolve().parent.parent.parent))
from rewriter import ELISION, Refused, rewrite  # noqa: E402
from rewriter.source import KEYWORDS  # noqa: E402

PRELUDE_END, START = '# 0 "t.c" 2\n', '# 0 "t.c"\n'


def out_of(text, cxx=False, **options):
    """The rewritten text without the prelude, its line marks and its spacing; made names are V1, V2, .. in order of appearance."""
    whole = rewrite('# 0 "t.c"\n# 1 "t.c"\n' + text, cxx, **options)
    body = whole.split(PRELUDE_END, 1)[-1].removeprefix(START)
    names = {}
    body = re.sub(r"cilkcheck_(\d+)_", lambda found: names.setdefault(found.group(1), f"V{len(names) + 1}"), body)
    body = re.sub(r'^# \d+ "t\.c".*\n', "", body, flags=re.M)
    return " ".join(body.split())


def rows_of(text, cxx=False):
    """(line, text) of the rewritten text, as a compiler counts."""
    line = 1
    for row in rewrite('# 0 "t.c"\n# 1 "t.c"\n' + text, cxx).split("\n"):
        mark = re.match(r'# (\d+) "([^"]*)"', row)
        if mark:
            line = int(mark.group(1))
            continue
        yield line, row
        line += 1


def lines_of(text, cxx=False):
    """{word: line} of the words w1, w2, .."""
    found = {}
    for line, row in rows_of(text, cxx):
        for word in re.findall(r"\bw\d+\b", row):
            found.setdefault(word, line)
    return found


class Plain(unittest.TestCase):
    def test_a_text_without_keywords_is_copied(self):
        text = '# 0 "t.c"\nint f(int n) { return n; }\n#pragma GCC ivdep\n'
        self.assertEqual(rewrite(text, False), text)

    def test_keywords_in_strings_and_comments_of_names_stay(self):
        self.assertEqual(out_of('const char *s = "_Cilk_spawn"; void g(void) { int my_Cilk_spawn; _Cilk_sync; }\n'),
                         'const char *s = "_Cilk_spawn"; void g(void) { int my_Cilk_spawn; __cilkcheck_mark_sync(); }')

    def test_lines_stay(self):
        text = "int f(int);\nvoid g(void) {\n  _Cilk_spawn f(\n    w1);\n  w2();\n  _Cilk_for (int i = 0; i < 3; i++)\n    w3();\n  w4();\n}\nint w5;\n"
        for cxx in (False, True):
            found = lines_of(text, cxx)
            self.assertEqual({word: found[word] for word in ("w1", "w2", "w3", "w4", "w5")}, {"w1": 4, "w2": 5, "w3": 7, "w4": 8, "w5": 10})

    def test_a_mark_in_the_middle_of_a_line_is_taken_out(self):
        text = 'void g(void) { f(\n# 1 "t.c" 3 4\n((void *)0)\n# 1 "t.c"\n); _Cilk_sync; }\nint w2;\n'
        self.assertEqual(out_of(text), "void g(void) { f( ((void *)0) ); __cilkcheck_mark_sync(); } int w2;")
        self.assertEqual(lines_of(text)["w2"], 2)

    def test_system_headers_are_copied(self):
        text = '# 1 "/usr/include/x.h" 1 3\nint h(void) { return _Cilk_sync; }\n# 2 "t.c" 2\nvoid g(void) { _Cilk_sync; }\n'
        self.assertEqual(out_of(text), '# 1 "/usr/include/x.h" 1 3 int h(void) { return _Cilk_sync; } void g(void) { __cilkcheck_mark_sync(); }')


def in_c(statement, context="void g(void) {{ {} }}"):
    """What becomes of a statement of C in a function, without the sync at its end."""
    before, after = context.split("{}")
    text = out_of(context.replace("{}", statement).replace("{{", "{").replace("}}", "}"))
    return text.removeprefix("void g(void) { ").removesuffix(" __cilkcheck_mark_sync(); }")


def in_cxx(statement):
    return out_of("void g() { " + statement + " }", True).removeprefix("void g() { ").removesuffix(" __cilkcheck_mark_sync(); }")


def spawned(name, form, place, statement, number=1, before=""):
    """The text of a spawn in C."""
    text = f'{{ __cilkcheck_mark_spawn({number}, "{name}", {form}, {place}); {statement} __cilkcheck_mark_spawned({number});}}'
    return f"{{{before} {text[1:].strip()}" if before else text


def spawned_cxx(name, form, place, statement, variable="V1"):
    return f'{{ __cilkcheck_spawn {variable}("{name}", {form}{", " + place if place else ""}); {statement} }}'


class SpawnsInC(unittest.TestCase):
    """The user's expression stays. `place` is what is assigned to."""

    def test_statements(self):
        for statement, name, form, place, text in [
                ("_Cilk_spawn f(1);", "f", 0, 0, "f(1);"),
                ("_Cilk_spawn f(a, h(f(2)));", "f", 0, 0, "f(a, h(f(2)));"),
                ("_Cilk_spawn p->f[2](1);", "operator()", 0, 0, "p->f[2](1);"),
                ("_Cilk_spawn (*p)(1);", "operator()", 0, 0, "(*p)(1);"),
                ("_Cilk_spawn (f)(1);", "f", 0, 0, "(f)(1);"),
                ("_Cilk_spawn s.f(1);", "f", 0, 0, "s.f(1);"),
                ("_Cilk_spawn f(1)(2);", "operator()", 0, 0, "f(1)(2);"),
                ("x = _Cilk_spawn f(1);", "f", 1, "&x", "x = f(1);"),
                ("x += _Cilk_spawn f(x);", "f", 1, "&x", "x += f(x);"),
                ("(x) = _Cilk_spawn f(x);", "f", 1, "&x", "(x) = f(x);"),
                ("s.a.bits = _Cilk_spawn f(1);", "f", 1, "&s", "s.a.bits = f(1);")]:
            with self.subTest(statement=statement):
                self.assertEqual(in_c(statement), spawned(name, form, place, text))

    def test_a_place_is_computed_before(self):
        for left, before, place, after in [
                ("*p", "&( *p)", "V1", "(*V1)"), ("a[i]", "&( a[i])", "V1", "(*V1)"), ("a[i].b.bits", "&( a[i])", "V1", "(*V1) .b.bits"),
                ("p->bits", "( p)", "V1", "V1 ->bits"), ("p->q->r.s", "( p->q)", "V1", "V1 ->r.s"), ("(*p).bits", "&( (*p))", "V1", "(*V1) .bits"),
                ("f(1)->x", "( f(1))", "V1", "V1 ->x"), ("*s.p", "&( *s.p)", "V1", "(*V1)"), ("*s->p++", "&( *s->p++)", "V1", "(*V1)"),
                ("*(T *)s.p", "&( *(T *)s.p)", "V1", "(*V1)"), ("((T *)s)->p", "( ((T *)s))", "V1", "V1 ->p"), ("__real__ s.z", "&( __real__ s.z)", "V1", "(*V1)")]:
            with self.subTest(left=left):
                self.assertEqual(in_c(f"{left} |= _Cilk_spawn f(1);"),
                                 f'{{__auto_type V1 = {before}; {{ __cilkcheck_mark_spawn(1, "f", 1, {place}); {after} |= f(1); __cilkcheck_mark_spawned(1);}}}}')

    def test_declarations(self):
        for left in ("const long x", "typeof(n) y", "int (*y)[3]", "struct s y", "T y", "T *y", "T const *y", "__auto_type y", "unsigned y", "int a = f(2), b",
                     "T (*y)[3]", "T (*y)(int)", "__attribute__((unused)) T y", "_Alignas(16) int y", "_Atomic(int) y"):
            with self.subTest(left=left):
                form = 3 if left.startswith("T (*") else 1
                self.assertEqual(in_c(f"{left} = _Cilk_spawn f(1);"),
                                 f'__cilkcheck_mark_spawn(1, "f", {form}, 0); {left} = f(1); __cilkcheck_mark_spawned(1);')

    def test_spawns_have_numbers(self):
        text = in_c("_Cilk_spawn f(1); _Cilk_spawn f(2);")
        self.assertEqual(text, spawned("f", 0, 0, "f(1);") + " " + spawned("f", 0, 0, "f(2);", 2))

    def test_what_is_no_call_is_a_block(self):
        for statement in ("a[0] = g(1);", "x++;", "f(1), g(2);", "(void)f(1);", "f(1) + 2;", "if (x) f(1);", "for (;;) f(1);", "*p = f(1);", ";", "while (x) ;"):
            with self.subTest(statement=statement):
                self.assertEqual(in_c(f"_Cilk_spawn {statement}"), f"{{ __cilkcheck_mark_outlined(); #pragma omp task default(shared) {statement} }}")

    def test_a_block(self):
        self.assertEqual(in_c("_Cilk_spawn { a = 1; }"), "{ __cilkcheck_mark_outlined(); #pragma omp task default(shared) { a = 1; } }")
        self.assertEqual(in_c("_Cilk_spawn { _Cilk_spawn f(1); }"), "{ __cilkcheck_mark_outlined(); #pragma omp task default(shared) { "
                         + spawned("f", 0, 0, "f(1);") + " __cilkcheck_mark_sync(); } }")

    def test_a_return_syncs(self):
        text = out_of("int g(void) { x = _Cilk_spawn f(1); return x; }")
        self.assertTrue(text.endswith("{ char V1 __attribute__((cleanup(__cilkcheck_mark_sync_left))); return x; } __cilkcheck_mark_sync(); }"), text)

    def test_as_a_part_of_a_statement(self):
        text = out_of("void g(int n) { if (n) _Cilk_spawn f(1); else y = _Cilk_spawn f(2); while (n) _Cilk_spawn f(3); }")
        self.assertRegex(text, r"if \(n\) \{\{ .*?\}\} else \{\{ .*?\}\} while \(n\) \{\{ .*?\}\}")

    def test_a_function_of_old(self):
        self.assertIn('__cilkcheck_mark_spawn(1, "f", 1, &x); x = f(a);', out_of("int g(a) int a; { int x; x = _Cilk_spawn f(a); return x; }"))

    def test_digraphs(self):
        self.assertEqual(out_of("void g(void) <% a<:1:> = 2; _Cilk_spawn f(1); %>"), "void g(void) { a[1] = 2; " + spawned("f", 0, 0, "f(1);") + " __cilkcheck_mark_sync(); }")


class SpawnsInCxx(unittest.TestCase):
    def test_statements(self):
        for statement, name, form, place, text in [
                ("_Cilk_spawn n::f<int>(x);", "f", 0, "", "n::f<int>(x);"),
                ("_Cilk_spawn ::f(x);", "f", 0, "", "::f(x);"),
                ("_Cilk_spawn f<std::map<int, long>>(x);", "f", 0, "", "f<std::map<int, long>>(x);"),
                ("_Cilk_spawn o->template m<3>(x);", "m", 0, "", "o->template m<3>(x);"),
                ("_Cilk_spawn this->m(x);", "m", 0, "", "this->m(x);"),
                ("_Cilk_spawn (p.*m)(1);", "operator()", 0, "", "(p.*m)(1);"),
                ("_Cilk_spawn T{1}(x);", "operator()", 0, "", "T{1}(x);"),
                ("_Cilk_spawn v[2](x);", "operator()", 0, "", "v[2](x);"),
                ("_Cilk_spawn a.operator+(b);", "operator+", 0, "", "a.operator+(b);"),
                ("_Cilk_spawn operator<<(a, b);", "operator<<", 0, "", "operator<<(a, b);"),
                ("_Cilk_spawn p->~T();", "~T", 0, "", "p->~T();"),
                ("_Cilk_spawn static_cast<T *>(p)->m();", "m", 0, "", "static_cast<T *>(p)->m();"),
                ("_Cilk_spawn [&](int k) { a = k; }(3);", "operator()", 0, "", "[&](int k) { a = k; }(3);"),
                ("_Cilk_spawn [&]<class T>(T k) -> int { a = k; }(3);", "operator()", 0, "", "[&]<class T>(T k) -> int { a = k; }(3);"),
                ("x = _Cilk_spawn f(1);", "f", 1, "x", "x = f(1);"),
                ("n::x.y = _Cilk_spawn f(1);", "f", 1, "n::x", "n::x.y = f(1);"),
                ("this->x = _Cilk_spawn f(1);", "f", 1, "", "this->x = f(1);")]:
            with self.subTest(statement=statement):
                self.assertEqual(in_cxx(statement), spawned_cxx(name, form, place, text))

    def test_a_place_is_computed_before(self):
        for left, before, after in [("a[i]", "( a[i])", "V1"), ("p->bits", "*( p)", "V1 . bits"), ("o.at(i).b", "( o.at(i))", "V1 .b"), ("at(i)", "( at(i))", "V1"),
                                    ("this->p->x", "*( this->p)", "V1 . x"), ("p->*m", "( p->*m)", "V1"), ("A<int>::x", "( A<int>::x)", "V1")]:
            with self.subTest(left=left):
                self.assertEqual(in_cxx(f"{left} = _Cilk_spawn f(1);"),
                                 f"{{auto &&V1 = {before}; " + spawned_cxx("f", 1, "V1, __cilkcheck_temporary<__decltype(V1)>::bytes", f"{after} = f(1);", "V2") + "}")

    def test_declarations(self):
        for left, form in [("auto y", 1), ("const T &y", 1), ("auto &&y", 1), ("std::map<int, long> y", 1), ("::n::T y", 1), ("auto [p, q]", 2), ("const auto &[p, q]", 2),
                           ("int a = f(2), b", 1), ("T<(a > b)> y", 1), ("decltype(auto) y", 1), ("[[maybe_unused]] T y", 1), ("T (&y)[3]", 3), ("typename T::x y", 1), ("int y[2]", 1)]:
            with self.subTest(left=left):
                self.assertEqual(in_cxx(f"{left} = _Cilk_spawn f(1);"), f'__cilkcheck_spawn V1("f", {form}); {left} = f(1); V1.left();')

    def test_a_block(self):
        self.assertEqual(in_cxx("_Cilk_spawn { a = 1; }"), spawned_cxx("operator()", 0, "", "[&]() mutable -> void { { a = 1; } }();"))
        self.assertEqual(in_cxx("_Cilk_spawn a[0] = g(1);"), spawned_cxx("operator()", 0, "", "[&]() mutable -> void { a[0] = g(1); }();"))
        self.assertEqual(in_cxx("_Cilk_spawn static_cast<void>(g(1));"), spawned_cxx("operator()", 0, "", "[&]() mutable -> void { static_cast<void>(g(1)); }();"))

    def test_in_a_lambda(self):
        self.assertEqual(out_of("void g() { auto h = [&](int k) { _Cilk_spawn f(k); }; }", True),
                         "void g() { auto h = [&](int k) { " + spawned_cxx("f", 0, "", "f(k);") + " __cilkcheck_mark_sync(); }; __cilkcheck_mark_sync(); }")

    def test_return_and_classes(self):
        text = out_of("namespace n { template <class T> struct A : B<T> { A() : b{1}, c(2) { _Cilk_spawn f(); } int m() const { int x = 0; x = _Cilk_spawn f(); return x; } }; }", True)
        self.assertIn("{ __cilkcheck_syncs V3; return x; } __cilkcheck_mark_sync(); } }; }", text)
        self.assertIn("A() : b{1}, c(2) { { __cilkcheck_spawn V1(", text)

    def test_a_namespace_with_a_class(self):
        text = out_of('extern "C" { struct s { int a; }; void h() { _Cilk_spawn f(); } } enum e { a }; int g() { _Cilk_sync; }', True)
        self.assertTrue(text.endswith("} } enum e { a }; int g() { __cilkcheck_mark_sync(); }"), text)

    def test_a_class_with_conditions(self):
        text = out_of("template <class T> requires C<T> struct alignas(8) A { void m() { _Cilk_sync; } }; int g() { _Cilk_sync; }", True)
        self.assertTrue(text.endswith("{ void m() { __cilkcheck_mark_sync(); } }; int g() { __cilkcheck_mark_sync(); }"), text)

    def test_try(self):
        self.assertIn("f(); } __cilkcheck_mark_sync(); } catch (...) { }", out_of("void g() { try { _Cilk_spawn f(); } catch (...) { } }", True))

    def test_if_constexpr(self):
        self.assertIn("if constexpr (a) {{ __cilkcheck_spawn", out_of("void g() { if constexpr (a) _Cilk_spawn f(); if consteval { h(); } else { _Cilk_spawn f(); } }", True))


class Loops(unittest.TestCase):
    def test_for_in_c(self):
        self.assertEqual(out_of("void g(void) { _Cilk_for (int i = 0; i < n; i += 2) { a[i] = i; } }"),
                         "void g(void) { { char V1 __attribute__((cleanup(__cilkcheck_mark_scope_left))); __cilkcheck_mark_scope_begin(); for (int i = 0; i < n; i += 2) "
                         "{ { __cilkcheck_mark_outlined(); #pragma omp task default(shared) firstprivate(i) { a[i] = i; } } } } }")

    def test_for_in_cxx(self):
        self.assertEqual(out_of("void g() { _Cilk_for (auto i = b; i != e; ++i) *i = 0; }", True),
                         "void g() { { __cilkcheck_scope V1; for (auto i = b; i != e; ++i) { " + spawned_cxx("operator()", 0, "", "[&, i]() mutable -> void { *i = 0; }();", "V2") + " } } }")

    def test_continue(self):
        self.assertIn("for (int V2 = 1; V2; V2 = 0) { if (i) continue; f(i); }", out_of("void g(void) { _Cilk_for (int i = 0; i < n; i++) { if (i) continue; f(i); } }"))

    def test_scope(self):
        self.assertEqual(out_of("void g() { _Cilk_scope { h(); } }", True), "void g() { { __cilkcheck_scope V1; { h(); __cilkcheck_mark_sync(); } } }")


class Columns(unittest.TestCase):
    def test_the_tokens_of_the_user_stay_where_they_are(self):
        text = "void w0(void) {\n  w1 = _Cilk_spawn w2(w3); w4();\n  if (w5) w6[w7] = _Cilk_spawn w8(); else w9();\n  _Cilk_for (int i = 0; i < 3; i++) w10();\n}\n"
        for cxx in (False, True):
            found = {}
            for number, row in rows_of(text, cxx):
                for word in re.finditer(r"\bw\d+\b", row):
                    found.setdefault(word.group(), []).append((number, word.start()))
            for number, row in enumerate(text.split("\n"), 1):
                shift = 0
                for word in re.finditer(r"\bw\d+\b|_Cilk_(?:spawn|for)", row):
                    if word.group()[0] == "_":
                        shift += 1                          # the user wrote one letter less
                    else:
                        self.assertIn((number, word.start() - shift if word.group() in ("w2", "w3", "w8") else word.start()), found[word.group()], (word.group(), cxx))


class Views(unittest.TestCase):
    def operations(self, text):
        view = "(*(__cilkcheck_mark_reducer((void *)&(%s), __cilkcheck_use, (void *)&(%s).v, 8), &(%s).v))"
        text = re.sub(r"VIEW\((\w)\)", lambda found: view % ((found.group(1),) * 3), text)
        return re.findall(r"&\(\w\), (\w+),", out_of(text))

    def test_each(self):
        for text, expected in [("VIEW(r) += 1;", "1"), ("VIEW(r)++;", "1"), ("++VIEW(r);", "1"), ("f(&VIEW(r));", "1"), ("VIEW(r).n = 2;", "1"), ("VIEW(r).n++;", "1"), ("x = VIEW(r).n;", "3"), ("VIEW(r).at[2] += 1;", "1"),
                               ("VIEW(r) = 5;", "2"), ("x = VIEW(r);", "3"), ("f(1, VIEW(r));", "3"), ("return VIEW(r);", "3"),
                               ("VIEW(r) = VIEW(r) * 2;", "11"), ("if (VIEW(r) < x) VIEW(r) = x;", "11"), ("if (VIEW(r) < x) { VIEW(r) = x; }", "11"),
                               ("VIEW(r) = VIEW(s);", "23"), ("VIEW(r) = 1; x = VIEW(r);", "23"), ("if (VIEW(r)) { VIEW(r) = 1; f(); }", "32")]:
            with self.subTest(text=text):
                self.assertEqual("".join(self.operations("void g(void) { " + text + " }")), expected)


class Refusals(unittest.TestCase):
    CASES = [                                               # (text, C++, line, a part of why)
        ("void g(void) {\n  h(_Cilk_spawn f(1)); }", False, 2, "stands where it may not"),
        ("int g(void) {\n  return _Cilk_spawn f(1); }", False, 2, "stands where it may not"),
        ("void g(void) {\n  for (int i = _Cilk_spawn f(1); i; i--) ; }", False, 2, "stands where it may not"),
        ("void g() {\n  T x{_Cilk_spawn f(1)}; }", True, 2, "stands where it may not"),
        ("void g() {\n  T x(_Cilk_spawn f(1)); }", True, 2, "stands where it may not"),
        ("struct A { int x; A() :\n x(_Cilk_spawn f(1)) { } };", True, 2, "stands where it may not"),
        ("void g(void) {\n\n  x = _Cilk_spawn 3; }", False, 3, "no call"),
        ("void g(void) { x = _Cilk_spawn f(1) + 1; }", False, 1, "no call"),
        ("void g(void) { x = _Cilk_spawn (long)f(1); }", False, 1, "no call"),
        ("void g() { x = _Cilk_spawn new T(1); }", True, 1, "no call"),
        ("void g() { x = _Cilk_spawn static_cast<long>(f(1)); }", True, 1, "no call"),
        ("void g(void) { x = y = _Cilk_spawn f(1); }", False, 1, "second ="),
        ("void g(void) { y, x = _Cilk_spawn f(1); }", False, 1, "behind a comma"),
        ("void g(void) { a ? x : (y) = _Cilk_spawn f(1); }", False, 1, "decide on"),
        ("void g(void) {\n int a = _Cilk_spawn f(1), b; }", False, 2, "a declarator behind"),
        ("void g(void) { static int a = _Cilk_spawn f(1); }", False, 1, "initialized once"),
        ("void g() { thread_local T a = _Cilk_spawn f(1); }", True, 1, "initialized once"),
        ("void g(void) { _Cilk_spawn int a = f(1); }", False, 1, "before a declaration"),
        ("void g() { auto [a, b] = _Cilk_spawn x.get(); }", True, 1, "a get whose result is taken apart"),
        ("void g(void) { _Cilk_spawn f(_Cilk_spawn f(1)); }", False, 1, "stands where it may not"),
        ("void g(void) { _Cilk_spawn _Cilk_spawn f(1); }", False, 1, "a cilk_spawn in a cilk_spawn"),
        ("void g(void) { _Cilk_spawn return; }", False, 1, "a return out of a spawned statement"),
        ("void g(void) { x = _Cilk_spawn { }; }", False, 1, "no value"),
        ("void g(void) { if (_Cilk_spawn f(1)) ; }", False, 1, "stands where it may not"),
        ("void g(void) {\n  _Cilk_for (int i = 0; i < n; i++) {\n    if (i) break; } }", False, 3, "a break out of a cilk_for"),
        ("void g(void) {\n  _Cilk_for (int i = 0; i < n; i++)\n    return; }", True, 3, "a return out of a cilk_for"),
        ("void g(void) { _Cilk_for (int i = 0; i < n; i++) { goto l; } l: ; }", False, 1, "a goto out of a cilk_for"),
        ("void g(void) { for (;;) _Cilk_spawn { continue; } }", True, 1, "a continue out of a spawned block"),
        ("void g(void) { _Cilk_for (int i = 0; i < n; i *= 2) ; }", False, 1, "the increment"),
        ("void g(void) { _Cilk_for (int i = 0; i < n && m; i++) ; }", False, 1, "the condition"),
        ("void g(void) { _Cilk_for (int i = 0, j = 1; i < n; i++) ; }", False, 1, "one variable"),
        ("void g() { _Cilk_for (auto x : v) ; }", True, 1, "an initialization, a condition"),
        ("void g(void) { _Cilk_for (int i = 0; j < n; i++) ; }", False, 1, "the condition"),
        ("void g(void) { _Cilk_sync + 1; }", False, 1, "cilk_sync stands alone"),
        ("int x = _Cilk_spawn f(1);", False, 1, "stands where it may not"),
        ("long _Cilk_reducer(zero, add) sum = 0;", False, 1, "cilk_reducer: a reducer of OpenCilk"),
        ("void g(void) {\n  long _Cilk_reducer(zero, add) sum = 0; }", False, 2, "cilk_reducer: a reducer of OpenCilk"),
        ("void g(long _Hyperobject *sum) {\n  *sum = 0; }", False, 1, "_Hyperobject: a reducer of OpenCilk"),
        ("struct s {\n  long _Cilk_reducer(zero, add) sum; };", True, 2, "cilk_reducer: a reducer of OpenCilk"),
        ("void g(void) { _Cilk_scope f(); }", False, 1, "without a block"),
        ("task g() {\n  _Cilk_spawn f(1);\n  int x = co_await h(); }", True, 3, "a coroutine"),
    ]

    def test_each(self):
        for text, cxx, line, why in self.CASES:
            with self.subTest(text=text):
                with self.assertRaises(Refused) as refused:
                    rewrite('# 0 "t.c"\n# 1 "t.c"\n' + text + "\n", cxx)
                self.assertEqual((refused.exception.file, refused.exception.line), ("t.c", line))
                self.assertIn(why, refused.exception.why)

    def test_openmp(self):
        for directive in ("parallel for", "for", "sections", "critical", "threadprivate(x)", "task depend(out: x)", "taskloop reduction(+: x)", "ordered",
                          "taskloop grainsize(strict: 4)", "taskloop num_tasks(strict: 4)"):
            with self.subTest(directive=directive), self.assertRaises(Refused) as refused:
                rewrite(f'# 0 "t.c"\n# 1 "t.c"\nvoid g(void) {{\n#pragma omp {directive}\n  h(); }}\n', False, openmp_on=True)
            self.assertEqual(refused.exception.line, 2)
        fine = '# 0 "t.c"\nvoid g(void) {\n#pragma omp task\n  h(); }\n'
        self.assertEqual(rewrite(fine, False, openmp_on=True), fine)
        self.assertEqual(rewrite(fine, False), '# 0 "t.c"\nvoid g(void) {\n\n  h(); }\n')

    def test_directives_as_attributes(self):
        for attribute in ("[[omp::directive(task)]]", "[[ omp :: directive(parallel) ]]", "[[using omp: sequence(directive(single), directive(task))]]"):
            text = f'# 0 "t.c"\n# 1 "t.c"\nvoid g() {{\n  {attribute} h(); }}\n'
            self.assertEqual(rewrite(text, True), text)
            with self.subTest(attribute=attribute), self.assertRaises(Refused) as refused:
                rewrite(text, True, openmp_on=True)
            self.assertEqual(refused.exception.line, 2)
        text = '# 0 "t.c"\nnamespace omp { int directive; } int g() { return omp::directive; }\n'
        self.assertEqual(rewrite(text, True), text)



class Malformed(unittest.TestCase):
    """clang says what is wrong with it: the rewriter only has to end, with a text or a refusal."""
    TEXTS = ["void g(void) { x = _Cilk_spawn f(1) }", "void g(void) { _Cilk_spawn f(1; }", "void g(void) { _Cilk_spawn", "_Cilk_spawn", "void g(void) { if _Cilk_spawn f(1); }",
             "void g(void) { while", "void g(void) { _Cilk_for", "void g(void) { _Cilk_for (", "void g(void) { do _Cilk_spawn f(); ", "void g() { try { _Cilk_spawn f(); } catch",
             "void g() { case 1 _Cilk_spawn f(); }", "void g() { [ _Cilk_spawn f(); }", "void g() { x = [] _Cilk_spawn f(); }", "void g() { a<b<c = _Cilk_spawn f<; }",
             "void g() { _Cilk_spawn operator", "void g() { x->_Cilk_spawn", "void g() { = _Cilk_spawn f(); }", "void g() { l: _Cilk_spawn", "template < _Cilk_spawn f(); }",
             "void g() { return _Cilk_spawn", "}}} _Cilk_spawn f(); {{{", "void g() { _Cilk_spawn ::; }", "void g() { _Cilk_spawn a.; }", "void g() { _Cilk_spawn ~f(); }",
             "void g() { T x = _Cilk_spawn f(), ; }", "void g() { _Cilk_scope", "void g() { _Cilk_sync", "void g() { goto", "void g() { default _Cilk_spawn f(); }",
             "#pragma omp\nvoid g() { _Cilk_spawn f(); }", "'_Cilk_spawn", '"_Cilk_spawn', "void g() { _Cilk_spawn f(); } /*"]

    def test_each(self):
        for text in self.TEXTS:
            for cxx in (False, True):
                for openmp_on in (False, True):
                    for end in ("", "\n"):
                        with self.subTest(text=text, cxx=cxx):
                            try:
                                rewrite('# 0 "t.c"\n# 1 "t.c"\n' + text + end, cxx, openmp_on)
                            except Refused:
                                pass

    def test_deep(self):
        for text in ("if (x) {" * 3000 + "_Cilk_spawn f();" + "}" * 3000, "if (x) a(); else " * 3000 + "_Cilk_spawn f();", "x = " + "(" * 3000 + "_Cilk_spawn f()" + ")" * 3000 + ";"):
            try:
                rewrite('# 0 "t.c"\n# 1 "t.c"\nvoid g(void) {' + text + "}\n", False)
            except Refused:
                pass


class Keywords(unittest.TestCase):
    def test_the_header_defines_them(self):
        header = (Path(__file__).resolve().parents[2] / "include/cilk/cilk.h").read_text()
        defined = dict(re.findall(r"#define (cilk_\w+) (_Cilk_\w+)$", header, re.M))
        self.assertEqual(defined, {it.name: word for word, it in KEYWORDS.items() if word.startswith("_Cilk")})
        elided = dict(re.findall(r"#define (cilk_\w+)(?:\(\.\.\.\))?(?: ([^_\n].*|))?$", header, re.M))
        self.assertEqual(elided, {it.name: it.elision for word, it in KEYWORDS.items() if word.startswith("_Cilk")})

    def test_the_options_of_the_elision(self):
        self.assertIn("-D_Cilk_sync=do {} while (0)", ELISION)
        self.assertEqual(len(ELISION), len(KEYWORDS))


if __name__ == "__main__":
    unittest.main()
