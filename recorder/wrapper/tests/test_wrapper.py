"""The wrapper's parts by themselves. The expected values are written by hand.

    python3 -m unittest discover -s recorder/wrapper/tests
"""
import os
import sys
import tempfile
import unittest
from pathlib import Path

sys.path.insert(0, str(Path(__file__).resolve().parent.parent.parent))
from wrapper import names, objects  # noqa: E402
from wrapper.command_line import Fault, Input, expand, parse, tokens  # noqa: E402
from wrapper.compiler import VERSION, Compiler  # noqa: E402
from wrapper.driver import passed_on, target_of  # noqa: E402
from wrapper.objects import Member  # noqa: E402
from wrapper.processes import Failed, Output, Session  # noqa: E402
from wrapper.sources import Source  # noqa: E402


class CommandLine(unittest.TestCase):
    def test_compile(self):
        commands = parse(
            ["-c", "-O2", "-Wall", "-I", "inc", "-DX=1", "-MMD", "-MFdeps/a.d", "a.c", "-o", "out/a.o", "-std=c11"]
        )
        self.assertEqual((commands.mode, commands.output, commands.files()), ("-c", "out/a.o", [Input("a.c", "c")]))
        self.assertEqual(commands.for_preprocessing(), ["-O2", "-I", "inc", "-DX=1", "-std=c11"])
        self.assertEqual(
            commands.for_syntax(),
            ["-O2", "-Wall", "-I", "inc", "-DX=1", "-MMD", "-MFdeps/a.d", "-std=c11", "-o", "out/a.o"],
        )
        self.assertEqual(commands.for_compiling(), ["-O2", "-std=c11"])

    def test_warnings(self):
        commands = parse(["-Wall", "-Wno-error=int-conversion", "-Werror", "-pedantic-errors", "-w", "-c", "a.c"])
        self.assertEqual(commands.for_compiling(), ["-Wno-error=int-conversion"])
        self.assertEqual(
            commands.for_syntax(), ["-Wall", "-Wno-error=int-conversion", "-Werror", "-pedantic-errors", "-w"]
        )

    def test_link_keeps_the_order(self):
        commands = parse(["a.o", "b.c", "-Lx", "-lfoo", "c.a", "-Wl,-rpath,y", "-pthread", "-l", "bar"])
        self.assertEqual(
            commands.inputs,
            [Input("a.o"), Input("b.c", "c"), ["-lfoo"], Input("c.a"), ["-Wl,-rpath,y"], ["-l", "bar"]],
        )
        self.assertEqual(commands.for_linking(), ["-Lx", "-pthread"])

    def test_languages(self):
        commands = parse(["a.C", "b.cc", "-x", "c", "d.inc", "-xnone", "e.cpp", "f.i", "g.s", "h.hpp", "i.S", "j.o"])
        told = ["c++", "c++", "c", "c++", "cpp-output", "assembler", "c++-header", "assembler-with-cpp", None]
        self.assertEqual([it.language for it in commands.files()], told)
        self.assertEqual([it.given for it in commands.files()], [False, False, True] + [False] * 6)
        self.assertEqual([it.language for it in parse(["a.c", "-x", "c", "b.c"], cxx=True).files()], ["c++", "c"])

    def test_of_compilers_of_cilk(self):
        words = ["-fopencilk", "-fsanitize=cilk", "-fcilktool=cilkscale", "-ftapir=serial", "-fcilkplus", "-fdetach"]
        words += ["--opencilk-resource-dir=/x", "-lcilkrts", "-lopencilk", "-fno-opencilk"]
        for mode in ("-c", "-E", "-M", "-MM", "-S", "-fsyntax-only"):
            with self.subTest(mode=mode):
                self.assertNotIn("cilk", " ".join(passed_on(parse([*words, mode, "a.c"]))))

    def test_other_tools(self):
        commands = parse(
            ["-fsanitize=address", "-flto=thin", "-pg", "-fprofile-arcs", "--coverage", "-flegacy-pass-manager", "a.c"]
        )
        self.assertEqual((commands.options, commands.inputs), ([], [Input("a.c", "c")]))

    def test_openmp(self):
        self.assertTrue(parse(["-fopenmp", "a.c"]).openmp)
        self.assertTrue(parse(["-fopenmp=libomp", "a.c"]).openmp)
        self.assertFalse(parse(["-fopenmp", "-fno-openmp", "a.c"]).openmp)
        self.assertFalse(parse(["a.c"]).openmp)

    def test_level(self):
        self.assertEqual(parse(["-O2", "a.c"]).for_compiling(), ["-O2"])
        self.assertEqual(parse(["a.c"]).for_compiling(), [])

    def test_modes(self):
        for words, mode in (
            ("", "link"), ("-MMD", "link"), ("-c", "-c"), ("-S -c", "-S"), ("-c -E", "preprocess"),
            ("-M", "preprocess"), ("-MM", "preprocess"), ("--preprocess", "preprocess"), ("-fsyntax-only -c", "syntax"),
            ("--analyze", "syntax"), ("-dumpmachine", "clang"), ("-print-search-dirs", "clang"), ("-### -c", "clang"),
        ):
            with self.subTest(words=words):
                self.assertEqual(parse([*words.split(), "a.c"]).mode, mode)

    def test_refused(self):
        self.assertTrue(parse(["-shared", "a.o"]).shared)
        self.assertIn("64 bits", parse(["-m32", "a.c"]).refused)
        with self.assertRaisesRegex(Fault, "unknown option --cilkcheck-keep-O"):
            parse(["--cilkcheck-keep-O", "a.c"])
        with self.assertRaisesRegex(Fault, "argument to '-o' is missing"):
            parse(["a.c", "-o"])

    def test_values(self):
        words = ["-Xclang", "-o", "-mllvm", "-c", "-include", "x.c", "-isystem", "y.c", "-target", "z", "-u", "main"]
        commands = parse([*words, "a.c"])
        self.assertEqual((commands.mode, commands.output, commands.files()), ("link", None, [Input("a.c", "c")]))

    def test_long_names(self):
        commands = parse(["--compile", "--output=x.o", "--define-macro", "Y", "--language=c", "a.inc"])
        self.assertEqual((commands.mode, commands.output, commands.files()), ("-c", "x.o", [Input("a.inc", "c", True)]))
        self.assertEqual(commands.for_preprocessing(), ["-D", "Y"])

    def test_files_behind_dashes(self):
        commands = parse(["-c", "--", "-a.c", "-O2.c"])
        self.assertEqual(
            [(it.name, it.path, it.language) for it in commands.files()],
            [("-a.c", "./-a.c", "c"), ("-O2.c", "./-O2.c", "c")],
        )
        self.assertEqual(parse(["-x", "c", "-"]).files()[0].path, "-")

    def test_precompiled_headers_are_not_compiled_again(self):
        commands = parse(
            [
                "-c",
                "-Xclang",
                "-include-pch",
                "-Xclang",
                "a.pch",
                "-Xclang",
                "-vectorize-loops",
                "-include-pch",
                "b.pch",
                "a.c",
            ]
        )
        self.assertEqual(commands.for_compiling(), ["-Xclang", "-vectorize-loops"])
        self.assertIn("a.pch", commands.for_preprocessing())

    def test_what_clang_is_given(self):
        commands = parse(["-E", "-x", "c", "a.inc", "-x", "none", "b.c", "-o", "out", "-DX"])
        self.assertEqual(passed_on(commands), ["-E", "-DX", "-o", "out", "-x", "c", "a.inc", "-x", "none", "b.c"])

    def test_names_of_outputs(self):
        for words, name in (
            ("-c x/a.c", "a.o"), ("-S a.cc", "a.s"), ("-c -emit-llvm a.c", "a.bc"), ("-S -emit-llvm a.c", "a.ll"),
            ("-c -o y/b.o a.c", "y/b.o"), ("-c -x c -", "-.o"),
        ):
            with self.subTest(words=words):
                commands = parse(words.split())
                self.assertEqual(target_of(commands, commands.files()[0]), name)


class ResponseFiles(unittest.TestCase):
    def test_tokens(self):
        for text, words in (
            ("a b\nc\t d", ["a", "b", "c", "d"]), ('"a b" c', ["a b", "c"]), ("'a \"b' c", ['a "b', "c"]),
            (r"a\ b \"c", ["a b", '"c']), ('-DX="1 2"', ["-DX=1 2"]), (r'"a\"b"', ['a"b']), ("", []),
        ):
            with self.subTest(text=text):
                self.assertEqual(tokens(text), words)

    def test_nested(self):
        with tempfile.TemporaryDirectory() as room:
            Path(room, "inner").write_text("-O2 'a b.c'")
            Path(room, "outer").write_text(f"-c @{room}/inner")
            Path(room, "self").write_text(f"-c @{room}/other")
            Path(room, "other").write_text(f"@{room}/self")
            self.assertEqual(expand([f"@{room}/outer", "@nothing", "x"]), ["-c", "-O2", "a b.c", "@nothing", "x"])
            with self.assertRaisesRegex(Fault, "names itself"):
                expand([f"@{room}/self"])


class Names(unittest.TestCase):
    CASES = [                                               # (as c++filt prints it, as it is told)
        ("fib", "fib"),
        ("void part<int*, std::less<int> >(int*, int*)", "part"),
        ("Tree::total() const", "Tree::total"),
        ("std::vector<int, std::allocator<int> >::vector(int)", "std::vector::vector"),
        ("Tree::~Tree()", "Tree::~Tree"),
        ("std::function<void (int)>::operator()(int) const", "std::function::operator()"),
        ("main::{lambda(int)#1}::operator()(int) const", "main"),
        ("A::operator int() const", "A::operator int"),
        ("B<int>::operator<<(int)", "B::operator<<"),
        ("(anonymous namespace)::f(int)", "f"),
        ("int const& std::max<int>(int const&, int const&)", "std::max"),
    ]

    def test_each(self):
        for plain, told in self.CASES:
            with self.subTest(plain=plain):
                self.assertEqual(names.short(plain), told)


def member(file, defined="", undefined="", weak="", data="", in_archive=False, is_recorded=False):
    kinds = {
        **dict.fromkeys(defined.split(), (False, True)),
        **dict.fromkeys(weak.split(), (True, True)),
        **dict.fromkeys(data.split(), (False, False)),
    }
    return Member(file, in_archive, "__cilkcheck_version_1" if is_recorded else None, kinds, set(undefined.split()))


def program():
    return [
        member(
            "main.o",
            "main",
            "__cilkcheck_libc_getline __cilkcheck_libc_strlen compress counter data helper sqrt",
            "inlined",
            is_recorded=True,
        ),
        member("plain.o", "getline", "unknown", "inlined", "counter"),
        member("lib.a", "helper", "deeper", in_archive=True, is_recorded=True),
        member("lib.a", "other", "nothing", in_archive=True, is_recorded=True),
        member("lib.a", "deeper", in_archive=True),
        member("table.o", data="data"),
    ]


class Objects(unittest.TestCase):
    def setUp(self):
        self.program = objects.linked(program(), {"main"})

    def test_what_the_linker_takes(self):
        found = [(it.file, min(it.defined)) for it in self.program]
        archived = [("lib.a", "helper"), ("lib.a", "deeper")]
        self.assertEqual(found, [("main.o", "inlined"), ("plain.o", "counter"), *archived, ("table.o", "data")])

    def test_not_seen(self):
        seen = objects.look(self.program, set())
        self.assertEqual((seen.unseen, seen.own), (["compress", "deeper", "getline"], ["getline"]))

    def test_partial_link(self):
        self.assertEqual(objects.look(self.program, set(), is_partial=True).unseen, ["deeper", "getline"])

    def test_the_first_definition_counts(self):
        one, other = member("main.o", weak="f", is_recorded=True), member("later.o", undefined="f", is_recorded=True)
        self.assertEqual(objects.look([member("plain.o", weak="f"), one, other], set()).unseen, ["f"])
        self.assertEqual(objects.look([one, member("plain.o", weak="f"), other], set()).unseen, [])
        self.assertEqual(
            objects.look([member("plain.o", weak="f"), member("main.o", "f", is_recorded=True), other], set()).unseen,
            [],
        )

    def test_the_runtime_is_seen(self):
        self.assertEqual(objects.look(self.program, {"compress"}).unseen, ["deeper", "getline"])

    def test_told(self):
        def demangle(mangled):
            return {it: {"_Z1fi": "f(int)", "_ZTV1V": "vtable for V"}.get(it, it) for it in mangled}
        self.assertEqual(objects.told(["_Z1fi", "_ZTV1V", "g"], demangle), "f, g, virtual functions of V")
        self.assertEqual(objects.told([f"f{it:02}" for it in range(14)], demangle)[-19:], "f11, .. (14 in all)")

    def test_versions(self):
        members = [
            Member("a.o", version="__cilkcheck_version_1"),
            Member("x/b.o", version="__cilkcheck_version_7"),
            Member("c.o"),
        ]
        self.assertEqual(objects.other_versions(members, {"main", "__cilkcheck_version_1"}), ["b.o"])

    def test_lists(self):
        harmless, redirected = objects.listed("harmless"), objects.listed("redirected")
        for name in (
            "setjmp",
            "_setjmp",
            "getcontext",
            "pthread_mutex_init",
            "mbsinit",
            "msync",
            "mtx_init",
            "pthread_spin_unlock",
            "__udivmodti4",
        ):
            self.assertNotIn(name, harmless)
        self.assertIn("sqrt", harmless)
        self.assertIn("strlen", redirected)
        self.assertFalse(harmless & redirected)


class Compilers(unittest.TestCase):
    def test_versions(self):
        for text, version in (
            ("Debian clang version 14.0.6", "14.0.6"),
            ("clang version 19.1.7 (https://x)", "19.1.7"),
            ("Ubuntu clang version 18.1.3 (1)", "18.1.3"),
        ):
            self.assertEqual(VERSION.search(text)[0].rpartition(" ")[2], version)
        self.assertIsNone(VERSION.search("gcc (Debian 12.2.0-14) 12.2.0"))

    def test_supported(self):
        for version in ("14.0.6", "19.1.7"):
            self.assertEqual(Compiler("clang", "/x/clang", version, "t").supported().version, version)
        for version in ("13.0.1", "20.1.0"):
            with self.assertRaises(Failed) as failed:
                Compiler("clang-x", "/x/clang", version, "t").supported()
            self.assertEqual(failed.exception.status, 70)
            self.assertIn(f"clang-x is clang {version}: programs are recorded by clang 14 to 19", failed.exception.text)


class Outputs(unittest.TestCase):
    def test_renamed_when_whole(self):
        with tempfile.TemporaryDirectory() as room, Session() as session:
            output = Output(session, f"{room}/program")
            Path(output.made).write_text("whole")
            self.assertEqual((os.path.dirname(output.made), os.path.exists(f"{room}/program")), (room, False))
            output.done()
            self.assertEqual(os.listdir(room), ["program"])

    def test_removed_where_it_is_not(self):
        with tempfile.TemporaryDirectory() as room:
            with self.assertRaises(Failed), Session() as session:
                Path(Output(session, f"{room}/program").made).write_text("half")
                raise Failed(1)
            self.assertEqual(os.listdir(room), [])

    def test_a_device_stays(self):
        with tempfile.TemporaryDirectory() as room:
            os.mkfifo(f"{room}/pipe")
            with Session() as session:
                self.assertTrue(Output(session, f"{room}/pipe").in_place)
                self.assertTrue(Output(session, "/dev/null").in_place)
                self.assertTrue(Output(session, "-").in_place)
            self.assertEqual(os.listdir(room), ["pipe"])

    def test_no_folder(self):
        with Session() as session, self.assertRaises(Failed) as failed:
            Output(session, "/nowhere/at/all/x.o")
        self.assertEqual(
            failed.exception.text, "unable to open output file '/nowhere/at/all/x.o': No such file or directory"
        )


class Messages(unittest.TestCase):
    def told(self, said, status):
        source = Source.__new__(Source)
        source.source = Input("a.c", "c")
        failed = source.unrecorded(said, status)
        return failed.status, failed.text

    def test_errors_of_the_rewritten_text(self):
        for said, told in (
            ("a.c:7:3: error: expected expression\n1 error generated.\n", (70, "refused: a.c:7: expected expression")),
            ("./-a.c:7: error: why\n", (70, "refused: -a.c:7: why")),
            (
                "a.c:7:3: error: use of undeclared identifier 'cilkcheck_3_s'\n",
                (70, "refused: a.c:7: this statement cannot be recorded"),
            ),
            (
                "error: unable to open output file 'x': 'No space left on device'\n",
                (1, "unable to open output file 'x': 'No space left on device'"),
            ),
            ("Stack dump:\n0. crash\n", (70, "refused: a.c: clang fails with the pass: Stack dump:")),
            ("a.c:9: error: two calls in .omp\n", (70, "refused: a.c:9: two calls in .omp")),
        ):
            with self.subTest(said=said):
                self.assertEqual(self.told(said, 70 if "omp" in said else 1), told)


if __name__ == "__main__":
    unittest.main()
