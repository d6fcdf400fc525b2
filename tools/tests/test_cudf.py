"""CUDF: documents worked out by hand as lines, solutions and failures over a program with given answers, every bad input."""
import os
import stat
from unittest import mock

from tools import texts
from tools.cudf_text import Atom, read_atom, read_formula, read_properties, read_provided
from tools.tests.base import FolderCase, run
from tools.words import Bad

PREAMBLE = 'preamble: \nproperty: size: int = [-1], note: string = ["a, \\"]\\""], recommends: vpkgformula = [true!], must: nat\n\n'


def stanza(name, version, *fields):
    """A package."""
    return "\n".join([f"package: {name}", f"version: {version}", *fields]) + "\n\n"


def single(name, *versions):
    """Versions of a package, which conflict with each other."""
    return "".join(stanza(name, version, f"conflicts: {name}") for version in versions)


class Values(FolderCase):
    def test_atoms_and_formulas(self):
        self.assertEqual(read_atom(" lib%3aamd64>=3 "), Atom("lib%3aamd64", ">=", 3))
        self.assertEqual(read_formula("a | b != 2, +7 <\t+04"), ((Atom("a"), Atom("b", "!=", 2)), (Atom("7", "<", 4),)))
        self.assertEqual((read_formula(" true! "), read_formula("false!")), ((), ((),)))
        for sign, wanted in (("=", "2"), ("!=", "13"), (">", "3"), (">=", "23"), ("<", "1"), ("<=", "12")):
            self.assertEqual("".join(each for each in "123" if read_atom(f"a {sign} 2").holds(int(each))), wanted)
        self.assertTrue(read_atom("a > 9").holds(None))
        for text in ("", "a b", "a_b", "a >= b", "a == 2", "a >= -1", "a |", "é", "true!, a", "a:amd64"):
            with self.assertRaises(Bad, msg=text):
                read_formula(text)
        with self.assertRaises(Bad):
            read_provided("a >= 2")

    def test_properties(self):
        found = read_properties('size: int = [-1], note: string = ["a, \\"]\\""], kind: enum[x, y] = [x], must: nat, list: vpkglist = []')
        self.assertEqual({name: each.may_be_missing for name, each in found.items()}, {"size": True, "note": True, "kind": True, "must": False, "list": True})
        for text in ("size", "size: number", "size: int = [x]", "note: string = [x]", "kind: enum[x] = [y]", "size: int = 3", "Size: int"):
            with self.assertRaises(Bad, msg=text):
                read_properties(text)


class Documents(FolderCase):
    def convert(self, text, *options):
        """The lines of the catalogue below its first, and those of the request."""
        request = self.path("request")
        status, out, error = run("cudf", "convert", *options, "--request", request, self.write("in", text), *self.criteria)
        self.assertEqual((status, error), (0, ""))
        with open(request, "rb") as source:
            asked = source.read()
        catalogue = texts.read_catalogue(out)
        texts.read_request(asked, catalogue)
        texts.read_dictionary(catalogue)
        return out.decode().splitlines()[1:], [line for line in asked.decode().splitlines() if not line.startswith("#")]

    criteria = ()

    def test_one_package_or_one_for_each_version(self):
        text = single("a", 1, 3, 4) + stanza("b", 1) + stanza("b", 2) + stanza("c", 1, "conflicts: c > 1") + stanza("c", 2)
        catalogue, request = self.convert(text + "request: \ninstall: a != 3, b, c\n")
        self.assertEqual(catalogue, [
            "#p b_x3a_1 b:1", "#p b_x3a_2 b:2", "version a 1", "version a 4", "version b_x3a_1 1", "version b_x3a_2 2", "version c 1", "version c 2",
        ])
        self.assertEqual(request, ["needs a", "needs b_x3a_2 | b_x3a_1", "needs c"])

    def test_formulas(self):
        text = stanza("app", 1, "depends: a != 3 | f, none | g > 8 , b >= 4,false | a,", " a < 9").replace("false |", "a |")
        text += single("a", 1, 3, 4) + stanza("f-2", 2, "provides: f = 3, g") + stanza("x", 1, "depends: false!") + "request: \ninstall: app, x\n"
        self.assertEqual(self.convert(text, "--source")[0], [
            "#p false_x21_ false!", "version app 1",
            "#s app 1 (line 1) has depends: a != 3 | f", "needs a 4 | a 1 | f-2", "#s app 1 (line 1) has depends: none | g > 8", "needs f-2",
            "#s app 1 (line 1) has depends: b >= 4", "needs b", "#s app 1 (line 1) has depends: a | a", "needs a", "#s app 1 (line 1) has depends: a < 9", "needs a",
            "version x 1", "#s x 1 (line 22) has depends: false!", "needs false_x21_", "version a 1", "version a 3", "version a 4", "version f-2 2",
        ])

    def test_conflicts(self):
        text = stanza("app", 1, "conflicts: app, f, b > 1, a = 3, nowhere", "provides: f", "depends: a, b, g")
        text += single("a", 1, 3, 4) + stanza("b", 1) + stanza("b", 2) + stanza("g", 5, "provides: f = 1") + stanza("outside", 1, "provides: f")
        catalogue, _ = self.convert(text + "request: \ninstall: app\n")
        start = catalogue.index("version app 1")
        self.assertEqual(catalogue[start + 1:start + 7], [
            "needs a", "needs b_x3a_2 | b_x3a_1", "needs g", "limits g 0", "limits b_x3a_2 0", "needs a 4 | a 1 if a",
        ])

    def test_large_versions_and_names(self):
        text = single("if", 1, 5000000000) + single("c++", 4294967294)
        self.assertEqual(self.convert(text + "request: \ninstall: if < 9, if > 9, c++\n"), (
            ["#p c_p_p c++", "version _wif 1", "version _wif 2", "#v 5000000000", "version c_p_p 4294967294"],
            ["needs _wif 1", "needs _wif 2", "needs c_p_p"],
        ))

    def test_installed_packages_stay_where_they_can(self):
        text = stanza("a", 1, "conflicts: a", "installed: true") + single("a", 2) + stanza("b", 1, "installed: true") + stanza("b", 2)
        text += stanza("d", 1, "installed: true") + stanza("app", 1, "depends: b | a") + "request: \ninstall: app\nremove: d\n"
        catalogue, request = self.convert(text)
        self.assertIn("needs b_x3a_1 | a | b_x3a_2", catalogue)
        self.assertEqual(catalogue[-1], "favour a 1")
        self.assertEqual(request, ["needs app", "wish a 1", "wish b_x3a_1 1"])
        self.criteria = ("-removed,-notuptodate,-changed",)
        catalogue, request = self.convert(text)
        self.assertNotIn("favour a 1", catalogue)
        self.assertEqual(request, ["needs app", "wish a 2", "wish b_x3a_2 2"])

    def test_what_is_to_be_avoided_comes_last(self):
        text = "preamble: \nproperty: avoid-version: int = [0]\n\n" + single("a", 1, 2) + stanza("a", 3, "conflicts: a", "avoid-version: 1")
        self.assertEqual(self.convert(text + "request: \ninstall: a\n")[1], ["needs a 1..3 | a 3"])

    def test_keep(self):
        text = stanza("a", 1, "conflicts: a", "installed: true", "keep: version") + single("a", 2)
        text += stanza("b", 1, "conflicts: b", "installed: true", "keep: package") + single("b", 2) + stanza("x", 1, "provides: b")
        text += stanza("d", 1, "installed: true", "keep: feature", "provides: f = 2, g") + stanza("e", 1, "provides: f = 2") + stanza("h", 1, "keep: package")
        self.assertEqual(self.convert(text + "request: \n")[1][:5], ["needs a", "needs b", "needs d | e", "needs d", "wish a 1"])

    def test_upgrade_of_one_package(self):
        text = single("a", 1) + stanza("a", 2, "conflicts: a", "installed: true") + single("a", 3, 4)
        self.assertEqual(self.convert(text + "request: \nupgrade: a != 3\n")[1], ["needs a 2..5", "wish a 4"])

    def test_upgrade_where_several_provide(self):
        text = stanza("a", 2, "installed: true") + stanza("a", 3) + stanza("b", 1, "provides: a = 3") + stanza("d", 1, "provides: a = 3, a = 4")
        text += stanza("old", 1, "provides: a = 1") + stanza("all", 1, "provides: a")
        text += stanza("app", 1, "depends: b, d, old, all") + "request: \ninstall: app\nupgrade: a\n"
        catalogue, request = self.convert(text)
        self.assertEqual(catalogue[-6:], ["version a_x21_ 1", "#v 2", "needs a_x3a_2", "version a_x21_ 2", "#v 3", "needs a_x3a_3 | b"])
        self.assertEqual(request, [
            "needs app", "needs a_x21_", "needs a_x21_ 1 if a_x3a_2", "needs a_x21_ 2 if a_x3a_3", "needs a_x21_ 2 if b",
            "limits d 0", "limits old 0", "limits all 0", "wish a_x3a_3 3",
        ])

    def test_upgrade_of_what_is_there_in_all_versions(self):
        text = stanza("b", 1, "provides: a", "installed: true") + stanza("a", 9) + "request: \nupgrade: a\n"
        self.assertEqual(self.convert(text)[1], ["needs a_x21_", "wish b 1"])

    def test_lines_and_pieces(self):
        plain = PREAMBLE + stanza("a", 1, "depends: b , c", "must: 1") + stanza("b", 1, "must: 2") + stanza("c", 3, "must: 0") + "request: x\ninstall: a\n"
        folded = "# c\n\n \n" + plain.replace("depends: b , c", "depends: b\n# é\n ,\n  c") + "# end\n\n"
        wanted = self.convert(plain)
        with mock.patch("tools.cudf_text.PIECE", 3):
            self.assertEqual(self.convert(folded), wanted)


class Solving(FolderCase):
    TEXT = stanza("app", 2, "depends: lib >= 2", "conflicts: app") + single("lib", 1, 2) + "request: \ninstall: app\n"

    def solve(self, text, *reports):
        """The solution; each run of the program gives the next report."""
        for number, report in enumerate(reports, 1):
            self.write(f"said{number}", report)
        self.write("got", "")
        said = f'said={self.path("said")}$(grep -c x {self.path("got")})\ncat $said\n! grep -q ^refused $said\n'
        script = f'#!/bin/sh\necho x >> {self.path("got")}\ncat "$3" >> {self.path("asked")}\n{said}'
        path = self.write("resolve", script)
        os.chmod(path, os.stat(path).st_mode | stat.S_IXUSR)
        options = ["--resolve", path, self.write("in", text), self.path("out"), "-removed,-changed"]
        self.assertEqual(run("cudf", "solve", *options), (0, b"", ""))
        with open(self.path("out")) as source:
            return source.read()

    def test_a_solution(self):
        report = "install\napp=2 for request line 2\nlib=2 for app=2 line 4\n"
        self.assertEqual(self.solve(self.TEXT, report), stanza("app", 2, "installed: true") + stanza("lib", 2, "installed: true"))
        self.assertEqual(self.solve("request: \n", "install\n"), "# no package\n")

    def test_no_solution(self):
        report = "refused\ncatalogue line 4\nrequest line 2\nstep 1 need request line 2 case 1\nstep 2 need app=2 line 4 case 1\nstep 3 derive [] by 1 2\n"
        self.assertEqual(self.solve(self.TEXT.replace(">= 2", ">= 3"), report + "| app 2 would require\n| └─ lib 0\n"), (
            "FAIL\n# resolve: no set of packages keeps all rules\n# app 2 would require\n# └─ lib (no version)\n"
            "# - install: app\n# - app 2 (line 1) has depends: lib >= 3\n"
        ))

    def test_other_versions_of_what_went(self):
        text = stanza("a", 1, "conflicts: a", "installed: true") + single("a", 2) + stanza("b", 1, "conflicts: a = 1") + "request: \ninstall: b\n"
        first = "install\nb=1 for request line 2\nleft out a=1 line 3 by 3\nstep 1 need request line 2 case 1\nstep 2 limit b=1 line 4 bars a=1\nstep 3 derive [not a=1] by 1 2\n"
        self.assertEqual(self.solve(text, first, first.replace("left out", "a=2 wished line 4\nleft out")), stanza("b", 1, "installed: true") + stanza("a", 2, "installed: true"))
        with open(self.path("asked")) as source:
            asked = [line for line in source.read().splitlines() if line.startswith("wish")]
        self.assertEqual(asked, ["wish a 1", "wish a 1", "wish a 2"])


class Errors(FolderCase):
    def assert_bad(self, line, reason, text):
        path = self.write("in", text)
        where = f"{path}: line {line}" if line else path
        for action in (["convert", "--out", self.path("out"), path], ["solve", "--resolve", "/bin/false", path, self.path("out")]):
            self.assert_fault(f"{where}: {reason}", "cudf", *action)

    def test_texts_that_were_cut_off(self):
        good = stanza("a", 1) + "request: \ninstall: a\n"
        self.assert_bad(4, "its last line has no newline: was the file cut off?", stanza("a", 1) + "request: r")
        self.assert_bad(None, "has no request: was the file cut off?", stanza("a", 1))
        self.assert_bad(None, "has no request: was the file cut off?", "")
        self.assert_bad(2, "isn't UTF-8", good.encode().replace(b"version", b"\xff"))
        self.assert_bad(5, "isn't UTF-8", good.encode().replace(b": a\n", b": a\n\n", 1).replace(b"request: \n", b"request: \xe9\n"))

    def test_stanzas(self):
        request = "request: \n"
        self.assert_bad(2, "`version:1` isn't a property `NAME: VALUE`", "package: a\nversion:1\n\n" + request)
        self.assert_bad(2, "`Version: 1` isn't a property `NAME: VALUE`", "package: a\nVersion: 1\n\n" + request)
        self.assert_bad(1, "a property is due, not more of one", " a\n" + request)
        self.assert_bad(4, "the stanza has `package` already", "package: a\nversion: 1\n# c\npackage: b\nversion: 1\n\n" + request)
        self.assert_bad(1, "`version` isn't the first property of a stanza", "version: 1\npackage: a\n\n" + request)
        self.assert_bad(4, "the stanza has no `version`", stanza("a", 1) + "package: b\n\n" + request)
        self.assert_bad(4, "no property `size` is declared for this stanza", stanza("a", 1, "installed: true", "size: 3") + request)
        self.assert_bad(4, "the stanza has no `must`", PREAMBLE + stanza("a", 1) + request)
        self.assert_bad(4, "the preamble isn't the first stanza", stanza("a", 1) + "preamble: \n\n" + request)
        self.assert_bad(3, "a stanza behind the request, which is at line 1", request + "\n" + stanza("a", 1))
        self.assert_bad(7, "a 1 is listed already, in line 1", stanza("a", 1) + stanza("a", 2) + stanza("a", "01") + request)
        self.assert_bad(2, "no property `purge` is declared for this stanza", request + "purge: a\n")

    def test_values(self):
        request = "request: \n"
        for field, reason in (
            ("depends: a | ", "`` isn't a package, or a package with a constraint"),
            ("depends: a (>= 2)", "`a (>= 2)` isn't a package, or a package with a constraint"),
            ("conflicts: a | b", "`a | b` isn't a package, or a package with a constraint"), ("provides: a > 2", "`a > 2` is provided; only `=` can be"),
            ("installed: yes", "`yes` isn't `true` or `false`"), ("keep: all", "`all` isn't one of version, package, feature, none"),
            ("depends: a\r", "`a\\r` isn't a package, or a package with a constraint"),
        ):
            self.assert_bad(3, reason, stanza("a", 1, field) + request)
        self.assert_bad(2, "`1.0` isn't a whole number of at least 1", stanza("a", "1.0") + request)
        self.assert_bad(2, "`0` isn't a whole number of at least 1", stanza("a", 0) + request)
        self.assert_bad(1, "`a_b` isn't a package, or a package with a constraint", stanza("a_b", 1) + request)
        self.assert_bad(2, "`x` isn't the declaration of a property", "preamble: \nproperty: x\n\n" + request)
        self.assert_bad(6, "`x` isn't a whole number", PREAMBLE + stanza("a", 1, "must: x") + request)
        self.assert_bad(2, "`a b` isn't a package, or a package with a constraint", request + "install: a b\n")

    def test_files(self):
        missing = self.path("missing")
        self.assert_fault(f"{missing}: can't be read: No such file or directory", "cudf", "solve", missing, self.path("out"))
        self.assert_fault("cudf solve: --keep is behind IN; options come first", "cudf", "solve", missing, self.path("out"), "--keep", "x")
        good = self.write("in", stanza("a", 1) + "request: \ninstall: a\n")
        status, out, error = run("cudf", "solve", "--resolve", "/bin/false", good, self.path("out"))
        self.assertEqual((status, out, os.listdir(self.folder)), (2, b"", ["in"]))

    def test_a_cycle_is_no_fault(self):
        text = stanza("a", 1, "depends: b") + stanza("b", 1, "depends: a") + "request: \ninstall: a\n"
        status, out, error = run("cudf", "convert", self.write("in", text))
        self.assertEqual((status, error, out.splitlines()[1:]), (0, "", [b"version a 1", b"needs b", b"version b 1", b"needs a"]))
