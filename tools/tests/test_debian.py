"""Debian: versions in order, relations as runs of numbers, catalogues worked out by hand, every bad input; apt's solver."""
import bz2
import contextlib
import gzip
import io
import lzma
import os
import random
import stat
import sys
from unittest import mock

from tools import apt_solver, texts
from tools.deb822 import Relation, read_relation, version_key
from tools.debian import runs_of
from tools.tests.base import FolderCase, Output, run
from tools.words import Bad

# In Debian's order; those of one text are equal.
ORDER = [
    "0~~", "0~", "0 0:0 00", "0-0.1", "0+", "1.0~beta1~svn1245", "1.0~beta1", "1.0~rc1-1", "1.0 1.0-0", "1.0-1~bpo12+1",
    "1.0-1", "1.0-1+b1", "1.0-1.1", "1.0-2", "1.0-10", "1.0a", "1.0+dfsg-1", "1.0-1-1", "1.0.1", "1.2", "1.10", "1:0.1", "2:0",
]
HEAD = "#@ 1 debian amd64 sha256:"


def stanza(name, version, *fields):
    """A stanza of a Packages file."""
    return "\n".join([f"Package: {name}", "Architecture: amd64", f"Version: {version}", *fields]) + "\n\n"


BASE = stanza("lib", "1:1.0~rc1-1") + stanza("lib", "1.9-1") + stanza("lib", "1:1.0-1") + stanza("lib", "1:2.0-1")


class Versions(FolderCase):
    def test_the_order(self):
        keys = [{version_key(text) for text in line.split()} for line in ORDER]
        self.assertEqual([len(line) for line in keys], [1] * len(ORDER))
        flat = [key for line in keys for key in line]
        shuffled = random.Random(1).sample(flat, len(flat))
        self.assertEqual(sorted(shuffled), flat)

    def test_what_is_no_version(self):
        for text in ("", "1_0", "a:1", ":1", "1:", "1.0-", "-1", "2147483648:1", "1 0", "1.0é", "1/2"):
            with self.assertRaises(Bad, msg=text):
                version_key(text)

    def test_relations(self):
        self.assertEqual(read_relation("a:any (>= 1:2)"), Relation("a", "any", ">=", "1:2"))
        self.assertEqual(read_relation("a(<2)"), Relation("a", "", "<=", "2"))
        for sign, wanted in (("<<", "1"), ("<=", "12"), ("=", "2"), (">=", "23"), (">>", "3")):
            relation = read_relation(f"a ({sign} 2.0)")
            self.assertEqual("".join(each for each in "123" if relation.holds(f"{each}.0")), wanted)
        for text in ("a (2)", "a (>= )", "a (== 2)", "a b", "", "a (>= 1_0)", "(>= 2)"):
            with self.assertRaises(Bad, msg=text):
                read_relation(text)

    def test_runs(self):
        self.assertEqual(runs_of([5, 1, 2, 2, 7, 6]), [(1, 3), (5, 8)])
        self.assertEqual(runs_of([]), [])


class Catalogues(FolderCase):
    def lines(self, text, *options):
        """The catalogue of a Packages text, without its first line and the texts of versions."""
        status, out, error = run("debian", self.write("Packages", text), "--arch", "amd64", *options)
        self.assertEqual((status, error), (0, ""))
        lines = out.decode().splitlines()
        self.assertTrue(lines[0].startswith(HEAD))
        texts.read_dictionary(texts.read_catalogue(out))
        return [line for line in lines[1:] if not line.startswith("#v")]

    def needs(self, field, others=BASE, name="app"):
        """The lines of one package, but for its version."""
        lines = self.lines(stanza(name, "1", field) + others)
        start = lines.index(f"version {name} 1")
        end = next((at for at in range(start + 1, len(lines)) if lines[at].startswith("version")), len(lines))
        return lines[start + 1:end]

    def test_numbers_follow_the_order(self):
        out = run("debian", self.write("p", BASE), "--arch", "amd64")[1].decode().splitlines()
        self.assertEqual(out[1:], [
            "version lib 1", "#v 1.9-1", "version lib 2", "#v 1:1.0~rc1-1", "version lib 3", "#v 1:1.0-1", "version lib 4", "#v 1:2.0-1",
        ])

    def test_relations_become_runs(self):
        for relation, line in (
            ("lib", "needs lib"), ("lib (>= 1:1.0)", "needs lib 3..5"), ("lib (>= 1:1.0~)", "needs lib 2..5"), ("lib (<< 1:1.0)", "needs lib 1..3"),
            ("lib (= 1:1.0-1)", "needs lib 3"), ("lib (>> 3:0)", "needs lib 0"), ("nowhere", "needs nowhere"), ("lib:any (<= 1.9-1)", "needs lib 1"),
            ("lib:i386", "needs lib 0"), ("nowhere | lib (= 1.9-1)", "needs lib 1"), ("lib (= 1:2.0-1) | lib (= 1.9-1)", "needs lib 4 | lib 1"),
        ):
            self.assertEqual(self.needs(f"Depends: {relation}"), [line], relation)

    def test_pre_depends_and_several(self):
        text = "Depends: lib,\n nowhere | lib (>= 1:2),\nPre-Depends: lib (<< 1:2)"
        self.assertEqual(self.needs(text), ["needs lib 1..4", "needs lib", "needs lib 4"])

    def test_limits(self):
        self.assertEqual(self.needs("Breaks: lib (<< 1:1.0)"), ["limits lib 3..5"])
        self.assertEqual(self.needs("Breaks: lib (= 1:1.0-1)"), ["needs lib 4 | lib 1..3 if lib"])
        self.assertEqual(self.needs("Conflicts: lib"), ["limits lib 0"])
        self.assertEqual(self.needs("Conflicts: lib (>> 3), nowhere, app"), ["limits lib 1"])

    def test_virtual_packages_are_their_providers(self):
        more = stanza("exim", "1", "Provides: mta", "Conflicts: mta") + stanza("postfix", "1") + stanza("postfix", "2", "Provides: mta")
        self.assertEqual(self.needs("Depends: mta", more), ["needs exim | postfix 2"])
        self.assertEqual(self.needs("Depends: mta (>= 1)", more), ["needs mta"])
        self.assertEqual(self.needs("Depends: postfix | mta", more), ["needs postfix | exim | postfix 2"])
        self.assertEqual(self.lines(more)[:2], ["version exim 1", "limits postfix 1"])

    def test_versioned_provides(self):
        more = stanza("new", "9", "Provides: lib (= 1:3)") + BASE
        self.assertEqual(self.needs("Depends: lib (>= 1:2)", more), ["needs lib 4 | new"])
        self.assertEqual(self.needs("Depends: lib (>= 1:3)", more), ["needs new"])
        self.assertEqual(self.needs("Depends: lib (<< 1:2)", more), ["needs lib 1..4"])

    def test_the_better_provider_comes_first(self):
        more = stanza("a", "1", "Provides: v", "Priority: extra") + stanza("b", "1", "Provides: v", "Priority: important")
        self.assertEqual(self.needs("Depends: v", more), ["needs b | a"])

    def test_names_sources_and_other_architectures(self):
        text = stanza("libstdc++6", "1", "Depends: g++") + stanza("x", "1").replace("amd64", "i386") + stanza("y", "1").replace("amd64", "all")
        lines = self.lines(text, "--source")
        self.assertEqual(lines, [
            "#p libstdc_p_p6 libstdc++6", "#p g_p_p g++", "version libstdc_p_p6 1", "#s Depends: g++", "needs g_p_p", "version y 1",
        ])

    def test_a_closure_with_its_request(self):
        text = stanza("app", "1") + stanza("app", "2", "Depends: b | c", "Breaks: d, e", "Recommends: d | b, lib (<< 1:2)")
        text += stanza("b", "1") + stanza("c", "1") + stanza("d", "1") + stanza("e", "1") + stanza("f", "1") + BASE
        request = self.path("r")
        lines = self.lines(text, "--closure", "app=2", "--request", request)
        self.assertEqual([line.split()[1] for line in lines if line.startswith("version ")], ["app", "app", "d", "lib", "lib", "lib", "lib", "b", "c"])
        self.assertIn("limits d 0", lines)
        self.assertNotIn("limits e 0", lines)
        with open(request) as source:
            self.assertEqual(source.read(), "needs app 2\nwish d 1\nwish lib 3\n")

    def test_a_request_and_its_catalogue_are_written_both_or_neither(self):
        path = self.write("Packages", stanza("app", "1"))
        command = ("debian", path, "--arch", "amd64", "--closure", "app", "--request")
        self.assert_fault(f"{self.path('none/c')}: can't be written: No such file or directory", *command, self.path("r"), "--out", self.path("none/c"))
        self.assert_fault(f"{self.path('none/r')}: can't be written: No such file or directory", *command, self.path("none/r"), "--out", self.path("c"))
        self.assert_fault(f"{self.folder}: can't be written: Is a directory", *command, self.folder, "--out", self.path("c"))
        self.assert_fault(f"--request: {self.path('c')} is the catalogue's place", *command, self.path("c"), "--out", self.path("none/../c"))
        self.assert_fault("--request: - is the catalogue's place", *command, "-")
        self.assertEqual(run(*command, "-", "--out", self.path("c")), (0, b"needs app\n", ""))
        self.assertEqual(run(*command, "/dev/null", "--out", "/dev/null"), (0, b"", ""))

    def test_a_cycle_and_unknown_fields(self):
        text = stanza("a", "1", "Depends: b", "X-New: é (>= ,", " more") + stanza("b", "1", "Depends: a")
        self.assertEqual(self.lines(text), ["version a 1", "needs b", "version b 1", "needs a"])

    def test_packed_files(self):
        plain = run("debian", self.write("p", BASE), "--arch", "amd64")
        data = BASE.encode()
        for name, packed in (("p.gz", gzip.compress(data)), ("p.xz", lzma.compress(data)), ("p.bz2", bz2.compress(data))):
            self.assertEqual(run("debian", self.write(name, packed), "--arch", "amd64"), plain)
        halves = lzma.compress(data[:99]) + lzma.compress(data[99:]) + b"\0" * 4
        self.assertEqual(run("debian", self.write("p.xz", halves), "--arch", "amd64"), plain)


class Errors(FolderCase):
    def assert_bad(self, line, reason, text, name="Packages"):
        path = self.write(name, text)
        where = f"{path}: line {line}" if line else path
        self.assert_fault(f"{where}: {reason}", "debian", path, "--arch", "amd64", "--out", self.path("out"))

    def test_stanzas(self):
        good = stanza("a", "1")
        wrong = good.encode() + stanza("b", "1", "X: y").encode().replace(b"X: y", b"X: \xff")
        self.assert_bad(8, "isn't UTF-8", wrong)
        self.assert_bad(7, "isn't UTF-8", good.encode() + b"Package: b\nVersion: 1\nArchitecture: am\xc0d64\n\n" + good.encode())
        self.assert_bad(5, "the stanza of b has no Version", good + "Package: b\nArchitecture: amd64\n\n")
        self.assert_bad(6, "the stanza of b has no Version", good + "\nPackage: b\nArchitecture: amd64\n\n")
        self.assert_bad(5, "the stanza of b has no Architecture", good + "Package: b\nVersion: 1\n\n")
        self.assert_bad(5, "the stanza has no Package", good + "Architecture: amd64\nVersion: 1\n\n")
        self.assert_bad(7, "its last line has no newline: was the file cut off?", good + "Package: b\nArchitecture: amd64\nVersion: 1")
        self.assert_bad(4, "`what` isn't a field", "Package: a\nArchitecture: amd64\nVersion: 1\nwhat\n")
        self.assert_bad(4, "the stanza has `Version` already", "Package: a\nArchitecture: amd64\nVersion: 1\nVersion: 1\n")
        self.assert_bad(1, "`a b` isn't the name of a package", stanza("a b", "1"))

    def test_versions_and_relations(self):
        self.assert_bad(3, "`1_0` isn't a version", stanza("a", "1_0"))
        self.assert_bad(4, "`1_0` isn't a version", stanza("a", "1", "Depends: b (>= 1_0)"))
        self.assert_bad(4, "`b c` isn't a relation", stanza("a", "1", "Depends: b c"))
        self.assert_bad(4, "Conflicts has no alternatives, but `b | c` is there", stanza("a", "1", "Conflicts: b | c"))
        self.assert_bad(4, "`v` is provided with `>=`; only `=` can be", stanza("a", "1", "Provides: v (>= 1)"))
        self.assert_bad(5, "`` isn't a relation", stanza("a", "1", "Section: x", "Breaks: b,,c"))

    def test_packed_files(self):
        path = self.write("p.gz", gzip.compress(BASE.encode())[:-9])
        reason = "can't be unpacked: Compressed file ended before the end-of-stream marker was reached"
        self.assert_fault(f"{path}: {reason}", "debian", path, "--arch", "amd64", "--out", self.path("out"))
        for name, data in (("p.xz", lzma.compress(b"a")), ("p.bz2", bz2.compress(b"a"))):
            path = self.write(name, data + b"more")
            self.assertIn(f"{path}: can't be unpacked: ", run("debian", path, "--arch", "amd64")[2])
            path = self.write(name, data[:-5])
            self.assert_fault(f"{path}: {reason}", "debian", path, "--arch", "amd64")
        path = self.write("p.xz", b"nothing packed")
        self.assert_fault(f"{path}: can't be unpacked: Input format not supported by decoder", "debian", path, "--arch", "amd64")

    def test_the_command(self):
        path = self.write("p", BASE)
        self.assert_fault("--closure: no file lists app", "debian", path, "--arch", "amd64", "--closure", "app", status=1)
        self.assert_fault("debian: the files are due, or --lists alone", "debian")
        missing = self.path("q")
        self.assert_fault(f"{missing}: can't be read: No such file or directory", "debian", missing, "--arch", "amd64")


REFUSED = "refused\nrequest line 1\nstep 1 need request line 1 case 1\n"
REQUEST = "Request: EDSP 0.5\nArchitecture: amd64\nInstall: app:amd64\n\n"


def listed(number, name, version, *fields):
    """A stanza of a scenario."""
    return stanza(name, version, f"APT-ID: {number}", "APT-Candidate: yes", *fields)


class Solver(FolderCase):
    """apt's solver over a program that prints a report which is given here."""

    def answer(self, scenario, *reports):
        """What the solver prints, without what goes on; each run of the program gives the next report."""
        for number, report in enumerate(reports, 1):
            self.write(f"said{number}", report)
        self.write("got", "")
        got = self.path("got")
        copy = f'cat "$2" >> {got}; echo --- >> {got}; cat "$3" >> {got}; echo === >> {got}'
        path = self.write("resolve", f'#!/bin/sh\n{copy}\nsaid={self.path("said")}$(grep -c === {got})\ncat $said\n! grep -q ^refused $said\n')
        os.chmod(path, os.stat(path).st_mode | stat.S_IXUSR)
        out, error = Output(), Output()
        source = io.TextIOWrapper(io.BytesIO(scenario.encode()))
        with contextlib.redirect_stdout(out), contextlib.redirect_stderr(error), mock.patch.object(sys, "stdin", source):
            with mock.patch.dict(os.environ, {"RESOLVE": path, "TMPDIR": self.folder}), mock.patch("tempfile.tempdir", self.folder):
                self.assertEqual(apt_solver.main(), 0)
        stanzas = out.taken().decode().split("\n\n")[:-1]
        self.progress = [each.split("\n")[1:] for each in stanzas if each.startswith("Progress: ")]
        return [each for each in stanzas if not each.startswith("Progress:")], error.taken().decode()

    def got(self):
        with open(self.path("got")) as source:
            return [line for line in source.read().splitlines() if not line.startswith("#")]

    def folders(self):
        return [name for name in os.listdir(self.folder) if name.startswith("resolve-apt-")]

    def test_an_install(self):
        scenario = REQUEST + listed(7, "app", "1.0", "Depends: lib | old") + listed(8, "lib", "1")
        scenario += listed(9, "old", "1", "Installed: yes") + listed(10, "init", "1", "Installed: yes", "Essential: yes")
        report = "install\napp=1 for request line 1\ninit=1 for request line 2\nold=1 for app=1 line 4\n"
        stanzas, error = self.answer(scenario, report)
        self.assertEqual((stanzas, error), (["Install: 7\nPackage: app\nVersion: 1.0\nArchitecture: amd64"], ""))
        self.assertEqual(self.got(), [
            "version app 1", "needs old | lib", "version old 1", "version init 1", "version lib 1", "favour init 1", "favour old 1", "favour app 1",
            "---", "needs app 1", "needs init", "needs init 1", "needs old 1", "===",
        ])
        self.assertEqual(self.folders(), [])

    def test_a_removal_that_is_forced_keeps_its_proof(self):
        scenario = REQUEST + listed(7, "app", "1", "Conflicts: old") + listed(9, "old", "1", "Installed: yes", "Hold: yes")
        report = "install\napp=1 for request line 1\nleft out old=1 line 2 by 3\nstep 1 need request line 1 case 1\n"
        report += "step 2 limit app=1 line 3 bars old=1\nstep 3 derive [not old=1] by 1 2\n"
        stanzas, error = self.answer(scenario, REFUSED, report, report)
        self.assertEqual([each.split("\n")[0] for each in stanzas], ["Install: 7", "Remove: 9"])
        self.assertIn("resolve: why old can't stay is proved in ", error)
        self.assertIn("lock old 1", self.got())
        self.assertEqual(sorted(os.listdir(self.path(self.folders()[0]))), ["catalogue", "report", "request"])

    def test_what_is_left_out_is_barred_in_the_next_run(self):
        scenario = REQUEST + listed(7, "app", "1", "Recommends: r1 | r2, rx, nowhere, old")
        scenario += "".join(listed(number, name, "1") for number, name in enumerate(["r1", "r2", "rx"], 10))
        scenario += listed(9, "old", "1", "Installed: yes")
        first = "install\napp=1 for request line 1\nold=1 wished line 2\nleft out r1=1 line 3 by 2\nrx=1 wished line 4\n"
        first += "step 1 need request line 1 case 1\nstep 2 derive [not r1=1] by 1\n"
        last = "install\napp=1 for request line 1\nold=1 wished line 2\nr2=1 wished line 3\nrx=1 wished line 4\n"
        stanzas, _ = self.answer(scenario, REFUSED, first, last)
        self.assertEqual([each.split("\n")[0] for each in stanzas], ["Install: 7", "Install: 12", "Install: 11"])
        said = "Message: resolve solves the request over"
        self.assertEqual(self.progress, [
            ["Percentage: 0", "Message: resolve reads the packages"], ["Percentage: 50", f"{said} 4 packages"],
            ["Percentage: 60", f"{said} 4 packages"], ["Percentage: 70", f"{said} 5 packages"],
        ])
        asked = [line for line in self.got() if line.startswith(("needs", "wish", "==="))]
        self.assertEqual(asked, [
            "needs app 1", "needs old 1", "needs r1 1", "needs rx 1", "===", "needs app 1", "wish old 1", "wish r1 1", "wish rx 1", "===",
            "needs app 1", "wish old 1", "wish r2 1", "wish rx 1", "===",
        ])

    def test_what_is_chosen_besides_brings_its_recommendations(self):
        scenario = REQUEST + listed(7, "app", "1", "Depends: a | b") + listed(8, "a", "1", "Depends: c") + listed(9, "c", "1")
        scenario += listed(10, "b", "1", "Recommends: d") + listed(11, "d", "1")
        first = "install\napp=1 for request line 1\nb=1 for app=1 line 3\nleft out a=1 line 2 by 1\nleft out c=1 line 3 by 1\n"
        first += "step 1 need request line 1 case 1\n"
        last = "install\napp=1 for request line 1\nb=1 for app=1 line 3\nd=1 wished line 3\n"
        stanzas, _ = self.answer(scenario, REFUSED, first, last)
        self.assertEqual([each.split("\n")[0] for each in stanzas], ["Install: 7", "Install: 10", "Install: 11"])
        self.assertEqual([line for line in self.got() if line.startswith("wish")], ["wish a 1", "wish c 1", "wish b 1", "wish d 1"])

    def test_an_upgrade_where_the_installed_version_cant_stay(self):
        scenario = REQUEST + listed(7, "app", "1", "Breaks: old (<< 2)") + listed(8, "old", "2")
        scenario += stanza("old", "1", "APT-ID: 9", "Installed: yes")
        stanzas, error = self.answer(scenario, "install\napp=1 for request line 1\nold=2 for request line 2\n")
        self.assertEqual([each.split("\n")[0] for each in stanzas], ["Install: 7", "Install: 8"])
        self.assertEqual(error, "")
        self.assertEqual(self.got()[-4:], ["---", "needs app 1", "needs old 2", "==="])

    def test_a_second_run_upgrades_what_the_walk_didnt_see(self):
        scenario = REQUEST + listed(7, "app", "1") + listed(8, "old", "2")
        scenario += stanza("old", "1", "APT-ID: 9", "Installed: yes", "Breaks: app")
        left = "install\napp=1 for request line 1\nleft out old=1 line 2 by 3\nstep 1 need request line 1 case 1\n"
        left += "step 2 limit old=1 line 4 bars app=1\nstep 3 derive [not old=1] by 1 2\n"
        stanzas, error = self.answer(scenario, REFUSED, left, left.replace("left out", "old=2 wished line 3\nleft out"))
        self.assertEqual([each.split("\n")[0] for each in stanzas], ["Install: 7", "Install: 8"])
        self.assertEqual(error, "")
        asked = [line for line in self.got() if line.startswith(("wish", "==="))]
        self.assertEqual(asked, ["===", "wish old 1", "===", "wish old 1", "wish old 2", "==="])

    def test_a_removal_and_an_upgrade_of_all(self):
        asked = "Request: EDSP 0.5\nArchitecture: amd64\nRemove: a:amd64\nUpgrade-All: yes\n\n"
        scenario = asked + stanza("a", "1", "APT-ID: 1", "Installed: yes") + stanza("b", "1", "APT-ID: 2", "Installed: yes")
        stanzas, error = self.answer(scenario + listed(3, "b", "2"), "install\nb=2 for request line 2\n")
        self.assertEqual([each.split("\n")[0] for each in stanzas], ["Install: 3", "Remove: 1"])
        self.assertEqual(error, "")
        self.assertEqual(self.got()[-6:], ["favour a 1", "favour b 2", "---", "limits a 0", "needs b 2", "==="])

    def test_a_refusal_says_why(self):
        scenario = REQUEST + listed(7, "app", "1.5", "Depends: lib+x (>= 2)")
        report = "refused\ncatalogue line 6\nrequest line 1\nstep 1 need request line 1 case 1\nstep 2 need app=1 line 6 case 1\n"
        report += "step 3 derive [] by 1 2\n| app 1 cannot be installed because there are no viable options:\n"
        stanzas, _ = self.answer(scenario, REFUSED, report)
        lines = stanzas[0].split("\n")
        self.assertEqual(lines[:3], [
            "Error: resolve-refused", "Message: resolve: no set of packages keeps all rules", " app 1.5 cannot be installed because there are no viable options:",
        ])
        self.assertEqual(lines[3], " - app 1.5 has Depends: lib+x (>= 2)")
        self.assertTrue(lines[4].startswith(" The proof is ") and self.folders()[0] in lines[4])

    def test_faults_are_answers(self):
        for scenario, reason in (
            ("", "scenario: line 1: the first stanza isn't a request of EDSP 0.5"),
            ("Request: EDSP 0.5\n\n", "scenario: line 1: the request has no Architecture"),
            (REQUEST + listed(7, "app", "1_0"), "scenario: line 7: `1_0` isn't a version"),
            (REQUEST.replace("app:amd64", "app:i386"), "scenario: line 3: app:i386 is of another architecture than amd64"),
            (REQUEST + "Package: app\nVersion: 1", "scenario: line 6: its last line has no newline: was the file cut off?"),
        ):
            self.assertEqual(self.answer(scenario, "install\n"), ([f"Error: resolve-fault\nMessage: tools: {reason}"], ""))
            self.assertEqual(self.folders(), [])
