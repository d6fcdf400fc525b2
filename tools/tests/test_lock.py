"""Lock files: what is written, what they become over later catalogues, and every error with its file and line."""
import os
import stat
from unittest import mock

from tools.lock import Lock, LockEntry, lock_text, read_lock
from tools.tests.base import FolderCase, data_bytes, data_path, run
from tools.words import Fault

NEWER = b"version app 3\n#v 1.2-1\nversion libc6 3\n#v 2.37-1\n"


class Locks(FolderCase):
    def setUp(self):
        super().setUp()
        self.catalogue, self.report = data_path("debian.catalogue"), data_path("debian.report")
        self.lock = self.path("app.lock")
        self.assertEqual(run("lock", "write", self.catalogue, self.report, "--out", self.lock)[0], 0)
        with open(self.lock, "rb") as source:
            self.text = source.read()

    def lines(self, *arguments):
        status, out, error = run("lock", "lines", *arguments)
        self.assertEqual((status, error), (0, ""))
        return out.decode().splitlines()

    def program(self, said, status):
        path = self.write("resolve", f"#!/bin/sh\necho '{said}'\nexit {status}\n")
        os.chmod(path, os.stat(path).st_mode | stat.S_IXUSR)
        return path

    # -- the file

    def test_the_file(self):
        lines = self.text.decode().splitlines()
        self.assertEqual(lines[0], "lock 1 debian amd64")
        self.assertRegex(lines[1], "^catalogue sha256:[0-9a-f]{64}$")
        self.assertEqual(lines[3:], [
            "entries 3", "app 1.1-1 for request line 2", "libstdc++6 13.1.0-2 for app 1.1-1 line 10",
            "libc6 2.36-9 for app 1.1-1 line 12",
        ])
        self.assertEqual(lock_text(read_lock(self.text)), self.text)

    def test_without_a_dictionary_the_numbers_are_the_versions(self):
        out = run("lock", "write", data_path("wishes.catalogue"), data_path("wishes.report"))[1].decode().splitlines()
        self.assertEqual(out[0], "lock 1 - -")
        self.assertEqual(out[4:], ["editor 5 for request line 1", "spell 1 wished line 2", "dict 9 for spell 1 line 5"])

    def test_a_package_named_request(self):
        lock = Lock("-", "-", "sha256:" + "0" * 64, "sha256:" + "1" * 64, (
            LockEntry("request", "line", None, False, 1), LockEntry("line", "1", ("request", "line"), False, 2)))
        self.assertEqual(read_lock(lock_text(lock)), lock)

    def test_a_refusal_locks_nothing(self):
        report = data_path("held.report")
        self.assert_fault(f"{report}: line 1: is a refusal, which locks nothing", "lock", "write", self.catalogue, report, "--out", self.path("x"), status=1)

    def test_a_report_for_another_catalogue(self):
        report, other = data_path("wishes.report"), self.catalogue
        self.assert_fault(f"{report}: line 2: {other} doesn't list editor=5: it is a report for another catalogue", "lock", "write", other, report)

    # -- faults of lock files

    def test_a_cut_file_is_a_fault(self):
        for end in range(len(self.text)):
            with self.assertRaises(Fault) as raised:
                read_lock(self.text[:end])
            self.assertEqual(raised.exception.line, self.text[:end].count(10) + 1)
        path = self.write("cut.lock", self.text[:self.text.index(b"libc6")])
        self.assert_fault(f"{path}: line 7: it ends after 2 entries of 3", "lock", "lines", "--frozen", self.catalogue, path)

    def test_faults(self):
        for old, new, line, reason in [
            (b"lock 1", b"lock 2", 1, "`1` is due, not `2`"), (b"lock 1", b"\xfflock 1", 1, "control characters"),
            (b"\n", b"\r\n", 1, "control characters"), (b"catalogue sha256", b"catalogue md5", 2, "isn't `sha256:` and 64 digits"),
            (b"entries 3", b"entries 4", 8, "it ends after 3 entries of 4"), (b"entries 3", b"entries 03", 4, "isn't a number"),
            (b"libc6 2.36-9 for", b"app 1.1-1 for", 7, "`app 1.1-1` is locked already"), (b"for request", b"of request", 5, "`for` or `wished` is due"),
            (b"app 1.1-1 for request", b"app  1.1-1 for request", 5, "exactly one space"), (b"line 12", b"line 0", 7, "lines are numbered from 1"),
            (b"line 12", b"line 12 x", 7, "a word too many"), (b"for request line 2", b"for request", 5, "due"),
        ]:
            path = self.write("bad.lock", self.text.replace(old, new, 1))
            status, out, error = run("lock", "lines", "--keep", self.catalogue, path)
            self.assertEqual((status, out), (2, b""), new)
            self.assertIn(f"tools: {path}: line {line}: ", error)
            self.assertIn(reason, error)

    def test_a_merge(self):
        lines = self.text.split(b"\n")
        merged = [*lines[:4], b"<<<<<<< HEAD", lines[4], b"=======", lines[4], b">>>>>>> other", *lines[5:]]
        for at, line in ((5, b"<<<<<<< HEAD"), (5, b"======="), (5, b">>>>>>> other"), (5, b"||||||| base")):
            merged[at - 1] = line
            path = self.write("merged.lock", b"\n".join(merged))
            wanted = f"{path}: line {at}: `{line.decode()}` is of a merge: take one side whole, solve again, and write the lock anew"
            self.assert_fault(wanted, "lock", "lines", "--keep", self.catalogue, path)

    def test_another_encoding(self):
        path = self.write("wide.lock", self.text.decode().encode("utf-16"))
        self.assertEqual(run("lock", "plan", path, self.lock)[0], 2)

    # -- lines

    def test_frozen_keep_and_wish(self):
        marks = ["app 2", "libstdc_p_p6 3", "libc6 2"]
        for how, word in (("--frozen", "lock"), ("--keep", "favour"), ("--wish", "wish")):
            self.assertEqual(self.lines(how, self.catalogue, self.lock), [f"{word} {mark}" for mark in marks])

    def test_numbers_are_those_of_the_later_catalogue(self):
        text = data_bytes("debian.catalogue").replace(b"version app 2", b"version app 7").replace(b"app 0..2", b"app 0..7")
        later = self.write("later.catalogue", text + NEWER.replace(b"app 3", b"app 9"))
        self.assertEqual(self.lines("--frozen", later, self.lock)[0], "lock app 7")

    def test_whole(self):
        whole = run("lock", "lines", "--frozen", "--whole", self.catalogue, self.lock)[1]
        self.assertEqual(whole, data_bytes("debian.catalogue") + b"lock app 2\nlock libstdc_p_p6 3\nlock libc6 2\n")
        open_end = self.write("open.catalogue", data_bytes("debian.catalogue")[:-1])
        self.assertEqual(run("lock", "lines", "--frozen", "--whole", open_end, self.lock)[1], whole)

    def test_except(self):
        self.assertEqual(self.lines("--keep", self.catalogue, self.lock, "--except", "app", "libc6"), ["favour libstdc_p_p6 3"])
        self.assertEqual(self.lines("--keep", self.catalogue, self.lock, "--except", "libstdc++6"), ["favour app 2", "favour libc6 2"])
        self.assert_fault(f"{self.lock}: no entry is named `libstdc_p_p6` (--except)", "lock", "lines", "--keep", self.catalogue, self.lock, "--except", "libstdc_p_p6")
        self.assert_fault("lock lines: --except goes with --keep", "lock", "lines", "--frozen", self.catalogue, self.lock, "--except", "app")

    def test_a_version_that_is_gone(self):
        gone = self.write("gone.catalogue", data_bytes("debian.catalogue").replace(b"#v 13.1.0-2\n", b"#v 13.1.0-3\n"))
        out = self.path("frozen.catalogue")
        for how in ("--frozen", "--keep", "--wish"):
            wanted = f"{self.lock}: line 6: libstdc++6 13.1.0-2 is no longer listed by {gone}"
            self.assert_fault(wanted, "lock", "lines", how, gone, self.lock, "--out", out, status=1)
        self.assertEqual(self.lines("--keep", gone, self.lock, "--except", "libstdc++6"), ["favour app 2", "favour libc6 2"])

    def test_another_ecosystem(self):
        other = data_path("app.catalogue")
        self.assert_fault(f"{self.lock}: line 1: the lock's ecosystem is `debian`, that of {other} `-`", "lock", "lines", "--keep", other, self.lock)

    def test_marks_that_stand_there(self):
        marked = self.write("marked.catalogue", data_bytes("debian.catalogue") + b"favour app 1\nfavour libc6 2\nlock libc6 2\nlock app 1\n")
        wanted = f"{marked}: line 27: `favour app 1` is there, but {self.lock} has app=2; --whole puts a comment in its place"
        self.assert_fault(wanted, "lock", "lines", "--keep", marked, self.lock, status=1)
        self.assert_fault(f"{marked}: line 30: `lock app 1` is there, but {self.lock} has app=2", "lock", "lines", "--frozen", marked, self.lock, status=1)
        whole = run("lock", "lines", "--keep", "--whole", marked, self.lock)[1].decode().splitlines()
        self.assertEqual(whole[26:], ["# favour app 1, but for the lock file", "favour libc6 2", "lock libc6 2", "lock app 1", "favour app 2", "favour libstdc_p_p6 3"])

    def test_wishes_beside_those_of_a_request(self):
        request = self.write("app.request", "needs app\nwish libc6 2")
        self.assertEqual(self.lines("--wish", self.catalogue, self.lock, "--request", request), ["wish app 2", "wish libstdc_p_p6 3"])
        whole = self.lines("--wish", "--whole", self.catalogue, self.lock, "--request", request)
        self.assertEqual(whole, ["needs app", "wish libc6 2", "wish app 2", "wish libstdc_p_p6 3"])
        self.assert_fault("lock lines: --wish --whole needs --request, to whose end the wishes go", "lock", "lines", "--wish", "--whole", self.catalogue, self.lock)

    # -- several versions of a marked package

    def several(self):
        """A catalogue with a marked package, an install report with two versions of it, and their lock."""
        catalogue = self.write("many.catalogue", "many a\nversion a 1\nversion a 2\nversion a 3\nversion b 1\n")
        report = self.write("many.report", "install\na=2 for request line 1\na=1 for request line 2\nb=1 for request line 3\n")
        text = run("lock", "write", catalogue, report)[1]
        return catalogue, self.write("many.lock", text), text

    def test_several_versions(self):
        catalogue, lock, text = self.several()
        self.assertEqual(text.splitlines()[4:6], [b"a 2 for request line 1", b"a 1 for request line 2"])
        self.assertEqual(lock_text(read_lock(text)), text)
        self.assertEqual(self.lines("--wish", catalogue, lock), ["wish a 2", "wish a 1", "wish b 1"])
        self.assertEqual(self.lines("--keep", catalogue, lock, "--except", "a"), ["favour b 1"])
        for how, word in (("--frozen", "lock"), ("--keep", "favour")):
            wanted = f"{lock}: it has several versions of a, and one `{word}` line a package is allowed; --wish has no such bound"
            self.assert_fault(wanted, "lock", "lines", how, catalogue, lock, status=1)

    def test_several_versions_where_the_mark_is_gone(self):
        _, lock, _ = self.several()
        later = self.write("later.catalogue", "version a 1\nversion a 2\nversion b 1\n")
        wanted = f"{lock}: line 6: a has another version above, and {later} has no `many` of it"
        self.assert_fault(wanted, "lock", "lines", "--wish", later, lock, status=1)

    def test_plan_of_several_versions(self):
        catalogue, lock, text = self.several()
        plan = lambda new: run("lock", "plan", lock, self.write("new.lock", new), catalogue)[1].decode().splitlines()
        self.assertEqual(plan(text.replace(b"a 1 for", b"a 3 for")), ["upgrade a 1 to 3"])
        one = text.replace(b"entries 3", b"entries 2").replace(b"a 1 for request line 2\n", b"")
        self.assertEqual(plan(one), ["remove a 1"])
        more = text.replace(b"entries 3", b"entries 4").replace(b"b 1 for", b"a 3 for request line 4\nb 1 for")
        self.assertEqual(plan(more), ["install a 3"])
        self.assertEqual(plan(text.replace(b"a 1 for", b"c 1 for").replace(b"a 2 for", b"c 2 for")),
                         ["install c 2", "install c 1", "remove a 2", "remove a 1"])

    # -- plan

    def test_plan(self):
        other = self.text.replace(b"entries 3", b"entries 3").replace(b"app 1.1-1 for request", b"app 1.0-1 for request")
        other = other.replace(b"for app 1.1-1", b"for app 1.0-1").replace(b"libc6 2.36-9", b"doc 1.0-1")
        new = self.write("new.lock", other)
        plan = lambda *arguments: run("lock", "plan", *arguments)[1].decode().splitlines()
        self.assertEqual(plan(self.lock, new, self.catalogue), ["downgrade app 1.1-1 to 1.0-1", "install doc 1.0-1", "remove libc6 2.36-9"])
        self.assertEqual(plan(new, self.lock, self.catalogue), ["upgrade app 1.0-1 to 1.1-1", "install libc6 2.36-9", "remove doc 1.0-1"])
        self.assertEqual(plan(self.lock, new)[0], "change app 1.1-1 to 1.0-1")
        self.assertEqual(plan(self.lock, self.lock, self.catalogue), [])

    def test_plan_without_a_dictionary(self):
        old = run("lock", "write", data_path("locked.catalogue"), data_path("locked.report"))[1]
        first, second = self.write("a.lock", old), self.write("b.lock", old.replace(b"tls 1 for", b"tls 2 for"))
        self.assertEqual(run("lock", "plan", first, second)[1], b"upgrade tls 1 to 2\n")
        self.assertEqual(run("lock", "plan", second, first)[1], b"downgrade tls 2 to 1\n")

    # -- check

    def test_check(self):
        files = (self.catalogue, data_path("debian.request"), self.report)
        status, out, error = run("lock", "check", self.lock, *files, "--resolve", self.program("yes", 0))
        self.assertEqual((status, out, error), (0, b"yes: 3 entries, and the report is judged right\n", ""))
        no = self.program("no line 3", 1)
        self.assert_fault(f"{self.report}: `resolve judge` says `no line 3`; `resolve-tools check` has the reason", "lock", "check", self.lock, *files, "--resolve", no, status=1)
        fault = self.program("fault at request line 1", 2)
        self.assert_fault(f"{fault}: judge: fault at request line 1", "lock", "check", self.lock, *files, "--resolve", fault)
        request = self.write("bad.request", b"needs app\r\n")
        wanted = f"{request}: line 1: a carriage return; lines end with a newline alone"
        self.assert_fault(wanted, "lock", "check", self.lock, self.catalogue, request, self.report, "--resolve", fault)

    def test_check_of_other_files(self):
        request, no_program = data_path("debian.request"), self.path("none")
        moved = self.write("moved.catalogue", data_bytes("debian.catalogue") + NEWER)
        self.assert_fault(f"{self.lock}: line 2: the sum is of another catalogue than {moved}; `lock write` makes a new lock", "lock", "check", self.lock, moved, request, self.report, status=1)
        other = self.write("other.report", data_bytes("debian.report").replace(b"=3 for", b"=2 for"))
        self.assert_fault(f"{self.lock}: line 3: the sum is of another report than {other}; `lock write` makes a new lock", "lock", "check", self.lock, self.catalogue, request, other, status=1)
        edited = self.write("edited.lock", self.text.replace(b"13.1.0-2", b"12.2.0-14+deb12u1"))
        wanted = f"{edited}: line 6: the report has `libstdc++6 13.1.0-2 for app 1.1-1 line 10`"
        self.assert_fault(wanted, "lock", "check", edited, self.catalogue, request, self.report, status=1)
        how = "(`--resolve PATH` or the variable RESOLVE names it; else it is crates/resolve/out/resolve, bin/resolve of a release, or on PATH)"
        wanted = f"{no_program}: isn't a program that can be run {how}"
        self.assert_fault(wanted, "lock", "check", self.lock, self.catalogue, request, self.report, "--resolve", no_program)

    def test_where_the_program_is_found(self):
        files = ("lock", "check", self.lock, self.catalogue, data_path("debian.request"), self.report)
        found = (0, b"yes: 3 entries, and the report is judged right\n", "")
        os.mkdir(self.path("bin"))
        os.rename(self.program("yes", 0), self.path("bin/resolve"))
        with mock.patch("tools.files.TOP", self.path("none")):
            self.assertEqual(run(*files, environment={"RESOLVE": self.path("bin/resolve"), "PATH": ""})[:2], found[:2])
            self.assertEqual(run(*files, environment={"RESOLVE": "", "PATH": self.path("bin")}), found)
            self.assertEqual(run(*files, environment={"RESOLVE": "", "PATH": ""})[0], 2)
        with mock.patch("tools.files.TOP", self.folder):
            self.assertEqual(run(*files, environment={"RESOLVE": "", "PATH": ""}), found)
            self.assertEqual(run(*files, environment={"RESOLVE": self.path("none"), "PATH": ""})[0], 2)
