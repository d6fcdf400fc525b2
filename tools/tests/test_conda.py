"""conda: the order of versions, which spec matches what, and what is refused."""
import json
import unittest

from tools import texts
from tools.matchspec import Bad, CondaVersion, read_matchspec
from tools.stream import JsonStream
from tools.tests.base import FolderCase, run

# From the documentation of conda's VersionOrder; the versions of one row are equal.
ORDER = [
    ["0.4", "0.4.0"], ["0.4.1.rc", "0.4.1.RC"], ["0.4.1"], ["0.5a1"], ["0.5b3"], ["0.5C1"], ["0.5"], ["0.9.6"], ["0.960923"], ["1.0"],
    ["1.1dev1"], ["1.1_"], ["1.1a1"], ["1.1.0dev1", "1.1.dev1"], ["1.1.a1"], ["1.1.0rc1"], ["1.1.0", "1.1"], ["1.1.0post1", "1.1.post1"],
    ["1.1post1"], ["1996.07.12"], ["1!0.4.1"], ["1!3.1.1.6"], ["2!0.4.1"],
]
MATCHES = [
    ("a", "1.0", "0", True), ("a 1.0", "1.0.0", "0", True), ("a 1.0", "1.0.1", "0", False), ("a 1.0.*", "1.0.1", "0", True), ("a 1.1*", "1.10", "0", False),
    ("a=1.0", "1.0.1", "0", True), ("a==1.0", "1.0.1", "0", False), ("a >=1.0,<2", "1.5", "0", True), ("a >=1.0 , < 2", "2.0", "0", False),
    ("a <1|>2", "2.1", "0", True), ("a (<1|>2),!=2.1", "2.1", "0", False), ("a 1.0 py38*", "1.0", "py38_0", True), ("a 1.0 py38*", "1.0", "py27_0", False),
    ("a=1.0=py38_0", "1.0", "py38_0", True), ("a=1.0=py38_0", "1.0.1", "py38_0", False), ("a ~=1.2.3", "1.2.9", "0", True), ("a ~=1.2.3", "1.3", "0", False),
    ("a !=1.0.*", "1.0.4", "0", False), ("a * *_1", "3", "x_1", True), ("a[version='>=2', build=\"py*\"]", "2", "py1", True), ("a ^1\\.[02]$", "1.2", "0", True),
    ("a 1.*.3", "1.2.3", "0", True), ("a >=1.0.*", "0.9", "0", False), ("a * ^py.*$", "1", "py3", True),
]


def record(name, version, build="0", **more):
    """An entry of a repodata.json."""
    return {f"{name}-{version}-{build}.conda": {"name": name, "version": version, "build": build, "build_number": 0} | more}


def repodata(*records, key="packages.conda"):
    """A file of such entries."""
    return json.dumps({"info": {"subdir": "linux-64"}, key: {k: v for each in records for k, v in each.items()}, "other": [1]}, indent=0)


class Matcher(unittest.TestCase):
    def test_order(self):
        for at, row in enumerate(ORDER):
            for version in map(CondaVersion, row):
                self.assertTrue(all(version == CondaVersion(other) for other in row), row)
                for before in ORDER[max(at - 3, 0):at]:
                    self.assertLess(CondaVersion(before[0]), version, (before, row))

    def test_matches(self):
        for spec, version, build, wanted in MATCHES:
            self.assertEqual(read_matchspec(spec).matches(version, build, {}), wanted, (spec, version, build))

    def test_faults(self):
        for text in ("", "1..2", "1 2", "a!1", "1!2!3", "1+", "é"):
            with self.assertRaises(Bad, msg=text):
                CondaVersion(text)
        for text in ("", "a >", "a >>1", "a (1", "a 1)", "a[version]", "a[channel=x]", "b::a", "a ^1", "a ~=1", "a 1,,2", "a >=1|"):
            with self.assertRaises(Bad, msg=text):
                read_matchspec(text)


class Conda(FolderCase):
    def test_builds_needs_and_limits(self):
        path = self.write("repodata.json", repodata(
            record("app", "1", depends=["lib >=1,<2", "__unix"], constrains=["opt 1.*", "far >3"]), record("lib", "1.0", "py_1", build_number=1),
            record("lib", "1.0", "py_0"), record("lib", "2.0"), record("lib", "1.5.dev1"), record("opt", "2"), record("opt", "1"),
            record("opt", "1.5"), record("far", "1"), record("more", "1", depends=["opt", "app"]),
        ))
        options = ("--virtual", "__unix=0")
        status, out, error = run("conda", "catalogue", path, *options, "--closure", "more")
        self.assertEqual((status, error), (0, ""))
        texts.read_dictionary(texts.read_catalogue(out))
        self.assertTrue(out.startswith(b"#@ 1 conda linux-64 sha256:"))
        lines = out.decode().split("\n", 3)
        self.assertEqual(lines[1], "#p ____unix __unix")
        self.assertEqual("\n".join(lines[2:]), (
            "version ____unix 1\n#v 0-0\nversion app 1\n#v 1-0\nneeds lib 1..4\nneeds ____unix\nlimits opt 1..3\n"
            "version lib 1\n#v 1.0-py_0\nversion lib 2\n#v 1.0-py_1\nversion lib 3\n#v 1.5.dev1-0\nversion lib 4\n#v 2.0-0\n"
            "version more 1\n#v 1-0\nneeds opt\nneeds app\nversion opt 1\n#v 1-0\nversion opt 2\n#v 1.5-0\nversion opt 3\n#v 2-0\n"
        ))
        asked = run("conda", "request", path, *options, "lib 1.0 py_0|py_1", "lib !=1.5.dev1", "--constraint", "lib * py_*")
        self.assertEqual(asked[1], b"# lib 1.0 py_0|py_1\nneeds lib 0\n# lib !=1.5.dev1\nneeds lib 4 | lib 1..3\n# lib * py_*\nlimits lib 1..3\n")

    def test_a_cycle_and_both_groups(self):
        old = {"a-1-0.tar.bz2": {"name": "a", "version": "1", "build": "0", "depends": ["nosuch"]}}
        new = record("a", "1", depends=["b"]) | record("b", "1", depends=["a"])
        path = self.write("repodata.json", json.dumps({"packages": old, "packages.conda": new}))
        out = run("conda", "catalogue", path)[1].decode().split("\n", 1)[1]
        self.assertEqual(out, "version a 1\n#v 1-0\nneeds b\nversion b 1\n#v 1-0\nneeds a\n")

    def test_unknown_fields_are_passed_over(self):
        path = self.write("repodata.json", repodata(record("a", "1", new={"x": ["y"]}, size=3)))
        self.assertEqual(run("conda", "catalogue", path)[1].decode().split("\n", 1)[1], "version a 1\n#v 1-0\n")

    def test_a_long_file_is_read_piece_by_piece(self):
        path = self.write("repodata.json", repodata(*(record("p", f"{n}", depends=["p"] * 20) for n in range(5000))))
        stream, most = JsonStream(path), 0
        self.addCleanup(stream.close)
        for _, key in stream.members():
            if key != "packages.conda":
                stream.value()
                continue
            for count, _ in enumerate(stream.members(), 1):
                stream.value()
                most = max(most, len(stream.text))
        self.assertEqual(count, 5000)
        self.assertLess(most, 2**20)

    def test_faults(self):
        good = record("a", "1")
        rows = [
            (repodata(good, record("b", "1 2")), "line 12: `1 2` isn't a version"), (repodata(good)[:60], "line 6: isn't JSON: Unterminated string starting at"),
            (repodata(good)[:-2], "line 15: ends where `,` is due"), (b'{"packages": {"\xff": 1}}', "line 1: isn't UTF-8"),
            (repodata(record("a", "1", depends=["b =>1"])), "line 6: `b =>1` isn't a spec of versions"), ("[1]", "line 1: isn't JSON: `{` is due"),
            ('{"packages":\n{"x": {"name": "a"}}}', "line 2: `version` is missing"), ('{"packages": {"x": 3}}', "line 1: an object is due"),
            ('{"packages": {"x": {"name": "a b", "version": "1"}}}', "line 1: `a b` isn't the name of a package"),
            ('{"packages": {"x": {"name": "a", "version": "1"},\n"y": {"name": "a", "version": "1"}}}', "line 2: a 1- is listed already, in line 1"),
            ('{"packages": {"x": {"name": "a", "version": "1", "depends": [1]}}}', "line 1: `depends` isn't a list of texts"), ("{} 1", "line 1: more follows behind the value"),
        ]
        for text, reason in rows:
            path = self.write("repodata.json", text)
            self.assert_fault(f"{path}: {reason}", "conda", "catalogue", path, "--out", self.path("out"))
        path = self.write("repodata.json", repodata(good))
        self.assert_fault(f"{path}: no package is named `b` (--closure)", "conda", "catalogue", path, "--closure", "b")
        self.assert_fault("SPEC: `b::a` names a channel", "conda", "request", path, "b::a")


if __name__ == "__main__":
    unittest.main()
