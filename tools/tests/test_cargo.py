"""Cargo: which requirement matches which version, what the features become, and what is refused."""
import json
import os
import unittest

from tools import texts
from tools.semver import Bad, read_req, read_semver
from tools.tests.base import FolderCase, run

MATCHES = [
    ("1", "1.2.3", True), ("^0.2", "0.2.9", True), ("^0.2", "0.3.0", False), ("~1.2", "1.2.9", True), ("~1.2", "1.3.0", False),
    ("1.*", "1.9.0", True), ("=1.2", "1.2.4", True), (">1.2", "1.2.4", False), (">1.2", "1.3.0", True), (">=1.2, <2", "1.5.0", True),
    ("*", "1.0.0-a", False), ("1.0.0-a", "1.0.0-b", True), ("1.0.0-a", "1.0.1-b", False), ("<=1.2", "1.2.9", True), ("^0.0.3", "0.0.4", False),
    ("<1.0.0", "1.0.0-a", False), (">=1.0.0-a, <2", "1.0.0-a", True), ("0", "0.9.1", True), ("^0.0", "0.0.7", True), ("=1.2.3", "1.2.3+x", True),
]
ORDER = ["0.0.1", "0.1.0", "1.0.0-1", "1.0.0-2", "1.0.0-10", "1.0.0-a", "1.0.0-a.1", "1.0.0-a.b", "1.0.0-b", "1.0.0", "1.0.1", "1.10.0"]


def entry(name, version, deps=(), features=None, **more):
    """A line of an index."""
    plain = {"features": [], "optional": False, "default_features": True, "kind": "normal"}
    deps = [plain | {"name": dep} | given for dep, given in deps]
    return json.dumps({"name": name, "vers": version, "deps": deps, "features": features or {}, "yanked": False} | more)


class Matcher(unittest.TestCase):
    def test_matches(self):
        for req, version, wanted in MATCHES:
            self.assertEqual(read_req(req).matches(read_semver(version)), wanted, (req, version))

    def test_order_and_lines(self):
        read = [read_semver(text) for text in ORDER]
        self.assertEqual(sorted(read, reverse=True)[::-1], read)
        self.assertEqual([read_semver(v).line for v in ("1.2.3", "0.2.3", "0.0.3", "10.0.0-a")], ["1", "0.2", "0.0.3", "10"])

    def test_faults(self):
        for text in ("1", "1.2", "1.02.3", "1.2.3-", "1.2.3-01", "v1.2.3", "", "1.2.3-a..b", "99999999999999999999.0.0"):
            with self.assertRaises(Bad, msg=text):
                read_semver(text)
        for text in ("", "1,", "1.x.2", "1.2-a", "a", "1 2", "=> 1", "*, 1", "1.2.3.4"):
            with self.assertRaises(Bad, msg=text):
                read_req(text)


class Cargo(FolderCase):
    def catalogue(self, *entries, options=()):
        status, out, error = run("cargo", "catalogue", self.write("index", "\n".join(entries)), *options)
        self.assertEqual((status, error), (0, ""))
        texts.read_dictionary(texts.read_catalogue(out))
        return "".join(line + "\n" for line in out.decode().split("\n")[1:-1] if not line.startswith(("#v", "#p")))

    def test_lines_and_features(self):
        found = self.catalogue(
            entry("a", "1.0.0", [("b", {"req": "1", "features": ["x"]}), ("c", {"req": "*", "optional": True})], {"default": ["c?/y"]}),
            entry("b", "1.0.0"), entry("b", "1.1.0", features={"x": []}, yanked=True), entry("b", "1.2.0", features={"x": []}),
            entry("b", "2.0.0"), entry("c", "0.1.0", features={"y": []}), options=("--closure", "a.1/default", "a.1/c"),
        )
        self.assertEqual(found, (
            "version a.1 1\nneeds b.1_x2f_x\n"
            "version a.1_x2f_c 1\nneeds a.1\nneeds c.0.1\n"
            "version a.1_x2f_default 1\nneeds a.1\nneeds c.0.1_x2f_y\n"
            "version b.1 1\nversion b.1 2\nexclude b.1 2 yanked\nversion b.1 3\n"
            "version b.1_x2f_x 2\nneeds b.1 2\nversion b.1_x2f_x 3\nneeds b.1 3\n"
            "version c.0.1 1\nversion c.0.1_x2f_y 1\nneeds c.0.1\n"
        ))

    def test_several_lines_become_an_edge(self):
        b = [entry("b", version, features={"x": []}) for version in ("0.9.0", "1.0.0", "1.1.0")]
        found = self.catalogue(entry("a", "1.0.0", [("b", {"req": ">=0.9", "features": ["x"]})]), *b, options=("--closure", "a.1"))
        edge = "a.1_x3e_b_x3a_b_x3a_1"
        self.assertIn(f"version a.1 1\nneeds {edge}_x2f_x\nversion {edge} 1\nneeds b.0.9\nversion {edge} 2\nneeds b.1 1\n", found)
        self.assertIn(f"version {edge}_x2f_x 2\nneeds {edge} 2\nneeds b.1_x2f_x 1\n", found)

    def test_renames_links_and_what_is_missing(self):
        found = self.catalogue(
            entry("a", "1.0.0", [("own", {"req": "1", "package": "b"}), ("no", {"req": "1"}), ("t", {"req": "1", "kind": "dev"})]),
            entry("b", "1.0.0", links="z"), entry("b", "2.0.0", links="z"), entry("d", "1.0.0", [("a", {"req": "1", "registry": "other"})]),
        )
        self.assertEqual(found, (
            "version a.1 1\nneeds b.1\nneeds no\nversion b.1 1\nlimits b.2 0\nversion b.2 1\nlimits b.1 0\n"
            "version d.1 1\nunknown registry\nneeds a\n"
        ))

    def test_a_cycle_is_no_fault(self):
        found = self.catalogue(entry("a", "1.0.0", [("b", {"req": "1"})]), entry("b", "1.0.0", [("a", {"req": "1"})]))
        self.assertEqual(found, "version a.1 1\nneeds b.1\nversion b.1 1\nneeds a.1\n")

    def test_unknown_fields_are_passed_over(self):
        self.assertEqual(self.catalogue(entry("a", "1.0.0", new={"x": ["y"]}, rust_version="1.0")), "version a.1 1\n")

    def test_a_folder_and_a_manifest(self):
        folder = self.path("registry")
        os.makedirs(os.path.join(folder, "3", "a"))
        with open(os.path.join(folder, "3", "a", "abc"), "w") as out:
            out.write(entry("abc", "1.0.0", features={"x": []}))
        manifest = self.write("Cargo.toml", '[package]\nname = "app"\n[dependencies]\nabc = "1"\n[features]\nf = ["abc/x"]\n')
        status, out, error = run("cargo", "catalogue", folder, "--manifest", manifest)
        self.assertEqual((status, error), (0, ""))
        self.assertIn(b"version app.0.0.0 1\n#v 0.0.0\nneeds abc.1_x2f_x\n", out)
        self.assertEqual(run("cargo", "request", folder, "abc@1/x")[1], b"# abc@1/x\nneeds abc.1_x2f_x\n")
        self.assertEqual(run("cargo", "request", folder, "app", "--manifest", manifest)[1], b"# app\nneeds app.0.0.0\n")

    def test_faults(self):
        rows = [
            (entry("a", "1.0"), "line 1: `1.0` isn't a version"),
            (entry("a", "1.0.0") + "\n" + entry("a", "1.0.0"), "line 2: a 1.0.0 is listed already, in {} line 1"),
            (entry("a", "1.0.0") + "\n" + entry("a", "1.1.0")[:40], "line 2: isn't JSON: Expecting value"),
            ("\n" + entry("a b", "1.0.0"), "line 2: `a b` isn't the name of a crate"),
            (entry("a", "1.0.0", [("b", {"req": "1.x.2"})]), "line 1: `1.x.2` isn't a requirement"),
            (entry("a", "1.0.0", features={"x": ["y"]}), "line 1: feature `x` names `y`, which isn't there"),
            (entry("a", "1.0.0", features={"x": ["dep:y"]}), "line 1: feature `x` names `dep:y`, which isn't there"),
            (entry("a", "1.0.0", features={"x y": []}), "line 1: the name `x y` isn't one word of printable signs"),
            (entry("a", "1.0.0", yanked="yes"), "line 1: `yanked` isn't true or false"), (b'{"name": "\xff"}', "line 1: isn't UTF-8"),
            (entry("a", "1.0.0", [("b", {"req": 1})]), "line 1: `req` isn't a text"), ("[3]", "line 1: an object is due"),
        ]
        for text, reason in rows:
            path = self.write("index", text)
            self.assert_fault(f"{path}: {reason.format(path)}", "cargo", "catalogue", path, "--out", self.path("out"))
        path = self.write("index", entry("a", "1.0.0"))
        self.assert_fault(f"{path}: no package is named `b.1` (--closure)", "cargo", "catalogue", path, "--closure", "b.1")
        manifest = self.write("Cargo.toml", '[package]\nname = "app"\n[dependencies]\nabc = { path = "x" }\n')
        self.assert_fault(f"{manifest}: `abc` isn't a dependency of the index", "cargo", "catalogue", path, "--manifest", manifest)


if __name__ == "__main__":
    unittest.main()
