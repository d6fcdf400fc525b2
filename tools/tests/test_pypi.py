"""PyPI: what a requirement becomes, and what is refused, each at its file and line."""
import io
import json
import unittest
import zipfile

from tools import texts
from tools.tests.base import FolderCase, run

INDEX = [
    {"name": "App_One", "version": "1.0", "requires_dist": ["lib>=1,!=1.1", "more[z]; extra=='Q'"], "yanked": False},
    {"name": "lib", "version": "1.10"}, {"name": "lib", "version": "1.9", "yanked": "broken"}, {"name": "lib", "version": "1.1"},
    {"name": "lib", "version": "2.0rc1"}, {"name": "more", "version": "1", "keywords": ["unknown", "field"]},
    {"name": "old", "version": "1", "requires_python": "<3"}, {"name": "old", "version": "2a1"},
]
ENVIRONMENT = {"python_full_version": "3.11.7", "python_version": "3.11", "sys_platform": "linux", "platform_machine": "x86_64"}


class Pypi(FolderCase):
    def setUp(self):
        super().setUp()
        self.environment = self.write("environment", json.dumps(ENVIRONMENT))

    def catalogue(self, entries, *options):
        index = self.write("index", json.dumps(entries))
        status, out, error = run("pypi", "catalogue", index, "--environment", self.environment, *options)
        self.assertEqual((status, error), (0, ""))
        texts.read_dictionary(texts.read_catalogue(out))
        return out.decode().split("\n", 1)[1]

    def request(self, entries, *options):
        index = self.write("index", json.dumps(entries))
        status, out, error = run("pypi", "request", index, "--environment", self.environment, *options)
        self.assertEqual((status, error), (0, ""))
        return out.decode()

    def test_runs_extras_and_yanked(self):
        wanted = (
            "#p app-one_x5b_q_x5d_ app-one[q]\n"
            "version app-one 1\n#v 1.0\nneeds lib 2..4\n"
            "version app-one_x5b_q_x5d_ 1\n#v 1.0\nneeds app-one\nneeds more\n"
            "version lib 1\n#v 1.1\nversion lib 2\n#v 1.9\nexclude lib 2 yanked\nversion lib 3\n#v 1.10\nversion lib 4\n#v 2.0rc1\n"
            "version more 1\n#v 1\n"
        )
        self.assertEqual(self.catalogue(INDEX, "--closure", "App.One[q]"), wanted)
        self.assertEqual(self.catalogue(INDEX, "--closure", "more"), "version more 1\n#v 1\n")

    def test_requests(self):
        rows = {
            "lib": "needs lib 1..4", "lib!=1.9": "needs lib 3 | lib 1", "lib>=2": "needs lib 0", "lib>=2.0a1": "needs lib 4",
            "LIB==1.*": "needs lib 1..4", "old": "needs old", "old>=1": "needs old 1", "none>1": "needs none", "more[z]": "needs more",
            "lib ; python_version < '3'": "# lib ; python_version < '3': its marker doesn't hold",
        }
        for text, line in rows.items():
            self.assertEqual(self.request(INDEX, text).strip().split("\n")[-1], line, text)
        self.assertEqual(self.request(INDEX, "lib>1.9", "--pre", "lib").split("\n")[1], "needs lib 3..5")
        limits = self.request(INDEX, "more", "--constraint", "lib!=1.9").split("\n")[3]
        self.assertEqual(limits, "needs lib 3 | lib 1 if lib")
        self.assertEqual(self.request(INDEX, "more", "--constraint", "lib>3").split("\n")[3], "limits lib 0")
        self.assertEqual(self.request(INDEX, "more", "--constraint", "lib<1.9").split("\n")[3], "limits lib 1")

    def test_a_cycle_and_an_address(self):
        entries = [{"name": "a", "version": "1", "requires_dist": ["b"]}, {"name": "b", "version": "1", "requires_dist": ["a"]}]
        self.assertEqual(self.catalogue(entries), "version a 1\n#v 1\nneeds b\nversion b 1\n#v 1\nneeds a\n")
        url = [{"name": "a", "version": "1", "requires_dist": ["b @ https://example.org/b.whl"]}]
        self.assertEqual(self.catalogue(url), "version a 1\n#v 1\nunknown url\n")

    def test_unknown_fields_are_passed_over(self):
        entries = [{"name": "a", "version": "1", "new": {"x": ["y"]}, "size": 3}]
        self.assertEqual(self.catalogue(entries), "version a 1\n#v 1\n")

    def test_a_folder_of_metadata(self):
        self.write("a.metadata", "Name: a\nVersion: 1\nProvides-Extra: x\nRequires-Dist: b; extra == 'x'\nOther: kept\n more\n\nText\n")
        data = io.BytesIO()
        with zipfile.ZipFile(data, "w") as wheel:
            wheel.writestr("b-2.dist-info/METADATA", "Name: b\nVersion: 2\n\n")
        self.write("b-2-py3-none-any.whl", data.getvalue())
        status, out, error = run("pypi", "catalogue", self.folder)
        self.assertEqual((status, error), (0, ""))
        self.assertIn(b"version a 1\n#v 1\nversion a_x5b_x_x5d_ 1\n#v 1\nneeds a\nneeds b\nversion b 1\n#v 2\n", out)

    def test_faults_of_json(self):
        rows = [
            ('[{"name": "a",\n "version": "x.y"}]', "line 1: `x.y` isn't a version by PEP 440"),
            ('[{"name": "a", "version": "1"},\n\n{"name": "a", "version": "1.0"}]', "line 3: a 1.0 is listed already, in {} line 1"),
            ('{"name": "a", "version": "1"}\n{"name": "a"}', "line 2: `version` is missing"),
            ('[{"name": "a", "version": "1"},\n', "line 2: ends where a value is due"),
            ('[{"name": "a", "version": "1"}', "line 1: ends where `,` is due"),
            ('{"name": "a b", "version": "1"}', "line 1: `a b` isn't a name by PEP 508"),
            ('[\n{"name": "a", "ver', "line 2: isn't JSON: Unterminated string starting at"),
            ('[{"name": "a",\n"version": 1}]', "line 1: `version` isn't a text"),
            ('\n[3]', "line 2: an object is due"),
            ('[] []', "line 1: more follows behind the value"),
            (b'\n[{"name": "\xff"}]', "line 2: isn't UTF-8"),
            ('[{"name":"a","version":"1",\n"requires_dist":["b =="]}]', "line 1: `b ==` isn't a specifier by PEP 440"),
            ('[{"name":"a","version":"1","requires_dist":["b >x.y"]}]', None),
            ('[{"name":"a","version":"1","requires_dist":[7]}]', "line 1: `requires_dist` isn't a list of texts"),
            ('[{"name":"a","version":"1","requires_python":"x"}]', "line 1: `x` isn't a specifier by PEP 440"),
            ('[{"name":"a","version":"1","yanked":3}]', "line 1: `yanked` isn't true, false or a text"),
        ]
        for text, reason in rows:
            index = self.write("index", text)
            if reason is None:
                self.assertEqual(run("pypi", "catalogue", index)[:2], (2, b""))
                continue
            self.assert_fault(f"{index}: {reason.format(index)}", "pypi", "catalogue", index, "--out", self.path("out"))

    def test_faults_of_metadata(self):
        rows = [
            (b"Name: a\n\n", "has no `Version`"), (b"Name: a\nVersion: 1\nRequires-Dist: b", "line 3: ends in the middle of a line"),
            (b"Name: a\nVersion: 1_x\n\n", "line 2: `1_x` isn't a version by PEP 440"), (b"Name: \xff\n\n", "line 1: isn't UTF-8"),
            (b"Name: a\nVersion: 1\nRequires-Dist: b; c\n\n", "line 3: `b; c` isn't a requirement by PEP 508"),
            (b"Name: a\nVersion\n\n", "line 2: isn't a header `NAME: TEXT`"),
        ]
        for data, reason in rows:
            path = self.write("a.metadata", data)
            self.assert_fault(f"{path}: {reason}", "pypi", "catalogue", self.folder)

    def test_other_faults(self):
        index = self.write("index", json.dumps(INDEX))
        self.assert_fault(f"{index}: no package is named `nosuch` (--closure)", "pypi", "catalogue", index, "--closure", "nosuch")
        self.assert_fault("--closure: `lib>1` isn't a name, or a name with one extra", "pypi", "catalogue", index, "--closure", "lib>1")
        self.assert_fault("REQUIREMENT: `lib ==` isn't a specifier by PEP 440", "pypi", "request", index, "lib ==")
        bad = self.write("bad", '{"python": "3"}')
        status, out, error = run("pypi", "catalogue", index, "--environment", bad)
        self.assertEqual((status, out), (2, b""))
        self.assertTrue(error.startswith(f"tools: {bad}: line 1: `python` is no variable of markers: "))


if __name__ == "__main__":
    unittest.main()
