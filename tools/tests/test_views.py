"""Views: what each prints for reports kept as data, and that names and JSON lead back to the same bytes."""
import contextlib
import io
import json
import os
import re
import subprocess
import time
from html.parser import HTMLParser
from unittest import mock

from tools import texts
from tools.explain import step_sentences, tree_of
from tools.files import progress
from tools.forms import read_json, report_json
from tools.graph import MOST_NODES, conflict_graph, graph_svg
from tools.message import read_sentence, sentence_text
from tools.page import page
from tools.tests.base import FolderCase, bundle_of, data_bytes, data_path, run
from tools.view import use_colour

PAIRS = [
    ("app", "app", "app"), ("app", "conflict", "conflict"), ("locked", "locked", "locked"), ("wishes", "wishes", "wishes"),
    ("debian", "debian", "debian"), ("debian", "held", "held"),
]
WISHES = ("wishes.catalogue", "wishes.request", "wishes.report")
HELD = ("debian.catalogue", "held.request", "held.report")
DEBIAN = ("debian.catalogue", "debian.request", "debian.report")
MESSAGE = """The following packages are incompatible
└─ app * can be installed with any of the following options:
   └─ app 1.1-1 | 1.0-1 would require
      └─ libstdc++6 >= 12.2.0-14+deb12u1, which can be installed with any of the following options:
         └─ libstdc++6 12.2.0-14+deb12u1 | 13.1.0-2
├─ the constraint libstdc++6 11.3.0-1 cannot be fulfilled
├─ the constraint libstdc++6 11.3.0-1 cannot be fulfilled
"""
EXPLAIN = """The request is refused: no set of versions obeys all of these lines.

  request line 1: needs app
  request line 3: limits libstdc++6 11.3.0-1
  catalogue line 6, of app 1.0-1: needs libstdc++6 >= 12.2.0-14+deb12u1   [Depends: libstdc++6 (>= 12)]
  catalogue line 10, of app 1.1-1: needs libstdc++6 >= 12.2.0-14+deb12u1   [Depends: libstdc++6 (>= 12), libc6 (>= 2.36)]
"""
TREE = """request
└─ app 1.1-1   (request line 2: needs app)
   ├─ libstdc++6 13.1.0-2   (catalogue line 10: needs libstdc++6 >= 12.2.0-14+deb12u1)
   └─ libc6 2.36-9   (catalogue line 12: needs libc6 2.36-9)
"""
LEFT = """vim-keys 3, wished for by request line 3, is left out: it can't be installed beside editor 5.
  By catalogue line 8 (limits editor 2..5): if vim-keys 3 is installed, editor 5 can't be installed.
old-theme 1, wished for by request line 4, is left out: no set that keeps the rules holds it.
  By catalogue line 10: old-theme 1 can't be installed, since what it needs isn't known (nometa).
"""
# One refused report with each kind of step, over a catalogue that has a line for each.
KINDS = (
    b"version p 1\nneeds c 1..3 | d\nlimits c 9\nversion c 1\nversion c 2\nunknown later\nversion d 1\nversion d 2\n"
    b"needs p if c 1 and d or c 2\nlock d 1\nexclude d 1 old\n",
    b"needs p\nlimits c 1\n",
    b"refused\ncatalogue line 2\ncatalogue line 3\ncatalogue line 6\ncatalogue line 9\ncatalogue line 10\ncatalogue line 11\n"
    b"request line 1\nrequest line 2\nstep 1 need request line 1 case 1\nstep 2 gate p=1 line 2\nstep 3 shared c 1..3 | d\n"
    b"step 4 limit p=1 line 3\nstep 5 outside c 9 holds c=1\nstep 6 limit request line 2 bars c=2\nstep 7 lock line 10 bars d=2\n"
    b"step 8 exclude line 11\nstep 9 unknown line 6\nstep 10 any c=1\nstep 11 digit c=1 place 1 bit 0\nstep 12 digit c=2 place 2 bit 1\n"
    b"step 13 need d=2 line 9 case 1\nstep 14 derive [not any c; bit 0 of c; c=1; not outside c 9; shared c 1..3 | d] by 1\n"
    b"step 15 limit request line 2\nstep 16 outside c 1 holds c=2\nstep 17 derive [] by 1 2 4 5 6 7 8 3\n",
)
KINDS = (KINDS[0], KINDS[1], KINDS[2].replace(b"[not any c; bit 0 of c; c=1; not outside c 9; shared c 1..3 | d]", b"[bit 0 of c; c=1; not any c; not outside c 9; shared c 1..3 | d]"))


# One with a step and literals over a marked package.
MARKED = (
    b"many c\nversion c 1\nversion c 2\nversion x 1\nexclude x 1 broken\n", b"needs c 2\nneeds c 1\nneeds x if c 1\n",
    b"refused\ncatalogue line 5\nrequest line 2\nrequest line 3\nstep 1 need request line 2 case 1\nstep 2 matches c 1 holds c=1\n"
    b"step 3 need request line 3 case 1\nstep 4 exclude line 5\nstep 5 derive [not matches c 1] by 4 3\nstep 6 derive [] by 1 2 5\n",
)


class Loads(HTMLParser):
    """What a page would load or run."""

    def __init__(self):
        super().__init__()
        self.tags, self.bad, self.text = [], [], []

    def handle_starttag(self, tag, attributes):
        self.tags.append(tag)
        for name, value in attributes:
            if name in ("src", "srcset", "action", "data", "poster", "style") or name.startswith("on") or name == "xlink:href":
                self.bad.append((tag, name, value))
            if name == "href" and not re.fullmatch(r"#step-[0-9]+", value):
                self.bad.append((tag, name, value))

    def handle_data(self, data):
        self.text.append(data)


def loads(data):
    """A page's tags, what it would load, and its text."""
    parser = Loads()
    parser.feed(data.decode())
    styles = re.findall("<style>(.*?)</style>", data.decode(), re.S)
    bad = parser.bad + [style for style in styles if "@import" in style or "url(" in style]
    return parser.tags, bad, "".join(parser.text)


class Views(FolderCase):
    def view(self, name, files, *options):
        status, out, error = run("view", name, *map(data_path, files), *options)
        self.assertEqual((status, error), (0, ""))
        return out.decode()

    def test_message(self):
        self.assertEqual(self.view("message", HELD), MESSAGE)
        plain = "".join(line[2:] + "\n" for line in data_bytes("conflict.report").decode().splitlines() if line.startswith("| "))
        self.assertEqual(self.view("message", ("app.catalogue", "conflict.request", "conflict.report")), plain)

    def test_colour(self):
        shown = self.view("message", HELD, "--color", "always")
        self.assertEqual(re.sub("\x1b\\[[0-9]*m", "", shown), MESSAGE)
        self.assertIn("\x1b[31m├─ the constraint libstdc++6 11.3.0-1 cannot be fulfilled\x1b[0m\n", shown)
        self.assertNotIn("\x1b", self.view("message", HELD))

    def test_a_hostile_line_can_not_drive_the_terminal(self):
        request = self.write("r", b"needs app\n# \x1b[2J\xff\n")
        report = self.write("x", "install\napp=2 for request line 2\n")
        for command in (["view", "tree"], ["check"]):
            error = run(*command, data_path("app.catalogue"), request, report)[2]
            self.assertRegex(error, "^tools: [^\n]*: line 2: line 2 of the request [^\n]*`#[^\n]*`\n$")
            self.assertTrue(error.isascii() and "\x1b" not in error, error)
        index = self.write("index.json", '[{"name": "a", "version": "1", "requires_dist": ["b (\\u001b[2J\\n"]}]\n')
        status, _, error = run("pypi", "catalogue", index)
        self.assertEqual((status, error.count("\n"), "\x1b" in error), (2, 1, False), error)
        self.assertIn("\\x1b[2J", error)

    def test_a_hostile_message_can_not_drive_the_terminal(self):
        report = data_bytes("conflict.report") + b"| \x1b[2J\xff\xe2\x80\xae\n"
        files = (data_path("app.catalogue"), data_path("conflict.request"), self.write("x.report", report))
        out = run("view", "message", *files)[1]
        self.assertTrue(out.endswith(b"\\x1b[2J\\udcff\\u202e\n"), out)

    def test_a_refusal_without_a_message(self):
        report = b"".join(line + b"\n" for line in data_bytes("conflict.report").splitlines() if not line.startswith(b"| "))
        out = run("view", "message", data_path("app.catalogue"), data_path("conflict.request"), self.write("x.report", report))[1]
        self.assertIn(b"request line 4: needs http 1..4\n", out)

    def test_explain(self):
        self.assertEqual(self.view("explain", HELD), EXPLAIN)
        whole = self.view("explain", HELD, "--steps")
        self.assertTrue(whole.startswith(EXPLAIN))
        self.assertIn("\n  1. By request line 1 (needs app): one of app 1.0-1, app 1.1-1 is needed.\n", whole)
        self.assertTrue(whole.endswith(": no set of versions obeys all the named lines.\n"))

    def test_every_kind_of_step_has_a_sentence(self):
        bundle = bundle_of(*KINDS)
        self.assertEqual(len({type(step) for step in bundle.report.steps}), 12)
        files = [self.write(name, data) for name, data in zip(("c", "r", "p"), KINDS)]
        lines = run("view", "explain", *files, "--steps")[1].decode().splitlines()[13:]
        self.assertEqual([line.split(". ")[0].strip() for line in lines], [str(n) for n in range(1, 18)])
        self.assertIn("  13. By catalogue line 9 (needs p if c 1 and d or c 2): if d 2 is installed, p 1 is needed where c 1 and d are there.", lines)
        self.assertIn("  14. From 1: bit 0 of c is 1 or c 1 or no version of c or no version outside c 9 or a match of c 1..3 | d.", lines)

    def test_a_marked_package(self):
        bundle = bundle_of(*MARKED)
        self.assertEqual(step_sentences(bundle)[1:5:3], ["2. c 1 matches c 1.", "5. From 4 and 3: no match of c 1."])
        self.assertEqual(read_json(report_json(bundle.report), "x"), bundle.report)
        self.assertEqual({node.label for node in conflict_graph(bundle).nodes}, {"the request", "c 1", "x 1", "line 5: exclude x 1 broken"})
        with self.assertRaises(texts.Fault) as raised:
            bundle_of(*MARKED[:2], MARKED[2].replace(b"c 1 holds c=1", b"c 3 holds c=3"))
        self.assertEqual(raised.exception.line, 6)

    def test_tree_and_why(self):
        self.assertEqual(self.view("tree", DEBIAN), TREE)
        self.assertEqual(self.view("why", DEBIAN, "libstdc++6"), (
            "libstdc++6 13.1.0-2, for catalogue line 10, of app 1.1-1: needs libstdc++6 >= 12.2.0-14+deb12u1"
            "   [Depends: libstdc++6 (>= 12), libc6 (>= 2.36)]\napp 1.1-1, for request line 2: needs app\n"))
        self.assertEqual(self.view("why", DEBIAN, "libstdc_p_p6"), self.view("why", DEBIAN, "libstdc++6"))
        self.assertTrue(self.view("why", DEBIAN, "doc").startswith("doc 1.0-1, wished for by request line 3, is left out"))
        report = data_path("debian.report")
        self.assert_fault(f"{report}: none isn't installed", "view", "why", *map(data_path, DEBIAN), "none", status=1)

    def test_each_entry_is_once_in_the_tree(self):
        for pair in PAIRS:
            report = texts.read_report(data_bytes(f"{pair[2]}.report"))
            if isinstance(report, texts.Install):
                stack, found = tree_of(report).below[:], []
                while stack:
                    branch = stack.pop()
                    found.append(branch.answer)
                    stack += branch.below
                self.assertCountEqual(found, report.entries)

    def test_a_long_chain(self):
        count = 1200
        catalogue = "".join(f"version p{n} 1\nneeds p{n + 1}\n" for n in range(count)) + f"version p{count} 1\n"
        report = "install\np0=1 for request line 1\n" + "".join(f"p{n + 1}=1 for p{n}=1 line {2 * n + 2}\n" for n in range(count))
        bundle = bundle_of(catalogue.encode(), b"needs p0\n", report.encode())
        self.assertEqual(loads(page(bundle))[1], [])
        files = [self.write(name, data) for name, data in zip("crp", (catalogue, "needs p0\n", report))]
        self.assertEqual(run("view", "tree", *files)[1].count(b"\n"), count + 2)

    def test_left(self):
        self.assertEqual(self.view("left", WISHES), LEFT)
        self.assertEqual(self.view("left", ("app.catalogue", "app.request", "app.report")), "No wish was left out.\n")

    def test_views_of_the_other_kind_are_a_no(self):
        held, app = data_path("held.report"), data_path("app.report")
        for name in ("tree", "left"):
            wanted = f"{held}: it is a refusal, and nothing is installed (`view message` says why)"
            self.assert_fault(wanted, "view", name, *map(data_path, HELD), status=1)
        wanted = f"{app}: it is an install report, which has no message"
        self.assert_fault(wanted, "view", "message", *map(data_path, ("app.catalogue", "app.request", "app.report")), status=1)

    # -- there and back

    def test_names(self):
        shown = self.view("names", HELD)
        self.assertIn("step 2 limit request line 3 bars libstdc++6=12.2.0-14+deb12u1\n", shown)
        self.assertIn("| └─ app * can be installed", shown)
        self.assertIn("|       └─ libstdc++6 12.2.0-14+deb12u1..#4294967295, which", shown)

    def test_names_and_json_lead_back(self):
        for catalogue, request, report in PAIRS:
            files = (f"{catalogue}.catalogue", f"{request}.request", f"{report}.report")
            names = self.write("names", self.view("names", files))
            self.assertEqual(run("view", "names", data_path(files[0]), "--back", names), (0, data_bytes(files[2]), ""))
            form = self.write("json", self.view("json", files))
            self.assertEqual(run("view", "json", "--back", form), (0, data_bytes(files[2]), ""))

    def test_json(self):
        form = json.loads(self.view("json", DEBIAN))
        self.assertEqual((form["format"], form["verdict"]), ("resolve report 1", "install"))
        self.assertEqual(form["answers"][1], {
            "kind": "entry", "version": {"name": "libstdc_p_p6", "number": 3, "real": "libstdc++6", "text": "13.1.0-2"},
            "place": {"name": "app", "number": 2, "real": "app", "text": "1.1-1"}, "line": 10})
        self.assertEqual(form["answers"][3]["kind"], "left out")

    def test_json_of_every_kind_and_of_stray_bytes(self):
        report = texts.read_report(KINDS[2] + b"| \xff\x00\n| \n")
        self.assertEqual(read_json(report_json(report), "x"), report)

    def test_faulty_json(self):
        whole = self.view("json", WISHES)
        for old, new, reason in [
            ("", "\ufeff", "line 1: isn't JSON: Unexpected UTF-8 BOM (decode using utf-8-sig)"), ("}\n", "", "line 17: isn't JSON: "),
            ('"answers": [', '"answers": [,', "line 4: isn't JSON: "), ('"resolve report 1"', '"resolve report 2"', 'format: "resolve report 1" is due'),
            ('"install"', '"maybe"', 'verdict: "install" or "refused" is due'), ('"line": 1}', '"line": "1"}', "answers[0].line: a whole number is due"),
            ('"line": 1}', '"line": true}', "answers[0].line: a whole number is due"), ('"line": 1}', '"line": 0}', "line 2 of its report: lines are numbered from 1"),
            ('"kind": "wished"', '"kind": "wish"', "answers[1].kind: one of entry, wished, left out is due"), ('"steps"', '"step"', "the top: an object with `steps` is due"),
            ('"name": "spell"', '"name": "a b"', "line 3 of its report: "), ('"name": "spell"', '"name": 3', "answers[1].version.name: a text is due"),
            ('"positive": false', '"positive": 0', "steps[1].literals[0].positive: true or false is due"),
            ('"causes": [1]', '"causes": {}', "steps[1].causes: a list is due"), ('"name": "spell"', '"name": "a\\n"', "line 3 of its report: "),
        ]:
            text = whole[:-2] if not new and old else whole.replace(old, new, 1) if old else new + whole
            path = self.write("bad.json", text)
            status, out, error = run("view", "json", "--back", path)
            self.assertEqual((status, out), (2, b""), new)
            self.assertTrue(error.startswith(f"tools: {path}: {reason}"), error)
        path = self.write("bad.json", b'{\n"a": "\xff"}')
        self.assert_fault(f"{path}: line 2: isn't UTF-8", "view", "json", "--back", path)

    def test_sentences_of_the_message(self):
        lines = [line[2:] for name in ("held", "conflict") for line in data_bytes(f"{name}.report").decode().splitlines() if line.startswith("| ")]
        lines += ["No candidates were found for w *.", "└─ b * | c 3 cannot be installed because there are no viable options:", "└─ a 1 is excluded because old",
                  "      ├─ b 1..3, which conflicts with any installable versions previously reported", "   └─ c 9, for which no candidates were found.",
                  "├─ a 1 is locked, but another version is required as reported above", "└─ a 2 | 1 would constrain"]
        for line in lines:
            self.assertEqual(sentence_text(read_sentence(line), texts.PLAIN), line)
        for line in ("", "a", "a b", "a 1 is excluded because if", "because", "a 01", "├─ ", "a 1..1 would require", "a | b would require"):
            with self.assertRaises(texts.Bad, msg=line):
                read_sentence(line)

    # -- the page

    def test_the_page_loads_nothing(self):
        for catalogue, request, report in PAIRS:
            data = self.view("html", (f"{catalogue}.catalogue", f"{request}.request", f"{report}.report")).encode()
            tags, bad, _ = loads(data)
            self.assertEqual(bad, [])
            self.assertFalse({"script", "link", "img", "iframe", "object", "embed", "form", "base"} & set(tags))
            self.assertIn("details", tags)

    def test_the_page_escapes_every_word(self):
        evil = "<script>alert(1)</script>"
        head = f"#@ 1 x y z\n#p app {evil}\nversion app 1\n#v \"'&<b>\n#s <img src=x onerror=alert(2)>\nneeds http\nversion http 1\nexclude http 1 old\n".encode()
        report = f"refused\ncatalogue line 6\ncatalogue line 8\nrequest line 1\nstep 1 need request line 1 case 1\nstep 2 exclude line 8\nstep 3 need app=1 line 6 case 1\nstep 4 derive [] by 1 2 3\n| {evil}\n| app 1 would require\n".encode()
        data = page(bundle_of(head, b"needs app\n", report))
        tags, bad, text = loads(data)
        self.assertEqual(bad, [])
        self.assertFalse({"script", "img", "b"} & set(tags))
        self.assertIn(evil + " \"'&<b> would require", text)
        self.assertIn("<img src=x onerror=alert(2)>", text)
        self.assertNotIn(b"<script", data)

    def test_the_graph(self):
        graph = conflict_graph(bundle_of(*(data_bytes(name) for name in HELD)))
        self.assertEqual([node.label for node in graph.nodes], ["the request", "app 1.0-1, 1.1-1", "libstdc++6 12.2.0-14+deb12u1, 13.1.0-2"])
        self.assertEqual([edge.kind for edge in graph.edges], ["needs", "bars", "needs"])
        labels = {node.label for node in conflict_graph(bundle_of(*KINDS)).nodes}
        self.assertTrue({"line 10: lock d 1", "line 11: exclude d 1 old", "line 6: unknown later"} <= labels)

    def test_a_big_graph_is_cut(self):
        count = 2 * MOST_NODES
        catalogue = "version a 1\n" + "".join(f"needs p{n}\n" for n in range(count)) + "".join(f"version p{n} 1\n" for n in range(count))
        steps = "".join(f"step {n + 1} need a=1 line {n + 2} case 1\n" for n in range(count))
        bundle = bundle_of(catalogue.encode(), b"", f"refused\ncatalogue line 2\n{steps}".encode())
        graph = conflict_graph(bundle)
        self.assertEqual((len(graph.nodes), graph.left), (MOST_NODES, count + 2 - MOST_NODES))
        self.assertEqual(graph_svg(graph).count("<rect"), MOST_NODES)
        self.assertIn(f"{graph.left} more nodes", page(bundle).decode())


class Front(FolderCase):
    def test_faults_name_file_and_line(self):
        good = {name: data_bytes(f"app.{name}") for name in ("catalogue", "request", "report")}
        for name, data, line in [
            ("catalogue", b"version a 1\r\n", 1), ("catalogue", good["catalogue"] + b"needs\n", 8), ("catalogue", good["catalogue"].decode().encode("utf-16"), 1),
            ("request", b"needs app\nwish none 1\n", 2), ("request", good["request"][:9].replace(b" ", b"  "), 1), ("report", good["report"][:-1], 4),
            ("report", good["report"].replace(b"\n", b"\r\n"), 1), ("report", b"", 1), ("report", good["report"].decode().encode("utf-16"), 1),
            ("report", data_bytes("wishes.report"), 2), ("report", data_bytes("conflict.report"), 3), ("report", good["report"].replace(b"line 3", b"line 4"), 4),
            ("report", data_bytes("debian.report"), 2), ("catalogue", data_bytes("debian.catalogue").replace(b"#v 1.1-1", b"#v 1.0-1"), 8),
        ]:
            paths = [self.write(each, data if each == name else good[each]) for each in good]
            for view in ("explain", "html", "json", "names"):
                out = self.path("out")
                status, printed, error = run("view", view, *paths, "--out", out)
                self.assertEqual((status, printed), (2, b""), (name, data[:40]))
                self.assertRegex(error, f"^tools: {re.escape(self.path(name))}: line {line}: [^\n]+\n$")
                self.assertFalse(os.path.exists(out))

    def test_check_gives_the_reason_of_a_fault(self):
        good = [data_path(f"app.{name}") for name in ("catalogue", "request", "report")]
        for count in (1, 2, 3):
            self.assertEqual(run("check", *good[:count]), (0, b"no fault\n", ""))
        catalogue, request = self.write("c", "version a 1\nneeds b 2..2\n"), self.write("r", "needs app\nwish none 1\n")
        self.assert_fault(f"{catalogue}: line 2: `2..2` is an empty span", "check", catalogue)
        self.assert_fault(f"{catalogue}: line 2: `2..2` is an empty span", "check", catalogue, request)
        self.assertRegex(run("check", good[0], request)[2], f"^tools: {re.escape(request)}: line 2: [^\n]+\n$")
        report = self.write("x", "install\napp=2 for request line 1\n")
        no = f"tools: {report}: line 3: the entries don't obey line 2 of the request: `needs http 3..4`\n"
        self.assertEqual(run("check", *good[:2], report), (1, b"", no))
        self.assert_fault(f"{self.path('none')}: can't be read: No such file or directory", "check", self.path("none"))

    def test_a_report_for_another_catalogue(self):
        other = data_path("app.catalogue"), data_path("app.request"), data_path("wishes.report")
        self.assert_fault(f"{other[2]}: line 2: the catalogue doesn't list editor=5", "view", "explain", *other)
        for report, line, reason in [
            ("install\napp=2 for app=1 line 2\n", 2, "line 2 of the catalogue says something else: `version app 1`"),
            ("install\napp=2 for request line 9\n", 2, "the request has no line 9"),
            ("refused\ncatalogue line 1\nstep 1 any app=1\n", 2, "line 1 of the catalogue says something else: `# A small app and its libraries.`"),
            ("install\napp=2 for request line 1\nstep 1 any app=3\n", 3, "the catalogue doesn't list app=3"),
            ("refused\nstep 1 derive [] by 1\n", 2, "there is no step 1 above it"), ("refused\nstep 1 any app=1\nstep 2 derive [http=9] by 1\n", 3, "the catalogue doesn't list http=9"),
        ]:
            path = self.write("x.report", report)
            self.assert_fault(f"{path}: line {line}: {reason}", "view", "html", *other[:2], path)

    def test_files_that_can_not_be_read_or_written(self):
        none = self.path("none")
        self.assert_fault(f"{none}: can't be read: No such file or directory", "view", "tree", none, none, none)
        files = [data_path(f"app.{name}") for name in ("catalogue", "request", "report")]
        out = os.path.join(none, "out")
        self.assert_fault(f"{out}: can't be written: No such file or directory", "view", "tree", *files, "--out", out)
        self.assertEqual(run("view", "tree", *files, "--out", self.folder)[0], 2)
        self.assertEqual(os.listdir(self.folder), [])

    def test_out_replaces_a_file_as_a_whole(self):
        files = [data_path(f"app.{name}") for name in ("catalogue", "request", "report")]
        out = self.write("out", "old")
        self.assertEqual(run("view", "tree", *files, "--out", out), (0, b"", ""))
        with open(out, "rb") as source:
            self.assertEqual(source.read(), run("view", "tree", *files)[1])
        self.assertEqual(os.listdir(self.folder), ["out"])

    def test_a_slow_step_is_told(self):
        error = io.StringIO()
        with mock.patch("tools.files.SLOW", 0.01), contextlib.redirect_stderr(error):
            with progress("reading x"):
                time.sleep(0.2)
            with mock.patch("tools.files.SLOW", 60), progress("reading y"):
                pass
        self.assertEqual(error.getvalue(), "tools: reading x ..\n")

    def test_colours_on_a_terminal_alone(self):
        for is_terminal, environment, choice, wanted in [
            (True, {"TERM": "xterm"}, "auto", True), (False, {"TERM": "xterm"}, "auto", False), (True, {"TERM": "xterm", "NO_COLOR": "1"}, "auto", False),
            (True, {"TERM": "dumb"}, "auto", False), (False, {}, "always", True), (True, {"TERM": "xterm"}, "never", False),
        ]:
            with mock.patch.dict(os.environ, environment, clear=True), mock.patch("sys.stdout") as out:
                out.isatty.return_value = is_terminal
                self.assertEqual(use_colour(choice), wanted)

    def test_the_front_runs_from_anywhere(self):
        top = os.path.join(os.path.dirname(data_path("pairs.json")), "..", "..", "..")
        link = self.path("tool")
        os.symlink(os.path.abspath(os.path.join(top, "tools", "resolve-tools")), link)
        done = subprocess.run([link, "view", "tree", *map(os.path.abspath, map(data_path, DEBIAN))], cwd=self.folder, capture_output=True)
        self.assertEqual((done.returncode, done.stdout.decode(), done.stderr), (0, TREE, b""))

    def test_command_lines(self):
        self.assertEqual(run("--help")[0], 0)
        self.assertIn(b"lock write", run("--help")[1])
        self.assertIn(b"--frozen", run("lock", "lines", "--help")[1])
        for wrong in ([], ["lock"], ["view", "none"], ["lock", "lines", "a", "b"], ["lock", "lines", "--frozen", "--keep", "a", "b"]):
            self.assertEqual(run(*wrong)[:2], (2, b""))
        self.assert_fault("view names: CATALOGUE, REQUEST and REPORT are due", "view", "names", data_path("app.catalogue"))
