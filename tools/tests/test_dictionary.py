"""Dictionaries: their lines, their faults, and real names that lead back to the same bytes."""
import unittest

from tools import texts
from tools.dictionary import RealSpelling, escape
from tools.message import plain_text, real_text
from tools.tests.base import data_bytes

HEAD = "#@ 1 debian amd64 sha256:00\n"
# Lines below HEAD, of which the last is faulty.
FAULTS = [
    "#p", "#p a", "#p a ", "#p a b=c", "#p a b c", "#p -a b", "#p if b", "#p a b\n#p a c", "#p a c\n#p b c", "#p a #b", "#p a |",
    "#v 1", "version a 1\n#v", "version a 1\n#v 1 2", "version a 1\n#v 1\n#v 2", "version a 1\n#v #1", "version a 1\n#v |",
    "version a 1\n#v 1\nversion a 2\n#v 1", "#s", "#s ", "#s a\x1b[31m", "version a 1\n#v 1\r", "#p a \udcff", "#p a b\u202e",
]


def spelling_of(text):
    return RealSpelling(texts.read_dictionary(texts.read_catalogue(text.encode())))


class Dictionaries(unittest.TestCase):
    def test_lines(self):
        dictionary = texts.read_dictionary(texts.read_catalogue(data_bytes("debian.catalogue")))
        self.assertEqual((dictionary.ecosystem, dictionary.settings), ("debian", "amd64"))
        self.assertEqual(dictionary.name("libstdc_p_p6"), "libstdc++6")
        self.assertEqual(dictionary.name("app"), "app")
        self.assertEqual(dictionary.version(texts.Version("app", 2)), "1.1-1")
        self.assertEqual(dictionary.version(texts.Version("app", 9)), "9")
        self.assertEqual(dictionary.sources[16], "Breaks: app (>= 1.1)")

    def test_none_without_a_head(self):
        for text in (b"", b"version a 1\n#v 1\n", b"# a comment\n#@ 1 a b c\n", b"#@ 2 a b c\n", b"#@\n"):
            self.assertIsNone(texts.read_dictionary(texts.read_catalogue(text)))

    def test_faults(self):
        for text in ["#@ 1 debian amd64", "#@ 1 debian amd64 x y", "#@ 1 debian  x"] + [HEAD + text for text in FAULTS]:
            with self.assertRaises(texts.Fault, msg=text) as raised:
                texts.read_dictionary(texts.read_catalogue(text.encode("utf-8", "surrogateescape")))
            self.assertEqual((raised.exception.text, raised.exception.line), ("catalogue", text.count("\n") + 1), text)

    def test_lines_with_a_dictionary_are_read_back(self):
        catalogue = texts.read_catalogue(data_bytes("debian.catalogue"))
        bare = [line for line in catalogue.lines if not isinstance(line, texts.SkippedLine)]
        whole = texts.read_dictionary(catalogue)
        number = {line: at for at, line in enumerate(bare, 1)}
        sources = {number[catalogue.lines[at - 1]]: text for at, text in whole.sources.items()}
        made = texts.Dictionary(whole.ecosystem, whole.settings, whole.source, whole.names, whole.versions, sources)
        again = texts.Catalogue(made.lines(tuple(bare)))
        self.assertEqual(texts.read_dictionary(again).versions, whole.versions)
        self.assertEqual(texts.read_dictionary(again).names, whole.names)

    def test_each_real_name_has_a_name_of_its_own(self):
        reals = ["libstdc++6", "libstdc_p_p6", "a_p", "a+", "if", "_wif", "@types/node", "é", "a b", "_", "-a", ".a", "a-b.c", "_x40_", "@"]
        names = [escape(real) for real in reals]
        self.assertEqual(len(set(names)), len(reals))
        for name in names:
            self.assertEqual(texts.PLAIN.name(name), name)
        self.assertEqual(escape("libstdc++6"), "libstdc_p_p6")

    def test_real_names_lead_back(self):
        text = HEAD + "#p a b\n#p c <script>\nversion a 1\n#v 1..2\nversion a 2\n#v holds\nversion a 3\n#v 7\nversion b 1\nversion c 1\n#v 3\n"
        spelling = spelling_of(text)
        shown = {
            "a=1": "b=#1", "a=2": "b=#2", "a=3": "b=7", "a=7": "b=#7", "b=1": "#b=1", "c=1": "<script>=3", "c=3": "<script>=#3", "d=4": "d=4",
        }
        for plain, real in shown.items():
            version = texts.Words(plain).version()
            self.assertEqual(texts.version_text(version, spelling), real)
            self.assertEqual(texts.Words(real, spelling).version(), version)
        for wrong in ("a=1", "c=1", "b=#3", "b=8", "#c=1", "#d=4", "d=#4"):
            with self.assertRaises(texts.Bad, msg=wrong):
                texts.Words(wrong, spelling).version()

    def test_a_message_that_looks_like_real_names_keeps_its_bytes(self):
        spelling = spelling_of(HEAD + "#p a b\nversion a 1\n#v x\nversion b 1\n")
        for line in ("a 1", "b x", "b 1", "#b 1", "a 2 | 1 would require", "b x would require", "a * | b 1..3 cannot be installed because there are no viable options:", "# b x", "", "├─ a 1 is excluded because old", "\udcff"):
            report = texts.Refused((), (), (texts.AnyStep(texts.Version("a", 1)),), (line, "a 1"))
            real = real_text(report, spelling)
            self.assertEqual(plain_text(real, spelling), report, line)
