"""apt's scenario: stanzas found without reading them; the order in which apt reads of packages; where its solver comes."""
import sys
import unittest

from tools.apt_scenario import read_scenario
from tools.apt_walk import Walk
from tools.mentions import Mentions

HEAD = "Request: EDSP 0.5\nArchitecture: amd64\nInstall: app\n\n"


def stanza(number, name, version, *fields):
    """A stanza as apt writes it."""
    lines = [f"Package: {name}", "Architecture: amd64", f"Version: {version}", f"APT-ID: {number}", *fields]
    return "\n".join(lines) + "\n\n"


def new(number, name, *fields):
    """A candidate that isn't installed."""
    return stanza(number, name, "1", "APT-Candidate: yes", *fields)


def old(number, name, *fields):
    """An installed version that is the candidate too."""
    return stanza(number, name, "1", "Installed: yes", "APT-Candidate: yes", *fields)


def scenario(*stanzas, head=HEAD):
    """The scenario of some stanzas."""
    return read_scenario([(head + "".join(stanzas)).encode()])


def taken(*stanzas, recommends=True, barred=()):
    """What the walk from `app` takes, in order."""
    found = scenario(*stanzas)
    walk = Walk(found, recommends, set(barred))
    walk.take(found.candidate("app"))
    return " ".join(f"{name}={listed.text}" for name, listed in walk.taken.items())


class Scenarios(unittest.TestCase):
    def names(self, found):
        return sorted(f"{name}={v.text}" for name in ("a", "b", "c", "d") for v in found.universe.package(name))

    def test_candidates_and_what_is_installed(self):
        text = old(1, "a") + stanza(2, "a", "2", "APT-Candidate: yes") + stanza(3, "b", "1") + new(4, "c")
        found = scenario(text)
        self.assertEqual((self.names(found), list(found.installed)), (["a=1", "a=2", "c=1"], ["a"]))
        found = scenario(text, head=HEAD.replace("\n\n", "\nStrict-Pinning: no\n\n"))
        self.assertEqual(self.names(found), ["a=1", "a=2", "b=1", "c=1"])
        found = scenario(text, head=HEAD.replace("\n\n", "\nForbid-New-Install: yes\n\n"))
        self.assertEqual(self.names(found), ["a=1", "a=2"])

    def test_stanzas_in_another_order_of_fields(self):
        usual = old(1, "a") + new(2, "b", "Provides: v (= 2), w") + new(4, "c", "Provides: w,", " x")
        for text in (usual, usual.replace("Package: b\nArchitecture: amd64", "Architecture: amd64\nPackage: b"), usual.replace("\n\n", "\n\n\n")):
            found = scenario(text, new(5, "d").replace("amd64", "i386"))
            self.assertEqual((self.names(found), list(found.installed)), (["a=1", "b=1", "c=1"], ["a"]))
            self.assertEqual({name: list(by) for name, by in found.universe.providers.items()}, {"v": ["b"], "w": ["b", "c"], "x": ["c"]})

    def test_the_line_of_a_stanza(self):
        found = scenario(new(1, "a"), new(2, "b"))
        self.assertEqual([found.universe.named(name)[0].line for name in "ab"], [5, 11])


class Order(unittest.TestCase):
    def last_first(self, names, *stanzas):
        return " ".join(Mentions(("\n\n" + "".join(stanzas)).encode(), {}).last_first(names.split()))

    def test_what_was_read_of_last_comes_first(self):
        self.assertEqual(self.last_first("a b c", new(1, "c"), new(2, "a"), new(3, "b")), "b a c")
        self.assertEqual(self.last_first("a b c", new(3, "c"), new(1, "a"), new(2, "b")), "c b a")
        self.assertEqual(self.last_first("a b c", new(9, "c"), new(8, "b"), new(7, "a"), new(1, "x", "Suggests: a, b | c")), "c b a")

    def test_fields_as_apt_reads_them(self):
        first = new(1, "x", "Depends: b", "Pre-Depends: a", "Breaks: d (<< 2)", "Conflicts: c", "Provides: f, e (= 1)")
        self.assertEqual(self.last_first("a b c d e f", first), "f e d c b a")

    def test_names_in_other_fields_and_parts_of_names_are_none(self):
        others = new(1, "x", "Source: b", "Section: a") + new(2, "b-a", "Depends: a-b, ab")
        self.assertEqual(self.last_first("a b", others, new(4, "a"), new(3, "b")), "a b")


class Walks(unittest.TestCase):
    def test_depth_first_and_needs_before_recommendations(self):
        text = new(1, "app", "Recommends: r", "Depends: a, b") + new(2, "a", "Depends: c", "Recommends: d")
        text += "".join(new(number, name) for number, name in enumerate("bcdr", 3))
        self.assertEqual(taken(text), "app=1 a=1 c=1 d=1 b=1 r=1")
        self.assertEqual(taken(text, recommends=False), "app=1 a=1 c=1 b=1")

    def test_an_alternative_that_is_there_is_enough(self):
        text = new(2, "a") + new(3, "b", "Provides: a")
        self.assertEqual(taken(new(1, "app", "Depends: a | b"), text), "app=1 a=1")
        self.assertEqual(taken(new(1, "app", "Depends: b, a | b"), text), "app=1 b=1")
        self.assertEqual(taken(new(1, "app", "Depends: a, b"), text), "app=1 a=1 b=1")
        self.assertEqual(taken(new(1, "app", "Depends: a | c"), text, old(9, "c")), "app=1")

    def test_installed_packages_come_before_new_ones(self):
        text = new(2, "a") + stanza(3, "b", "1", "Installed: yes") + stanza(4, "b", "2", "APT-Candidate: yes")
        self.assertEqual(taken(new(1, "app", "Depends: a | b (>= 2)"), text), "app=1 b=2")
        self.assertEqual(taken(new(1, "app", "Depends: a | b (>= 2)"), text.replace("Installed", "Hold: yes\nInstalled")), "app=1 a=1")

    def test_providers(self):
        app = new(1, "app", "Depends: v")
        self.assertEqual(taken(app, new(2, "v"), new(3, "a", "Provides: v", "Priority: required")), "app=1 v=1")
        self.assertEqual(taken(app, new(3, "a", "Provides: v"), new(2, "b", "Provides: v")), "app=1 a=1")
        self.assertEqual(taken(app, new(2, "a", "Provides: v"), new(3, "b", "Provides: v")), "app=1 b=1")
        two = new(2, "a", "Provides: v", "Priority: important"), new(3, "b", "Provides: v", "Priority: optional")
        self.assertEqual(taken(app, *two), "app=1 a=1")
        self.assertEqual(taken(app, *two, new(4, "c", "Provides: v")), "app=1 c=1")
        self.assertEqual(taken(app, *two, new(4, "c", "Provides: v", "Essential: yes", "Priority: extra")), "app=1 c=1")

    def test_what_cant_be_had_brings_nothing(self):
        text = new(2, "a", "Depends: c, nowhere") + new(3, "b") + new(4, "c")
        self.assertEqual(taken(new(1, "app", "Depends: a | b"), text), "app=1 b=1")
        self.assertEqual(taken(new(1, "app", "Recommends: a"), text), "app=1")
        self.assertEqual(taken(new(1, "app", "Depends: a"), text), "")
        self.assertEqual(taken(new(1, "app", "Depends: c | b"), text, barred=[("c", 1)]), "app=1 b=1")

    def test_packages_of_one_source_and_what_is_broken_are_upgraded(self):
        text = "".join(stanza(at, n, "1", "Installed: yes") + stanza(at + 1, n, "2", "Source: s", "APT-Candidate: yes") for at, n in ((2, "a"), (4, "b")))
        self.assertEqual(taken(new(1, "app", "Depends: a (>= 2)"), text), "app=1 a=2 b=2")
        self.assertEqual(taken(new(1, "app", "Breaks: a (<< 2)"), text.replace("Source: s\n", "")), "app=1 a=2")
        self.assertEqual(taken(new(1, "app", "Breaks: a"), text.replace("Source: s\n", "")), "app=1")

    def test_recommendations_of_an_upgrade(self):
        text = stanza(2, "a", "1", "Installed: yes", "Recommends: b, c") + old(4, "c") + new(5, "b") + new(6, "d") + new(7, "e")
        upgrade = stanza(3, "a", "2", "APT-Candidate: yes", "Recommends: b, c (>= 9) | e, d")
        app = new(1, "app", "Depends: a (>= 2)")
        self.assertEqual(taken(app, text, upgrade), "app=1 a=2 e=1 d=1")

    def test_a_long_chain_and_a_cycle(self):
        limit = sys.getrecursionlimit()
        sys.setrecursionlimit(10**6)
        try:
            chain = [new(at, f"p{at}", f"Depends: p{at + 1}") for at in range(1, 3000)]
            self.assertEqual(len(taken(new(0, "app", "Depends: p1"), *chain, new(3000, "p3000", "Depends: app")).split()), 3001)
        finally:
            sys.setrecursionlimit(limit)


if __name__ == "__main__":
    unittest.main()
