"""Problems of a size: invented ones, of which each has one difficulty, and those that look like an ecosystem's."""
import random

from problem import Problem, any_of, one

# ---- search


def three_sat(variables, seed):
    """Random 3-SAT, 4.26 clauses a variable. A package of two versions is a variable; the version that falsifies the first literal of a
    clause needs one of the others."""
    rng = random.Random(f"3-SAT {variables} {seed}")
    needs = {(k, value): [] for k in range(variables) for value in (1, 2)}
    for _ in range(round(4.26 * variables)):
        (first, false), *others = [(k, rng.choice((1, 2))) for k in rng.sample(range(variables), 3)]
        needs[first, false].append([one(f"x{k}", value) for k, value in others])
    p = Problem()
    for (k, value), alternatives in needs.items():
        p.version(f"x{k}", value, *alternatives)
    for k in range(variables):
        p.ask(any_of(f"x{k}"))
    return p


def colouring(nodes, seed):
    """A random graph with 2.3 edges a node in three colours: a version is a colour, and needs another one at each neighbour."""
    rng = random.Random(f"colouring {nodes} {seed}")
    edges = {}
    while len(edges) < round(2.3 * nodes):
        edges[tuple(sorted(rng.sample(range(nodes), 2)))] = True
    p = Problem()
    for node in range(nodes):
        others = [b for a, b in edges if a == node]
        for colour in range(3):
            p.version(f"n{node}", colour, *([one(f"n{other}", c) for c in range(3) if c != colour] for other in others))
    for node in range(nodes):
        p.ask(any_of(f"n{node}"))
    return p


def pigeons(holes, _seed):
    """One pigeon more than holes: a pigeon's version is its hole, and a version of a hole is who sits there."""
    p = Problem()
    for pigeon in range(holes + 1):
        for hole in range(holes):
            p.version(f"pigeon{pigeon}", hole, [one(f"hole{hole}", pigeon)])
    for hole in range(holes):
        for pigeon in range(holes + 1):
            p.version(f"hole{hole}", pigeon)
    for pigeon in range(holes + 1):
        p.ask(any_of(f"pigeon{pigeon}"))
    return p


def random_packages(versions):
    """Packages with this many versions and up to three needs of any package, each of a random range; twenty are asked for."""

    def make(packages, seed):
        rng, p = random.Random(f"random {packages} {versions} {seed}"), Problem()
        for k in range(packages):
            for v in range(versions):
                needs = []
                for _ in range(rng.randint(0, 3)):
                    low = rng.randint(0, versions - 1)
                    needs.append([(f"p{rng.randrange(packages)}", low, rng.randint(low + 1, versions))])
                p.version(f"p{k}", v, *needs)
        for _ in range(20):
            p.ask(any_of(f"p{rng.randrange(packages)}"))
        return p

    return make


# ---- chains and layers


def chain(length, _seed):
    """Each package needs the next."""
    p = Problem()
    for k in range(length):
        p.version(f"p{k}", 1, *([[any_of(f"p{k + 1}")]] if k + 1 < length else []))
    p.ask(any_of("p0"))
    return p


def refused_chain(length, _seed):
    """The last one needs a package that nobody lists."""
    p = Problem()
    for k in range(length):
        p.version(f"p{k}", 1, [any_of(f"p{k + 1}")])
    p.ask(any_of("p0"))
    return p


def chain_of_pairs(length, _seed):
    """Each package has two versions, which need the next package and one of three of a pool that all share."""
    p, pool = Problem(), 10
    for k in range(length):
        for v in (1, 2):
            shared = [any_of(f"shared{(k + v * step) % pool}") for step in range(3)]
            p.version(f"p{k}", v, *([[any_of(f"p{k + 1}")]] if k + 1 < length else []), shared)
    for k in range(pool):
        p.version(f"shared{k}", 1)
    p.ask(any_of("p0"))
    return p


def layers(count, _seed):
    """Layers of two packages of three versions, of which each needs both packages of the next layer."""
    p = Problem()
    for layer in range(count):
        for side in "ab":
            for v in range(3):
                p.version(f"{side}{layer}", v, *([[(f"{other}{layer + 1}", 0, v + 2)] for other in "ab"] if layer + 1 < count else []))
    p.ask(any_of("a0"))
    p.ask(any_of("b0"))
    return p


# ---- many of one kind


def pairs(first_needs_too):
    """Packages of two versions each; both of the last need x 2, and the newer of the first (or both) x 1."""

    def make(count, _seed):
        p = Problem()
        p.version("p1", 1, *([[one("x", 1)]] if first_needs_too else []))
        p.version("p1", 2, [one("x", 1)])
        for k in range(2, count):
            p.version(f"p{k}", 1)
            p.version(f"p{k}", 2)
        for v in (1, 2):
            p.version(f"p{count}", v, [one("x", 2)])
        p.version("x", 1)
        p.version("x", 2)
        for k in range(1, count + 1):
            p.ask(any_of(f"p{k}"))
        return p

    return make


def in_a_ring(count, _seed):
    """Packages that are all asked for; each needs one more under the condition that the next of them is there."""
    p = Problem()
    for k in range(count):
        p.version(f"p{k}", 1, under=[([any_of("q")], any_of(f"p{(k + 1) % count}"))])
    p.version("q", 1)
    p.version("q", 2)
    for k in range(count):
        p.ask(any_of(f"p{k}"))
    return p


def conditions(count, _seed):
    """Each package is needed under the condition that the one before it is there."""
    p = Problem()
    for k in range(count):
        p.version(f"p{k}", 1)
        p.ask(any_of(f"p{k}"), under=any_of(f"p{k - 1}") if k else None)
    return p


def late_conditions(count, _seed):
    """As many needs as a chain has packages, each under the condition that the chain's last one is there."""
    p = Problem()
    for k in range(count):
        p.version(f"w{k}", 1)
        p.version(f"c{k}", 1, *([[any_of(f"c{k + 1}")]] if k + 1 < count else []))
        p.ask(any_of(f"w{k}"), under=any_of(f"c{count - 1}"))
    p.ask(any_of("c0"))
    return p


def needy_wishes(count, _seed):
    """Wished versions, each of which needs a package of its own."""
    p = Problem()
    for k in range(count):
        p.version(f"w{k}", 1, [any_of(f"n{k}")])
        p.version(f"n{k}", 1)
        p.wished.append((f"w{k}", 1))
    return p


def wishes(count, _seed):
    """Packages in couples: the newer version of the second keeps out that of the first. Each newer version is wished for."""
    p = Problem()
    p.version("base", 1)
    for k in range(count):
        p.version(f"w{k}", 1, [any_of("base")])
        p.version(f"w{k}", 2, [any_of("base")], limits=[one(f"w{k - 1}", 1)] if k % 2 else [])
        p.wished.append((f"w{k}", 2))
    p.ask(any_of("base"))
    return p


def limited(count, _seed):
    """One package with as many versions as there are others that limit it, each to one version fewer."""
    p = Problem()
    for v in range(count):
        p.version("c", v)
    for k in range(count):
        p.version(f"p{k}", 1, limits=[("c", 0, count - k)])
    p.ask(any_of("c"))
    for k in range(count):
        p.ask(any_of(f"p{k}"))
    return p


# ---- many versions


def versions(count, _seed):
    """One package with many versions, of which the middle third is asked for."""
    p = Problem()
    for v in range(count):
        p.version("a", v)
    p.ask(("a", count // 3, 2 * count // 3))
    return p


def tenths(count, _seed):
    """One package with many versions; each tenth needs another package."""
    p = Problem()
    for v in range(count):
        p.version("a", v, *([[any_of("b")]] if v % 10 == 0 else []))
    p.version("b", 1)
    p.ask(any_of("a"))
    return p


def tenths_in_step(count, _seed):
    """Each tenth version needs the version of another package that has its number, and the oldest of these is asked for."""
    p = Problem()
    for v in range(count):
        p.version("a", v, *([[one("b", v)]] if v % 10 == 0 else []))
    for v in range(0, count, 10):
        p.version("b", v)
    p.ask(any_of("a"))
    p.ask(one("b", 0))
    return p


def self_barring(count, _seed):
    """Each version limits its own package to the oldest one, so that it bars itself."""
    p = Problem()
    for v in range(count):
        p.version("a", v, limits=[one("a", 0)])
    p.ask(any_of("a"))
    return p


def self_barring_by_ranges(count, _seed):
    """Each version but the oldest limits its own package to all that are older, so that it bars itself by a range of its own."""
    p = Problem()
    for v in range(count):
        p.version("a", v, limits=[("a", 0, v)] if v else [])
    p.ask(any_of("a"))
    return p


def versions_in_step(count, _seed):
    """Each version of a package needs that of its own number of another one, of which the oldest is asked for."""
    p = Problem()
    for v in range(count):
        p.version("a", v, [one("b", v)])
    for v in range(count):
        p.version("b", v)
    p.ask(any_of("a"))
    p.ask(one("b", 0))
    return p


def windows(count, _seed):
    """A chain of 200 packages of which each version needs one of the twenty around its own number of the next. The newer nine tenths of the
    last one's versions need a package that isn't there."""
    p = Problem()
    for k in range(200):
        for v in range(count):
            needs = [[(f"p{k + 1}", max(v - 10, 0), v + 10)]] if k < 199 else [[any_of("gone")]] if v > count // 10 else []
            p.version(f"p{k}", v, *needs)
    p.ask(any_of("p0"))
    return p


def deep_steps(count, _seed):
    """A chain of 20 packages of which each version needs that of its own number of the next. Only the oldest of the last one's versions
    doesn't need a package that isn't there."""
    p = Problem()
    for k in range(20):
        for v in range(count):
            needs = [[one(f"p{k + 1}", v)]] if k < 19 else [[any_of("gone")]] if v else []
            p.version(f"p{k}", v, *needs)
    p.ask(any_of("p0"))
    return p


def limits_of_each(count, _seed):
    """Each version of a package limits another one to a version that it doesn't have; both are asked for, and have as many versions."""
    p = Problem()
    for v in range(count):
        p.version("a", v, limits=[one("b", count)])
    for v in range(count):
        p.version("b", v)
    p.ask(any_of("a"))
    p.ask(any_of("b"))
    return p


# ---- ecosystems without a search


def helpers(count, _seed):
    """As pip meets it: ten versions of each package, each with a helper of its own. All newer versions of the first need one version of a
    library, and the last needs the other one."""
    p = Problem()
    for k in range(count):
        for v in range(10):
            needs = [[(f"helper{k}", v, 12)]] + ([[one("library", 2)]] if k == 0 and v else [])
            p.version(f"p{k}", v, *needs, *([[one("library", 1)]] if k == count - 1 else []))
        p.ask(any_of(f"p{k}"))
    for k in range(count):
        for v in range(11):
            p.version(f"helper{k}", v)
    p.version("library", 1)
    p.version("library", 2)
    return p


def shared_needs(count, _seed):
    """Packages of three versions, which all need the same range of one package of 60 versions, and limit it."""
    p = Problem()
    for k in range(count):
        for v in range(3):
            p.version(f"p{k}", v, [("z", 20, 60)], limits=[("z", 0, 40 + v)])
        p.ask(any_of(f"p{k}"))
    for v in range(60):
        p.version("z", v)
    return p


def barred_candidates(count, _seed):
    """A chain of packages of twelve versions, the newest of which are excluded or unknown; some are locked or favoured."""
    p = Problem()
    for k in range(count):
        for v in range(12):
            p.version(f"p{k}", v, *([[(f"p{k + 1}", max(v - 3, 0), v + 3)]] if k + 1 < count else []))
        p.barred |= {(f"p{k}", v): "exclude" if v % 2 else "unknown" for v in (9, 10, 11)}
        if k % 5 == 4:
            p.locked[f"p{k}"] = 6
        if k % 7 == 6:
            p.favoured[f"p{k}"] = 5
    p.ask(any_of("p0"))
    return p
