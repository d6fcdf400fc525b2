"""The commands of the importers: `pypi`, `cargo` and `conda`, each with `catalogue` and `request`; `cudf`."""
from __future__ import annotations

import argparse
from tools import cargo, conda, cudf, pypi
from tools.files import Failure, progress, write_both
from tools.index import index_catalogue, index_request

Parsers = list[argparse.ArgumentParser]


def add_actions(commands: argparse._SubParsersAction, name: str, about: str, asked: str) -> Parsers:
    """A command with its two actions."""
    parser = commands.add_parser(name, help=about, description=about)
    actions = parser.add_subparsers(dest="action", metavar="ACTION", required=True)
    catalogue = actions.add_parser("catalogue", help="the index as a catalogue")
    request = actions.add_parser("request", help="requirements as a request over that catalogue")
    for each in (catalogue, request):
        each.add_argument("index", metavar="INDEX")
        each.add_argument("--out", metavar="FILE", help="write this file, whole or not at all, not standard output")
    closure = "just what these packages reach over needs"
    catalogue.add_argument("--closure", nargs="+", metavar="ROOT", help=closure)
    catalogue.add_argument("--source", action="store_true", help="above each line the text of which it came")
    request.add_argument("requirements", nargs="+", metavar=asked)
    return [catalogue, request]


def open_pypi(args: argparse.Namespace) -> pypi.PypiIndex:
    """The index of wheels."""
    return pypi.PypiIndex(args.index, pypi.read_environment(args.environment), args.pre)


def pypi_catalogue(args: argparse.Namespace) -> bytes:
    """`pypi catalogue`."""
    with progress("pypi catalogue"):
        roots = None if args.closure is None else [pypi.root_package(root) for root in args.closure]
        return index_catalogue(open_pypi(args), roots, args.source)


def pypi_request(args: argparse.Namespace) -> bytes:
    """`pypi request`."""
    index = open_pypi(args)
    return index_request(index, pypi.request_rules(index, args.requirements, args.constraint or ()))


def add_pypi(commands: argparse._SubParsersAction) -> None:
    """The commands of PyPI."""
    catalogue, request = add_actions(commands, "pypi", "wheels of PyPI (docs/MAPPING.md)", "REQUIREMENT")
    catalogue.set_defaults(handle=pypi_catalogue)
    request.set_defaults(handle=pypi_request)
    request.add_argument("--constraint", action="append", metavar="REQUIREMENT", help="a limit on a package")
    for each in (catalogue, request):
        each.add_argument("--environment", metavar="FILE", help="JSON: markers' variables other than this Python's")
        each.add_argument("--pre", nargs="*", metavar="NAME", help="pre-releases may be taken, of these or of all")


def cargo_catalogue(args: argparse.Namespace) -> bytes:
    """`cargo catalogue`."""
    with progress("cargo catalogue"):
        index = cargo.CargoIndex(args.index, args.manifest)
        roots = [index.root] if index.root else []
        return index_catalogue(index, roots + (args.closure or []) or None, args.source)


def cargo_request(args: argparse.Namespace) -> bytes:
    """`cargo request`."""
    index = cargo.CargoIndex(args.index, args.manifest)
    return index_request(index, cargo.request_rules(index, args.requirements))


def add_cargo(commands: argparse._SubParsersAction) -> None:
    """The commands of Cargo."""
    about = "crates of a registry's index (docs/MAPPING.md)"
    catalogue, request = add_actions(commands, "cargo", about, "NAME@REQ[/FEATURE,..]")
    catalogue.set_defaults(handle=cargo_catalogue)
    request.set_defaults(handle=cargo_request)
    for each in (catalogue, request):
        each.add_argument("--manifest", metavar="FILE", help="a Cargo.toml, whose crate and closure are added")


def open_conda(args: argparse.Namespace) -> conda.CondaIndex:
    """The records of all files."""
    return conda.CondaIndex(args.index, args.more or (), args.virtual or ())


def conda_catalogue(args: argparse.Namespace) -> bytes:
    """`conda catalogue`."""
    with progress("conda catalogue"):
        return index_catalogue(open_conda(args), args.closure, args.source)


def conda_request(args: argparse.Namespace) -> bytes:
    """`conda request`."""
    index = open_conda(args)
    return index_request(index, conda.request_rules(index, args.requirements, args.constraint or ()))


def add_conda(commands: argparse._SubParsersAction) -> None:
    """The commands of conda."""
    catalogue, request = add_actions(commands, "conda", "builds of a repodata.json (docs/MAPPING.md)", "SPEC")
    catalogue.set_defaults(handle=conda_catalogue)
    request.set_defaults(handle=conda_request)
    request.add_argument("--constraint", action="append", metavar="SPEC", help="a limit on a package")
    for each in (catalogue, request):
        each.add_argument("--with", dest="more", action="append", metavar="FILE", help="one more repodata.json")
        each.add_argument("--virtual", action="append", metavar="NAME=VERSION", help="what the machine has")


def cudf_criteria(args: argparse.Namespace) -> str:
    """What is to be preferred; an option isn't that."""
    late = [word for word in args.criteria if word.startswith("--") and word != "--"]
    if late:
        raise Failure(f"cudf {args.action}", None, f"{late[0]} is behind IN; options come first")
    return " ".join(args.criteria)


def cudf_solve(args: argparse.Namespace) -> bytes:
    """`cudf solve`."""
    return cudf.solve(args.document, cudf_criteria(args), args.keep, args.resolve)


def cudf_convert(args: argparse.Namespace) -> None:
    """`cudf convert`."""
    catalogue, request = cudf.convert(args.document, cudf_criteria(args), args.source)
    write_both(args.out, catalogue, args.request, request)


def add_cudf(commands: argparse._SubParsersAction) -> None:
    """The commands of CUDF documents."""
    about = "CUDF documents, as opam's and apt-cudf's solvers take them (docs/MAPPING.md)"
    parser = commands.add_parser("cudf", help=about, description=about)
    actions = parser.add_subparsers(dest="action", metavar="ACTION", required=True)
    about = "a document's solution, or FAIL with the reason; options come first"
    solve = actions.add_parser("solve", help=about, description=about)
    solve.set_defaults(handle=cudf_solve)
    solve.add_argument("document", metavar="IN", help="the document; `-` is standard input")
    solve.add_argument("out", metavar="OUT", nargs="?", help="the file for the solution; standard output if there is none")
    solve.add_argument("--keep", metavar="FOLDER", help="writes the catalogue, the request and the report into it")
    solve.add_argument("--resolve", metavar="PATH", help="the program `resolve`")
    convert = actions.add_parser("convert", help="a document as a catalogue and a request")
    convert.set_defaults(handle=cudf_convert)
    convert.add_argument("document", metavar="IN")
    convert.add_argument("--out", metavar="FILE", help="write the catalogue there, not to standard output")
    convert.add_argument("--request", metavar="FILE", help="writes the request too")
    convert.add_argument("--source", action="store_true", help="above each line the property of which it came")
    wanted = "whether versions that are there stay (changed), or the newest come first (notuptodate, version-lag)"
    for each in (solve, convert):
        each.add_argument("criteria", metavar="CRITERIA", nargs=argparse.REMAINDER, help=wanted)


def add_imports(commands: argparse._SubParsersAction) -> None:
    """The commands of all importers."""
    add_pypi(commands)
    add_cargo(commands)
    add_conda(commands)
    add_cudf(commands)
