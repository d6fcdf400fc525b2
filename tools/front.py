"""The command line of `resolve-tools`: one table of commands, exit statuses as `resolve` has them."""
from __future__ import annotations

import argparse
from functools import lru_cache
from typing import Callable, Optional, Sequence

from tools import texts, view
from tools.apt_solver import main as solve_for_apt
from tools.bundle import CatalogueFile, load, load_catalogue, load_request
from tools.debian import apt_lists, import_debian, native_architecture
from tools.files import Failure, as_files, of_file, progress, read_bytes, run_program, shown_path, status_of, write_both
from tools.files import write_bytes
from tools.imports import add_imports
from tools.judge import refusal
from tools.lock import Lock, check_lock, lock_of, lock_text, locked_versions, mark_lines, plan_lines, read_lock
from tools.lock import wish_lines, with_lines, without_favours
from tools.lrat import ABOUT as ABOUT_LRAT
from tools.lrat import add_arguments, write_export

ABOUT = """What people need around `resolve`: lock files, reports to look at, the reason of a fault or of a no.

  resolve solve app.catalogue app.request > app.report
  resolve-tools check app.catalogue app.request
  resolve-tools lock write app.catalogue app.report --out app.lock
  resolve-tools view tree app.catalogue app.request app.report"""
STATUSES = """exit status: 0 done (install, yes); 1 no (a version is gone, a lock or report that doesn't hold, a view that
the report hasn't); 2 a fault (of a file, of the command line). Errors are `tools: FILE: line N: reason`, and then
nothing is written. `-` as a file is standard input, which can be one file alone; as the file of --out it is standard
output. A pipe or a device that --out names is written as it is."""
Handler = Callable[[argparse.Namespace], Optional[bytes]]


# ---- faults


def check(args: argparse.Namespace) -> bytes:
    """`check`: the readers raise the faults of the texts."""
    file = load_catalogue(args.catalogue)
    if not args.request:
        return b"no fault\n"
    request = load_request(args.request, file.catalogue)
    if args.report:
        with progress(f"judging {args.report}"):
            line, reason = refusal(file.catalogue, request, read_bytes(args.report))
        if line:
            raise Failure(shown_path(args.report), line, reason, 1)
    return b"no fault\n"


def add_check(commands: argparse._SubParsersAction) -> None:
    """The reason of a fault, or of a no."""
    about = "why a text is faulty (docs/FORMATS.md), or a report isn't right (docs/JUDGE.md): the first line, with a reason"
    more = "The dictionary of the catalogue is read too. A report is judged by a plain program without proofs, which is slow where the "
    more += "report has many steps; `resolve judge` is the one to believe."
    each = commands.add_parser("check", help=about, description=f"Says {about}. {more}", epilog=STATUSES)
    each.set_defaults(handle=check)
    each.add_argument("catalogue", metavar="CATALOGUE")
    each.add_argument("request", metavar="REQUEST", nargs="?")
    each.add_argument("report", metavar="REPORT", nargs="?")


# ---- lock


def load_lock(path: str) -> Lock:
    """A lock file."""
    with of_file(path):
        return read_lock(read_bytes(path))


def expected_lock(catalogue_path: str, report_path: str) -> tuple[Lock, texts.Report, texts.Catalogue]:
    """The lock of a report, and what it is made of; the lock has no entries where the report is a refusal."""
    file, data = load_catalogue(catalogue_path), read_bytes(report_path)
    with of_file(report_path):
        report = texts.read_report(data)
    install = report if isinstance(report, texts.Install) else texts.Install(())
    for line, answer in enumerate(install.answers, 2):
        if answer.version not in file.catalogue.line_of:
            reason = f"{catalogue_path} doesn't list {answer.version}: it is a report for another catalogue"
            raise Failure(report_path, line, reason)
    return lock_of(file, data, install), report, file.catalogue


def lock_write(args: argparse.Namespace) -> bytes:
    """`lock write`."""
    lock, report, _ = expected_lock(args.catalogue, args.report)
    if not isinstance(report, texts.Install):
        raise Failure(args.report, 1, "is a refusal, which locks nothing", 1)
    return lock_text(lock)


def lock_lines(args: argparse.Namespace) -> bytes:
    """`lock lines`."""
    if args.but and not args.keep:
        raise Failure("lock lines", None, "--except goes with --keep")
    lock, file = load_lock(args.lock), load_catalogue(args.catalogue)
    versions = locked_versions(lock, args.lock, file, args.but or ())
    if args.wish:
        return wish_output(args, versions, file)
    if args.request:
        raise Failure("lock lines", None, "--request goes with --wish")
    if args.keep and args.whole:
        file = without_favours(file, versions)
    lines = mark_lines(versions, file, texts.FavourLine if args.keep else texts.LockLine, args.lock)
    return with_lines(file.data if args.whole else b"", lines)


def wish_output(args: argparse.Namespace, versions: list[texts.Version], file: CatalogueFile) -> bytes:
    """Wishes for the end of a request."""
    if not args.request:
        if args.whole:
            raise Failure("lock lines", None, "--wish --whole needs --request, to whose end the wishes go")
        return with_lines(b"", wish_lines(versions, None))
    data = read_bytes(args.request)
    with of_file(args.request):
        lines = wish_lines(versions, texts.read_request(data, file.catalogue))
    return with_lines(data if args.whole else b"", lines)


def lock_plan(args: argparse.Namespace) -> bytes:
    """`lock plan`."""
    file = load_catalogue(args.catalogue) if args.catalogue else None
    lines = plan_lines(load_lock(args.old), load_lock(args.new), file)
    return "".join(line + "\n" for line in lines).encode()


def lock_check(args: argparse.Namespace) -> bytes:
    """`lock check`."""
    lock = load_lock(args.lock)
    expected, report, catalogue = expected_lock(args.catalogue, args.report)
    if not isinstance(report, texts.Install):
        raise Failure(args.report, 1, "is a refusal, which locks nothing", 1)
    check_lock(lock, args.lock, expected, {"catalogue": args.catalogue, "report": args.report})
    load_request(args.request, catalogue)
    with as_files(args.catalogue, args.request, args.report) as paths:
        status, said = run_program(args.resolve, "judge", *paths)
    if status != 0:
        raise Failure(args.report, None, f"`resolve judge` says `{said.decode().strip()}`; `resolve-tools check` has the reason", 1)
    return f"yes: {len(lock.entries)} entries, and the report is judged right\n".encode()


def add_lock(commands: argparse._SubParsersAction) -> None:
    """The commands of lock files."""
    actions = group(commands, "lock", "write, use, compare and check lock files (docs/LOCKS.md)")
    write = action(actions, "write", lock_write, "the lock of an install report", "catalogue", "report")
    about = "a lock as lines for the end of a later catalogue or request"
    lines = action(actions, "lines", lock_lines, about, "catalogue", "lock")
    how = lines.add_mutually_exclusive_group(required=True)
    how.add_argument("--frozen", action="store_true", help="`lock` lines: nothing else of these packages may be chosen")
    how.add_argument("--keep", action="store_true", help="`favour` lines: stay, unless something forces a change")
    wish = "`wish` lines for the end of the request: what can't stay gets a proof"
    how.add_argument("--wish", action="store_true", help=wish)
    lines.add_argument("--except", dest="but", nargs="+", metavar="NAME", help="last, with --keep: packages that may change")
    whole = "the catalogue (with --wish the request) with the lines at its end"
    lines.add_argument("--whole", action="store_true", help=whole)
    lines.add_argument("--request", help="with --wish: what it wishes for already is passed over")
    plan = action(actions, "plan", lock_plan, "what changes from one lock to another", "old", "new")
    plan.add_argument("catalogue", nargs="?", help="distinguishes upgrades from downgrades by its order of versions")
    about = "whether a lock is that of a report, and the report is right"
    check = action(actions, "check", lock_check, about, "lock", "catalogue", "request", "report")
    check.add_argument("--resolve", metavar="PATH", help="the program `resolve`")
    for each in (write, lines, plan):
        add_out(each)


# ---- views


def view_of(show: Callable[..., bytes], *options: str) -> Handler:
    """The handler of a view over the three files."""

    def handle(args: argparse.Namespace) -> bytes:
        bundle = load(args.catalogue, args.request, args.report)
        try:
            with progress(f"view {args.action}"):
                return show(bundle, *(getattr(args, option) for option in options))
        except view.WrongKind as wrong:
            raise view.view_failure(args.report, wrong) from None

    return handle


def view_message(args: argparse.Namespace) -> bytes:
    """`view message`."""
    args.use_colour = args.color == "always" or (not args.out and view.use_colour(args.color))
    return view_of(view.message, "use_colour")(args)


def with_back(show: Handler, back: Callable[[argparse.Namespace], bytes]) -> Handler:
    """A view that can be turned back with `--back FILE`."""

    def handle(args: argparse.Namespace) -> Optional[bytes]:
        if args.back:
            return back(args)
        if not (args.catalogue and args.request and args.report):
            raise Failure(f"view {args.action}", None, "CATALOGUE, REQUEST and REPORT are due")
        return show(args)

    return handle


def names_back(args: argparse.Namespace) -> bytes:
    """`view names CATALOGUE --back FILE`."""
    if not args.catalogue or args.request:
        raise Failure("view names", None, "with --back just the CATALOGUE is due")
    return view.names_back(args.catalogue, args.back)


def json_back(args: argparse.Namespace) -> bytes:
    """`view json --back FILE`."""
    if args.catalogue:
        raise Failure("view json", None, "with --back no other file is due")
    return view.json_back(args.back)


VIEWS: list[tuple[str, Handler, str]] = [
    ("message", view_message, "why a request is refused, in colour on a terminal"),
    ("explain", view_of(view.explain, "steps"), "the report in words: each line that it names, with its source"),
    ("tree", view_of(view.tree), "what is installed, each entry below the one that it is there for"),
    ("why", view_of(view.why, "name"), "why a package is installed, up to the request"),
    ("left", view_of(view.left), "why wishes were left out"),
    ("html", view_of(view.html), "the report as one page that loads nothing from outside"),
]
BACK_VIEWS: list[tuple[str, Handler, str]] = [
    ("names", with_back(view_of(view.names), names_back), "the report with real names and versions"),
    ("json", with_back(view_of(view.json_view), json_back), "the report for other programs"),
]


def add_views(commands: argparse._SubParsersAction) -> None:
    """The views."""
    actions = group(commands, "view", "look at a report")
    for name, handler, about in VIEWS:
        files = ["catalogue", "request", "report"]
        each = action(actions, name, handler, about, *files, *(["name"] if name == "why" else []))
        add_out(each)
        if name == "message":
            colour = "auto: on a terminal where NO_COLOR isn't set"
            each.add_argument("--color", choices=("auto", "always", "never"), default="auto", help=colour)
        if name == "explain":
            each.add_argument("--steps", action="store_true", help="the proof too, a sentence a step")
    for name, handler, about in BACK_VIEWS:
        each = actions.add_parser(name, help=about, description=about)
        each.set_defaults(handle=handler, action=name)
        for file in ("catalogue", "request", "report"):
            each.add_argument(file, nargs="?", metavar=file.upper())
        each.add_argument("--back", metavar="FILE", help="the report of such a view: the bytes that it was made of")
        add_out(each)


# ---- importers


def debian(args: argparse.Namespace) -> None:
    """`debian`."""
    if bool(args.files) == args.lists:
        raise Failure("debian", None, "the files are due, or --lists alone")
    if args.request and not args.closure:
        raise Failure("debian", None, "--request goes with --closure, whose roots are asked for")
    paths, native = args.files or apt_lists(), args.arch or native_architecture()
    catalogue, request = import_debian(paths, native, args.closure or [], args.source)
    write_both(args.out, catalogue, args.request, request)


def apt_solver(_: argparse.Namespace) -> None:
    """`apt-solver`."""
    solve_for_apt()


def add_debian(commands: argparse._SubParsersAction) -> None:
    """Catalogues of Debian, and the solver for apt."""
    about = "Debian's Packages files, plain or packed, as a catalogue (docs/MAPPING.md)"
    each = commands.add_parser("debian", help=about, description=about, epilog=STATUSES)
    each.set_defaults(handle=debian)
    each.add_argument("files", nargs="*", metavar="FILE", help="Packages files")
    each.add_argument("--lists", action="store_true", help="in place of files: the lists that apt has")
    each.add_argument("--arch", help="the architecture, beside `all`; that of dpkg where none is given")
    roots = "NAME or NAME=VERSION: only what these reach over needs, and what they recommend"
    each.add_argument("--closure", nargs="+", metavar="ROOT", help=roots)
    each.add_argument("--source", action="store_true", help="`#s` lines: the text of which each line came")
    request = "writes the request too: the roots, and wishes for what they recommend"
    each.add_argument("--request", metavar="OUT", help=request)
    add_out(each)
    about = "answers a scenario of apt's EDSP on standard input (docs/USING.md)"
    commands.add_parser("apt-solver", help=about, description=about).set_defaults(handle=apt_solver)


# ---- the export of refusals


def add_export(commands: argparse._SubParsersAction) -> None:
    """A refusal for the checkers of the SAT field."""
    export = commands.add_parser("lrat", help=ABOUT_LRAT, description=ABOUT_LRAT, epilog=STATUSES)
    export.set_defaults(handle=write_export)
    add_arguments(export)


# ---- the front


def group(commands: argparse._SubParsersAction, name: str, about: str) -> argparse._SubParsersAction:
    """A command with actions."""
    parser = commands.add_parser(name, help=about, description=about, epilog=STATUSES)
    return parser.add_subparsers(dest="action", metavar="ACTION", required=True)


def add_out(parser: argparse.ArgumentParser) -> None:
    """`--out FILE`."""
    parser.add_argument("--out", metavar="FILE", help="write this file, whole or not at all, not standard output")


def action(
    actions: argparse._SubParsersAction, name: str, handler: Handler, about: str, *files: str
) -> argparse.ArgumentParser:
    """An action over files."""
    parser = actions.add_parser(name, help=about, description=about)
    parser.set_defaults(handle=handler)
    for file in files:
        parser.add_argument(file, metavar=file.upper())
    return parser


@lru_cache(maxsize=None)
def make_parser() -> argparse.ArgumentParser:
    """The command line, made once."""
    form = argparse.RawDescriptionHelpFormatter
    parser = argparse.ArgumentParser(prog="resolve-tools", description=ABOUT, epilog=STATUSES, formatter_class=form)
    commands = parser.add_subparsers(dest="command", metavar="COMMAND", required=True)
    add_check(commands)
    add_lock(commands)
    add_views(commands)
    add_export(commands)
    add_debian(commands)
    add_imports(commands)
    return parser


def main(arguments: Optional[Sequence[str]] = None) -> int:
    """Runs a command and answers its exit status."""
    args = make_parser().parse_args(arguments)

    def command() -> None:
        output = args.handle(args)
        if output is not None:
            write_bytes(getattr(args, "out", None), output)

    return status_of(command)
