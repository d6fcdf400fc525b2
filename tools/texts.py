"""All texts of `resolve` as values: catalogue, request, report with its steps, dictionary. One import for other programs.

    catalogue = read_catalogue(data)              Catalogue(lines)          catalogue_text(catalogue)
    request = read_request(data, catalogue)       Request(lines)            request_text(request)
    report = read_report(data)                    Install(..) | Refused(..) report_text(report)
    dictionary = read_dictionary(catalogue)       Dictionary(..) or None

Texts are bytes; each reader raises Fault with the text and the line that docs/FORMATS.md defines. A value has one text, and
reading what a writer wrote gives the value again. The parts are in words.py, catalogue.py, reports.py, dictionary.py.
"""
from tools.catalogue import Catalogue, CatalogueLine, ExcludeLine, FavourLine, LimitsLine, Line, LockLine, ManyLine
from tools.catalogue import NeedsLine, Placed, Request, RequestLine, RULES, SkippedLine, UnknownLine, VersionLine, WishLine
from tools.catalogue import catalogue_text, decoded, encoded, line_text, read_catalogue, read_request, request_text
from tools.catalogue import split_input
from tools.dictionary import Dictionary, RealSpelling, escape, read_dictionary
from tools.reports import Answer, AnyAtom, AnyStep, Atom, BarStep, BitAtom, DeriveStep, DigitStep, Entry, ExcludeStep
from tools.reports import GateStep, Install, LeftOut, LimitStep, Literal, LockStep, MatchesAtom, MatchesStep, NeedStep
from tools.reports import OutsideAtom, OutsideStep
from tools.reports import Place, Refused, Report, ReportReader, SharedAtom, SharedStep, Step, UnknownStep, WishedEntry
from tools.reports import answer_text, atom_text, literal_text, read_report, report_text, step_text
from tools.words import PLAIN, And, Bad, Condition, Fault, Or, Span, Spec, Spelling, Version, Words, cases
from tools.words import condition_text, spec_text, specs_text, version_text

__all__ = [name for name in globals() if not name.startswith("_")]
