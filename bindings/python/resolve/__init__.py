"""resolve: a package resolver whose answers come with proofs.

    answer = solve(catalogue, request)             Installed(..), Refused(..) or Faulty(..)
    answer = solve(catalogue, request, budget=N)   the same, or it raises GivenUp
    verdict = judge(catalogue, request, report)    Yes(..), No(..) or Faulty(..)

Texts are bytes, as docs/FORMATS.md has them. Every value keeps the bytes that the program `resolve` would print. Where a text
is too long, or memory or numbers are lacking, `TooLong`, `MemoryError` or `NoIds` is raised.

The calls go to a shared object (`Library`), or where there is none to the program (`Program`). `default_backend` says which.
"""
from resolve.answers import Entry, Faulty, Installed, LeftOut, No, Refused, Yes
from resolve.backends import Backend, GivenUp, Library, NoIds, Program, ResolveError, TooLong, Unavailable, default_backend
from resolve.calls import judge, solve

__all__ = [
    "Backend", "Entry", "Faulty", "GivenUp", "Installed", "LeftOut", "Library", "No", "NoIds", "Program", "Refused", "ResolveError",
    "TooLong", "Unavailable", "Yes", "default_backend", "judge", "solve",
]
