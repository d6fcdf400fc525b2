"""The two calls."""
from __future__ import annotations

from typing import Optional

from resolve.answers import Answer, Verdict, Yes, faulty_in, installed_in, no_in, refused_in
from resolve.backends import Backend, Bytes, default_backend


def solve(catalogue: Bytes, request: Bytes, backend: Optional[Backend] = None, budget: Optional[int] = None) -> Answer:
    """What to install for the request, or why nothing can be: `resolve solve`.

    With a budget the search raises `GivenUp` at the question whether to stop that comes after so many. The solver asks it before
    each step of its search, and before each question of which versions a package has or what a version needs."""
    ending, text = (backend or default_backend()).solve(catalogue, request, budget)
    return (installed_in, refused_in, faulty_in)[ending](text)


def judge(catalogue: Bytes, request: Bytes, report: Bytes, backend: Optional[Backend] = None) -> Verdict:
    """Whether a report holds, whoever wrote it: `resolve judge`. After `Yes` what it claims is true."""
    ending, text = (backend or default_backend()).judge(catalogue, request, report)
    return (Yes, no_in, faulty_in)[ending](text)
