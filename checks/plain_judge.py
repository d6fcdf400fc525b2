"""The plain judge of tools/judge.py, for the checks that compare with it. It is written from docs/FORMATS.md and docs/JUDGE.md alone."""
import base  # noqa: F401
from tools.judge import barred_by, court_of, holds, judge, obeys

__all__ = ["barred_by", "court_of", "holds", "judge", "obeys"]
