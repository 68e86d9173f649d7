"""The lines that a wrong value comes from, its own way first."""
import sys

from burch_dill import check, why

pipe, spec = sys.argv[1:]
verdict = check(pipe, spec)
print(verdict.outcome.value)
explained = why(pipe, spec, verdict.case) if verdict.case is not None else None
if explained is not None:
    for reason in explained.reasons[:3]:
        print(reason.file, reason.line, reason.text)
