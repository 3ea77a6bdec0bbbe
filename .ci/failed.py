#!/usr/bin/env python3
"""Says why a run of the gate failed, from what it printed: of each crate that is not proved what the prover said, then the wrong bodies that were not refused,
the tests and the programs that failed. Status 0 where the project itself failed, 1 where checks ended without an answer and nothing else did (killed for
lack of memory, no room on the disk).

usage: failed.py LOG
"""
import re
import sys

# What names a fault of the project's own text, in a crate's part of the log and outside.
IN_PART = re.compile(r"(fn|impl|struct|enum|trait|const|static) .*: (not proved|no proof)$|(\./)?(src|specs|proofs)/\S+:\d+:\d+: error|warning: no call of"
                     r"|rt: (run rt fmt|this fails the verdict)|logic=not-proved")
OUTSIDE = re.compile(r"\w+/\w+: NOT (REFUSED|TRIED(?!.*: the check was killed by signal))|wrong\.py: |rt: .*(: its tests FAILED$|: the program |: what the program wrote|was not run)|test .* FAILED$")
SAID = re.compile(r"note: (\./)?(src|specs|proofs)/\S+:\d+:\d+|.*(killed|No space|memory|no verdict|could not tell|panicked)")
ENDS = re.compile(r"rt: (\w+)(: its tests are)? (NOT PROVED|proved)")


def main(lines):
    own, part = False, None
    for line in map(str.rstrip, lines):
        end = ENDS.match(line)
        if line.startswith("== "):
            part = [line]
        elif end:
            if end[3] == "NOT PROVED":
                told = [it for it in part or [] if IN_PART.match(it) or SAID.match(it)]
                own = own or any(IN_PART.match(it) for it in told)
                print("\n".join(it[:300] for it in [*(told or part or [])[-12:], line]))
            part = None
        elif part is not None:
            part.append(line)
        elif OUTSIDE.match(line):
            own = True
            print(line[:300])
    return own


if __name__ == "__main__":
    if len(sys.argv) != 2:
        sys.exit(__doc__)
    with open(sys.argv[1], encoding="utf-8", errors="replace") as it:
        sys.exit(0 if main(it) else 1)
