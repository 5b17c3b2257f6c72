#!/usr/bin/env python3
"""Lists the names of definitions that stand in the specs/ of two crates or more, and ends with 1 where there are any.

    scripts/check_names.py

One word means one thing in all of specs/. A name that has to stand twice all the same is listed in EXPLAINED, with the reason.
"""
import collections
import pathlib
import re
import sys

TOP = pathlib.Path(__file__).resolve().parent.parent
DEFINES = re.compile(r"^(?:pub )?(?:abbrev|unfoldable|record|data)(?: pub)?(?: record| data)? ([A-Za-z_][\w'-]*)")
EXPLAINED = {}


def main():
    places = collections.defaultdict(set)
    for path in sorted(TOP.glob("crates/*/specs/*.antt")):
        crate = path.relative_to(TOP / "crates").parts[0]
        for line in path.read_text().splitlines():
            found = DEFINES.match(line)
            if found:
                places[found.group(1)].add(crate)
    twice = {name: crates for name, crates in places.items() if len(crates) > 1}
    for name in sorted(twice):
        print(f"{name}: {' '.join(sorted(twice[name]))}" + (f" ({EXPLAINED[name]})" if name in EXPLAINED else ""))
    unexplained = [name for name in twice if name not in EXPLAINED]
    print(f"{len(places)} names, {len(twice)} in two crates or more, {len(unexplained)} without a reason")
    return 1 if unexplained else 0


if __name__ == "__main__":
    sys.exit(main())
