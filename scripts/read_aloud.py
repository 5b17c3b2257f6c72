#!/usr/bin/env python3
"""Prints a definition of specs/ with all definitions of this repository that it rests on, each once, before the first that needs it.

    scripts/read_aloud.py RepairIsExact            # all of it
    scripts/read_aloud.py RepairIsExact --names    # the names alone, with their files
"""
import pathlib
import re
import sys

TOP = pathlib.Path(__file__).resolve().parent.parent
USE = re.compile(r"^use (Rattle\.[\w.]+)\.\{(.*)\}$")
DEFINES = re.compile(r"^(?:pub )?(?:abbrev |unfoldable )?(?:pub )?(?:record |data )?([A-Za-z_][\w'-]*)(?= :| \(|$)")
WORD = re.compile(r"[A-Za-z_][\w'-]*")


class Definition:
    def __init__(self, module, name, text, scope):
        self.module, self.name, self.text, self.scope = module, name, text, scope

    def place(self):
        parts = self.module.split(".")
        return f"{parts[1]}/specs/{parts[3]}.antt"

    def needs(self):
        code = "\n".join(line for line in self.text.splitlines() if not line.lstrip().startswith("--"))
        for word in WORD.findall(code):
            target = self.scope.get(word)
            if target is not None and target != (self.module, self.name):
                yield target


def read(path, known):
    crate = path.relative_to(TOP / "crates").parts[0]
    module = f"Rattle.{crate}.specs.{path.stem}"
    lines = path.read_text().splitlines()
    scope = {}
    for line in lines:
        use = USE.match(line)
        if use:
            for item in use.group(2).split(","):
                name, _, alias = item.strip().partition(" as ")
                scope[alias or name] = (use.group(1), name)
    body = "\n".join(line for line in lines if not line.startswith("use "))
    blocks = []
    for block in re.split(r"\n\s*\n", body):
        if blocks and block.startswith(" "):
            blocks[-1] += "\n\n" + block
        else:
            blocks.append(block)
    for block in blocks:
        heads = [DEFINES.match(line) for line in block.splitlines() if not line.startswith(("--", " ", "pub mod", "pub use"))]
        heads = [head for head in heads if head]
        if heads:
            name = heads[0].group(1)
            scope[name] = (module, name)
            known[(module, name)] = Definition(module, name, block.strip("\n"), scope)


def ordered(start, known):
    seen, found = set(), []

    def visit(key):
        if key in seen or key not in known:
            return
        seen.add(key)
        for need in known[key].needs():
            visit(need)
        found.append(known[key])

    visit(start)
    return found


def main():
    sys.setrecursionlimit(10_000)
    known = {}
    for path in sorted(TOP.glob("crates/*/specs/*.antt")):
        if path.stem != "Lib":
            read(path, known)
    if len(sys.argv) < 2:
        print(__doc__, end="")
        return 2
    starts = [key for key in known if key[1] == sys.argv[1]]
    if not starts:
        print(f"{sys.argv[1]}: no such definition")
        return 1
    found = ordered(starts[0], known)
    for definition in found:
        if "--names" in sys.argv[2:]:
            print(f"{definition.name}  {definition.place()}")
        else:
            print(f"-- {definition.place()}\n{definition.text}\n")
    print(f"-- {len(found)} definitions in {len({d.module for d in found})} files")
    return 0


if __name__ == "__main__":
    sys.exit(main())
