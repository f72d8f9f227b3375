#!/usr/bin/env python3
"""Folds crates whole into a neighbour, as modules of their own names. Run once at the top of a committed checkout, after port.py.

usage: fold.py [--uncommitted] [--leave] INTO:CRATE,CRATE.. ..     as in  fold.py rule:bits,accept slate:stepping,slate_calls
--uncommitted passes where files have changed since the last commit, as after another step of the port.
--leave keeps a crate under each old name that passes on what is public there now, so that no path from outside breaks; no crate of the tree lists it.
INTO may be a library, a program, or a new name: then its root is made, with the modules alone.

Why: rt walks every path through the graph of crates.txt at each command, some twenty times a crate in rt ci, and a deep graph of two hundred crates has
a hundred million paths. Folding a handful of crates that all others list takes that to two million. Nothing is renamed but the way to it:
    crates/band/src/lib.rt          crates/rule/src/band.rt             band::Band                  rule::band::Band
    crates/band/specs/M.antt        crates/rule/specs/band/M.antt       Rattle.band.specs.M         Rattle.rule.specs.band.M
    crates/band/proofs/f/..         crates/rule/proofs/band/f/..        Rattle.band.proofs.f        Rattle.rule.proofs.band.f
    crates/band/must-fail/x.edit    crates/rule/must-fail/x.edit        file: src/lib.rt            file: src/band.rt
A must-fail edit whose name is taken there gets the crate's name before it. docs/, tests/ and tools/ are left to the reader: it prints what to look for.
"""
import os
import re
import subprocess
import sys


def read(path):
    with open(path, encoding="utf-8") as f:
        return f.read()


def write(path, text):
    os.makedirs(os.path.dirname(path), exist_ok=True)
    with open(path, "w", encoding="utf-8") as f:
        f.write(text)


def files_of(folder):
    for at, dirs, names in os.walk(folder):
        dirs[:] = sorted(d for d in dirs if d != "out")
        for name in sorted(names):
            yield os.path.join(at, name)


def crate_lines():
    """The crates in order: name, deps, and the comment lines above each."""
    lines, above = [], []
    for line in read("crates.txt").splitlines():
        if line.startswith("#") or not line.strip():
            above.append(line)
            continue
        name, deps = line.split(":", 1)
        lines.append([name.strip(), deps.split(), above])
        above = []
    return lines


def new_place(kind, rest, crate):
    """Where a file of a folded crate goes, below src, specs or proofs."""
    if kind == "src":
        return f"{crate}.rt" if rest == "lib.rt" else f"{crate}/{rest}"
    return f"{crate}.antt" if rest == "Lib.antt" else f"{crate}/{rest}"


class Turn:
    """Turns the paths that one file writes. home is the crate that the file ends in, own the folded crate that it comes from, or None."""

    def __init__(self, into, home, own):
        self.into, self.home, self.own, self.mods = into, home, own, set()

    def antt(self, text):
        def path(m):
            crate, side, rest = m[1], m[2], m[3]
            if crate not in self.into:
                return m[0]
            to = self.into[crate]
            if side == "specs" and (n := re.match(r"\.(contracts|declared)(?![\w'])", rest)):
                return f"Rattle.{to}.specs.{n[1]}.{crate}{rest[n.end():]}"
            return f"Rattle.{to}.{side}.{crate}{rest}"

        return re.sub(r"\bRattle\.(\w+)\.(specs|proofs)((?:\.(?:contracts|declared)(?![\w']))?)", path, text)

    def rust(self, line):
        """A line of code: `crate::` of a folded crate, and paths that begin with a crate's name."""
        if self.own:
            line = re.sub(r"(?<![\w:])crate::", f"crate::{self.own}::", line)

        def path(m):
            crate = m[1]
            if crate in self.mods:
                return m[0]
            to = self.into.get(crate)
            if to == self.home:
                return f"crate::{crate}::"
            if to:
                return f"{to}::{crate}::"
            return "crate::" if crate == self.home and self.own else m[0]

        return re.sub(r"(?<![\w:'\"])(\w+)::", path, line)

    def rt(self, text):
        # A module of the file's own comes before a crate of its name.
        self.mods = set(re.findall(r"(?m)^\s*(?:pub )?mod (\w+);", text))
        out = []
        for line in text.split("\n"):
            code, mark, note = line, "", ""
            if (at := line.find("//")) >= 0:
                code, mark, note = line[:at], line[at : at + 2], line[at + 2 :]
            parts = re.split(r'(b?"(?:[^"\\]|\\.)*")', code)
            parts[::2] = [self.rust(self.antt(p)) for p in parts[::2]]
            out.append("".join(parts) + mark + note)
        return "\n".join(out)


def main(argv):
    if not argv or argv[0] in ("-h", "--help"):
        print(__doc__)
        return 0 if argv else 2
    loose = "--uncommitted" in argv
    argv = [a for a in argv if a != "--uncommitted"]
    if not loose and subprocess.run(["git", "status", "--porcelain", "--", "crates", "crates.txt"], capture_output=True, text=True).stdout.strip():
        print("fold: commit crates/ and crates.txt first", file=sys.stderr)
        return 2
    leaves = "--leave" in argv
    argv = [a for a in argv if a != "--leave"]
    into = {c: to for to, _, cs in (a.partition(":") for a in argv) for c in cs.split(",")}
    lines = crate_lines()
    known = {it[0] for it in lines}
    for c in into:
        if c not in known or c in into.values():
            print(f"fold: {c} is no crate, or both folds and is folded into", file=sys.stderr)
            return 2
    for to in dict.fromkeys(into.values()):
        if to not in known:
            write(f"crates/{to}/src/lib.rt", f"//! {to}\n#![tactic(auto)]\n")
            lines.append([to, [], [f"# {to}"]])
    # Every file is turned where it stands, and then the folded ones move.
    for name, _, _ in lines:
        home, own = into.get(name, name), name if name in into else None
        turn = Turn(into, home, own)
        for path in files_of(f"crates/{name}"):
            if path.endswith(".rt"):
                text = turn.rt(read(path))
                if own and path == f"crates/{name}/src/lib.rt":
                    text = re.sub(r"(?m)^#!\[.*\]\n", "", text)
                write(path, text)
            elif path.endswith(".antt"):
                write(path, turn.antt(read(path)))
            elif path.endswith(".edit"):
                out = []
                for line in read(path).split("\n"):
                    if own and (m := re.match(r"file: (src|specs|proofs)/(.*)", line)):
                        line = f"file: {m[1]}/{new_place(m[1], m[2], name)}"
                    elif m := re.match(r"(old: |new: |control: )(.*)", line):
                        line = m[1] + turn.rt(m[2])
                    out.append(line)
                write(path, "\n".join(out))
    taken = []
    for crate, to in into.items():
        for path in list(files_of(f"crates/{crate}")):
            kind, _, rest = path[len(f"crates/{crate}/") :].partition("/")
            if kind in ("src", "specs", "proofs"):
                goal = f"crates/{to}/{kind}/{new_place(kind, rest, crate)}"
            elif kind == "must-fail":
                goal = f"crates/{to}/must-fail/{rest}"
                if os.path.exists(goal):
                    goal = f"crates/{to}/must-fail/{crate}_{rest}"
                    taken.append(goal)
            else:
                goal = f"crates/{to}/{kind}" if not rest else f"crates/{to}/{kind}/{rest}"
            if os.path.exists(goal):
                print(f"fold: {goal} is there already: {path} stays", file=sys.stderr)
                return 1
            os.makedirs(os.path.dirname(goal), exist_ok=True)
            subprocess.run(["git", "mv", path, goal], check=True)
        # proofs/ mirrors the modules of src/ by itself; specs/ names each.
        if os.path.exists(f"crates/{to}/specs/{crate}.antt"):
            lib = f"crates/{to}/specs/Lib.antt"
            write(lib, (read(lib) if os.path.exists(lib) else "") + f"pub mod {crate}\n")
        root = f"crates/{to}/src/lib.rt"
        if not os.path.exists(root):
            root = f"crates/{to}/src/main.rt"
        text = read(root)
        # The module's line stands under the imports' attribute and ghost uses.
        at = 0
        for m in re.finditer(r"(?m)^(//.*|#!\[.*\]|ghost use (?:[^;]|\n)*?;)\n", text):
            if m.start() != at:
                break
            at = m.end()
        write(root, text[:at] + f"\npub mod {crate};\n" + text[at:])
    # crates.txt: the folded lines go, and what others list is listed once.
    deps = {n: d for n, d, _ in lines}
    out = []
    for name, own, above in lines:
        if name in into:
            continue
        wanted = [*own, *[x for c, to in into.items() if to == name for x in deps[c]]]
        turned = []
        for x in wanted:
            x = into.get(x, x)
            if x != name and x not in turned:
                turned.append(x)
        out += [*above, f"{name}: {' '.join(turned)}".rstrip()]
    for crate, to in into.items() if leaves else ():
        # The items that are public at the old root, with what it passed on itself.
        text = read(f"crates/{to}/src/{crate}.rt")
        items = re.findall(r"(?m)^pub (?:extern \"C\" )?(?:const )?(?:fn|struct|enum|type|const) (\w+)", text)
        for one, many in re.findall(r"(?m)^pub use [\w:]*?(?:(\w+)|\{([^}]*)\});", text):
            items += [w.strip() for w in (one or many).split(",") if w.strip()]
        if items:
            names = ", ".join(dict.fromkeys(items))
            use = f"{{{names}}}" if "," in names else names
            write(f"crates/{crate}/src/lib.rt", f"// Passed on from where it stands now, `{to}::{crate}`.\n#![tactic(auto)]\n\npub use {to}::{crate}::{use};\n")
            out.append(f"{crate}: {to}")
    write("./crates.txt", "\n".join(out) + "\n")
    print(f"fold: {len(into)} crates folded, {sum(':' in it for it in out if not it.startswith('#'))} left; edits renamed: {taken or 'none'}")
    print("fold: rt fmt in the crates touched; then look for the old names in docs/, tests/, tools/ and .ci/: " + " ".join(into))
    return 0


if __name__ == "__main__":
    raise SystemExit(main(sys.argv[1:]))
