#!/usr/bin/env python3
"""Turns the names of steps and goals in a crate's proofs/F/Proof.antt to those of today's check.

usage: python3 tools/rename_steps.py CRATE..      in the repository's top

It runs `rt check --generated DIR --old-names` in each crate, which lists the old and the new name of each step, loop and goal of each
function, and turns them where a Proof.antt cites them: `c.if1.true` is `c.if-a-eq0.true`, `tie.Need-loop-preserved` is
`tie.Need-loop-a-preserved`, and `c.before.before.x` is `c.x`. Run it once: a new name may be the old one of another.
It goes by text. Where a module, an argument or a record's own field has the name of a step, it turns that too, and a chain of `.before` that
stood for a record, and not for one of its fields, keeps one: a check names the place, and it is put right by hand.
"""

import json
import os
import re
import shutil
import subprocess
import sys

END = r"(?![A-Za-z0-9_'-])"


def pairs(m):
    steps, goals, loops, places = {}, {}, {}, {}
    for p in m["places"]:
        if p[2] and p[2][0] and (p[2][0] != p[2][1] or "_" in p[2][0]):
            # a value's own step is seldom cited, and its name is a field's too
            if not re.fullmatch(re.escape(p[2][0]) + r"-\d+", p[2][1]):
                steps.setdefault(p[2][0], []).append(p[2][1])
    for (old, new), _ in m["loops"]:
        if old != new:
            loops[old] = new
    for old, new in m["needs"]:
        if old != new or "_" in old:
            goals[old] = new
    for p, new in zip(m["places"], m["places_by_name"]):
        if p[0] != new:
            places[p[0]] = new
    return steps, goals, loops, places


def with_hyphens(table):
    """The same, and each old name as it is with hyphens alone, and as it is with a capital behind each."""
    capitals = lambda old: re.sub(r"-([a-z])", lambda m: "-" + m.group(1).upper(), old.replace("_", "-"))
    return {**{capitals(old): new for old, new in table.items()}, **{old.replace("_", "-"): new for old, new in table.items()}, **{old + "_is": new for old, new in table.items() if "_" in old}, **table}


def turn(text, m, path):
    steps, goals, loops, places = (with_hyphens(t) for t in pairs(m))
    for old in list(goals):
        for kind in ("overflow-", "nonzero-"):
            goals.setdefault(kind + old, goals[old])
    names = {}
    for old, news in steps.items():
        if len(set(news)) > 1:
            print(f"look: {path}: {old} is one of {' '.join(news)}")
        names[old] = news[0]
    for old, new in loops.items():
        names.setdefault(old, new)
        names.setdefault(old + "-test", new + "-test")

    def sub(pattern, table, text):
        if not table:
            return text
        alts = "|".join(re.escape(k) for k in sorted(table, key=len, reverse=True))
        return re.sub(pattern[0] + "(" + alts + ")" + pattern[1] + END, lambda x: x.group(0).replace(x.group(1), table[x.group(1)]), text)

    text = sub((r"(?<=[\w)'\]]\.)", ""), names, text)
    text = sub((r"(?<=Need-)", ""), goals, text)
    text = sub((r"(?<=tie\.invariant-)", ""), loops, text)
    text = sub((r"(?<=tie\.decreases-)", ""), loops, text)
    text = sub((r"(?<=tie\.)", ""), places, text)
    text = sub((r"(?<=lts\.)", ""), places, text)
    # a step further out is a field of its own
    text = re.sub(r"(let \w+ = \w+)(?:\.before)+ in(?![A-Za-z0-9_'-])", r"\1 in", text)
    return re.sub(r"(?:\.before)+(?=\.[A-Za-z0-9_])", "", text)


def main():
    for crate in sys.argv[1:]:
        to = f"/tmp/step-names/{os.getpid()}/{crate}"
        shutil.rmtree(to, ignore_errors=True)
        os.makedirs(to)
        subprocess.run(["rt", "check", "--generated", to, "--old-names"], cwd=f"crates/{crate}", stdout=subprocess.DEVNULL, stderr=subprocess.DEVNULL)
        try:
            with open(f"{to}/names.json") as f:
                modules = json.load(f)
        except OSError:
            print(f"{crate}: no list of names")
            continue
        for module, m in modules.items():
            r = re.fullmatch(r"Rattle-\w+?-proofs\.(.*)\.Lts", module)
            if not r:
                continue
            path = f"crates/{crate}/proofs/{r.group(1).replace('.', '/')}/Proof.antt"
            if not os.path.exists(path):
                continue
            with open(path) as f:
                text = f.read()
            after = turn(text, m, path)
            if after != text:
                with open(path, "w") as f:
                    f.write(after)
                print(path)


if __name__ == "__main__":
    main()
