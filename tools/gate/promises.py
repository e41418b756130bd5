"""The edits that stand for a promise of the product, as docs/PROMISES.md names them."""
import os
import re

# A line of the table in docs/PROMISES.md: a bug, the crate that refuses it, and the edit.
PROMISED = re.compile(r"^\| .* \| (\w+) `(\w+)` \|$", re.M)


def promised():
    """The edits that stand for a promise of the product, as docs/PROMISES.md names them: each as its crate and its name."""
    with open("docs/PROMISES.md", encoding="utf-8") as it:
        return set(PROMISED.findall(it.read()))


def edits_of_promises(edits):
    """The edits of promises that the gate doesn't try, by their crates, of all edits by their crates; and what doesn't fit: an edit that is named and
    not there, and one that the gate tries and no promise names."""
    named = promised()
    there = {(crate.name, os.path.basename(it)[: -len(".edit")]): it for crate in edits for it in edits[crate]}
    own = {it for it in there if os.path.basename(os.path.dirname(there[it])) == "must-fail"}
    unfit = [f"{crate} {name}: docs/PROMISES.md names it, and it isn't there" for crate, name in sorted(named - set(there))]
    unfit += [f"{crate} {name}: the gate tries it, and docs/PROMISES.md doesn't name it" for crate, name in sorted(own - named)]
    left = sorted(named & set(there) - own)
    return {crate: [there[it] for it in left if it[0] == crate.name] for crate in edits}, unfit
