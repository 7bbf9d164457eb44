"""What the refusals of the wrong programs show: the must-fail edits, by what `rt ci` said of them.

`rt ci` says of each edit how it was refused, and the first place that no longer holds, cut. A refusal shows a fact if that place has two things that differ,
numbers at which an arithmetic goal fails, or a goal of a contract that nobody wrote a proof of by hand. One that shows none of these, as where a rewrite
no longer fits, where only a proof file names what the edit took away, or where the prover stopped at a limit of its own, shows nothing.
"""
import re

SAID = re.compile(r"^rt: must-fail (?P<name>\S+)\.edit: (?P<how>.*)$", re.M)
REFUSED = re.compile(r"refused, as it must be: (?P<place>.*)$")
# how a place says it
SHOWN = re.compile(
    r"differ only where one has|first differ where one has|the two types are `|expected type `|one side reads `"
    r"|`omega`: the goal does not follow from what it read|^note: \S+ it is not proved that"
)


def facts(said):
    """For each edit that `rt ci` speaks of, what its refusal shows, or nothing."""
    found = {}
    for line in SAID.finditer(said):
        refused = REFUSED.match(line["how"])
        found[line["name"]] = refused["place"] if refused and SHOWN.search(refused["place"]) else None
    return found


def tell(root, said):
    """Prints what the refusal of each wrong program shows, from the lines of a run of `rt ci`; whether each was tried and shows something."""
    edits = sorted(root.glob("crates/*/must-fail/*.edit"))
    shown = facts(said.read_text())
    dark = 0
    for edit in edits:
        name = f"{edit.parent.parent.name}/{edit.stem}"
        fact = shown.get(name)
        dark += fact is None
        print(f"{name}: {fact or ('no fact is shown' if name in shown else 'it was not tried')}")
    print(f"{len(edits)} wrong programs, {dark} show no fact")
    return dark == 0 and bool(edits)
