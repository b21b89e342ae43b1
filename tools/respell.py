#!/usr/bin/env python3
"""Spells the repository's own definitions and lemmas as today's Rattle does: facts in camel case, all else in snake case.

usage: python3 tools/respell.py [FOLDER]     after the kit's port.py, once; a second run changes nothing

A dash stays where it joins two names in a lemma (`length-plus`, `has-elements`). Names of the library and those that
Rattle makes are left alone. It goes over the crates and, between backticks, over README.md and docs/ (but for the page that tells
of both spellings, docs/PORT.md).
"""

import glob
import os
import re
import sys

# Facts and records: each becomes camel case.
FACTS = """
Always-faults Always-faults-renewal Brings-back By-script Data-member Disk-fault Exact-changes Faults-by-history
Faults-here Fit-below Found-data Gone-since In-part Is-unit On-disk Passes-renewal Placing-examples Placing-law
Same-numbers Sum-laws Units-are-members
""".split()

# Definitions, fields and lemmas: each becomes snake case.
WORDS = """
a-disk access-answer after-renewal after-renewal-there after-write-there and-from-subset and-true at-node below-pow
by-access by-renewal bytes-at bytes-known bytes-step cause-of chain-apart chain-check chain-disk chain-law chain-member
chain-member-0 chain-numbers chain-owned chain-owner chain-place chain-row chain-stands check-disk copy-stands
data-units data-width decides-subset disk-before disk-below disk-fits disk-of disk-turned due-gone due-is due-there
elements-all elements-from elements-half elements-in elements-rising even-out exact-changes faults-by-history few-disks
few-rows first-cause first-stands fits-holds from-has from-rising gone-after gone-by-access gone-elsewhere gone-here
gone-length gone-set has-and has-complement has-difference has-ext has-ext-below has-high has-insert has-insert-within
has-none has-or has-pow has-remove has-remove-high has-remove-within has-suc has-zero holds-unit in-range left-either
left-mark line-range line-with lowest-trailing mark-step marked-after marked-by-renewal marks-told member-at
member-turned never-same new-memory next-count next-disk next-number none-fits numbers-kept numbers-step odd-in
on-stripe one-from-others one-on-disk ones-add ones-elements ones-insert ones-one other-digit others-are owner-below
pair-check pair-law pair-member-0 pair-numbers pair-owned pair-owner pair-stands part-at-is phase-number place-fits
place-unit places-apart plus-self plus-zeros raid5-check raid5-disk raid5-law raid5-member raid5-member-0
raid5-member-1 raid5-numbers raid5-owned raid5-owner raid5-place raid5-stands read-faulted read-handed read-served
renew-faulted renew-served renewal-answer same-digit same-disk same-fault same-meaning same-member set-elsewhere
set-length some-rows stripe-below subset-from-and sum-below-fits sum-out summed-more summed-none unit-at unit-at-other
unit-at-same unit-beside-zeros unit-laws unit-member unit-of-zeros units-are-members with-bytes with-check
with-check-fits with-check-sound with-disk with-mark with-part-is with-sum with-unit-is with-zeros without-fits
without-same write-faulted write-served
""".split()

# Lemmas on two names, which a dash joins; `getD` is the library's `get_or` now.
JOINED = {
    "elements-has": "elements-has",
    "has-elements": "has-elements",
    "getD-part-at": "get_or-part_at",
    "getD-plus": "get_or-plus",
    "getD-unit-at": "get_or-unit_at",
    "getD-with-part-after": "get_or-with_part_after",
    "getD-with-part-before": "get_or-with_part_before",
    "getD-with-part-in": "get_or-with_part_in",
    "length-part-at": "length-part_at",
    "length-plus": "length-plus",
    "length-unit-at": "length-unit_at",
    "length-with-part": "length-with_part",
    "length-with-unit": "length-with_unit",
}

# Pages of the first spelling also name what port.py itself turned into snake case.
TURNED = """
after-write at-first at-one at-place by-number digit-and digit-or handed-out holds-fits index-below line-of marked-by
no-digit none-below number-is one-in one-more ones-none out-of-range pair-of pair-place part-at place-at plus-assoc
plus-comm row-below row-of same-numbers same-place set-here sum-below sum-fits sum-same this-place two-in two-out
with-part with-unit without-other
""".split()


def table():
    names = {f: "".join(p[0].upper() + p[1:] for p in f.split("-")) for f in FACTS}
    names |= {w: w.replace("-", "_") for w in WORDS}
    names |= JOINED
    new = list(names.values())
    assert len(new) == len(set(new)), "two names fall together"
    return names


# A whole name of antt: a dash, a prime or a letter beside it is part of another name.
EDGE = r"[\w'′\-]"


def respell(text, names):
    old = "|".join(re.escape(n) for n in sorted(names, key=len, reverse=True))
    return re.sub(rf"(?<!{EDGE})({old})(?!{EDGE})", lambda m: names[m.group(1)], text)


def main(top):
    names = table()
    pages = names | {w: w.replace("-", "_") for w in TURNED}
    changed = 0
    for path in sorted(glob.glob(os.path.join(top, "**", "*"), recursive=True)):
        here = os.path.relpath(path, top)
        page = here == "README.md" or re.fullmatch(r"docs/(?!PORT)[\w.-]+\.md", here)
        code = re.fullmatch(r"crates/\w+/(src|specs|proofs)/.*\.(rt|antt)", here)
        if not (page or code):
            continue
        with open(path, encoding="utf-8") as f:
            text = f.read()
        new = re.sub(r"`[^`\n]+`", lambda m: respell(m.group(0), pages), text) if page else respell(text, names)
        if new != text:
            with open(path, "w", encoding="utf-8") as f:
                f.write(new)
            changed += 1
    print(f"{changed} files respelled")


if __name__ == "__main__":
    main(sys.argv[1] if len(sys.argv) > 1 else ".")
