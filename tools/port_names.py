#!/usr/bin/env python3
"""Spells the names of this repository's own definitions and lemmas as today's Rattle does.

usage: python3 tools/port_names.py        once, at the top of the repository, after the kit's port.py

Functions, lemmas and fields go from dashes to snake case (`section-at` to `section_at`), facts to camel case (`One-state` to
`OneState`). Only the names listed here are touched, each as a whole token of a .rt or .antt file, or of a code span of a page.
Goals that the check names (`loop-state-preserved`) are none of them.
"""

import pathlib
import re
import sys

NAMES = """
Inputs-alone Not-both One-state One-state-barred One-state-lawful Replies-second Starts-won
all-granted and-has answer-kept answer-text assumed-inside assumptions-of at-two
bad-cell bad-cell-found bad-number bad-value barred-or-in below-fine both-inside buffer-number built-in-lawful
by-c by-e byte-refusal bytes-as
cell-allowed cell-bad cell-of cell-offset cell-passed claim-refusal controller-at controller-closed controller-guaranteed
controller-meets controller-move controller-unassumed controllers-one-state countered-memory
decides-every each-passes each-state earliest-start environment-at environment-barred environment-meets environment-move
environment-unguaranteed every-same exactly-sized
failing-pair false-mask few-assumptions few-guarantees few-inputs few-outputs few-replies few-signals few-states first-here
first-none first-none-all flag-inside forcing-input
given-where greatest-length guaranteed-inside guarantees-of
header-end held-states image-goals image-moves image-of-judged index-inside input-bits-of input-count input-field
inputs-alone inputs-of is-controller is-image is-legal is-rules is-table
judged-as judged-of-image kind-after kind-goals kind-moves kind-named kind-of
lawful-goals lawful-moves leads-from-inside leads-inside least-length leasts-of legal-and-in length-refusal letter-of line-more
low-masks-hold lower-states lowest-finds lowest-passes lowest-reply
masks-at-hold masks-by-and masks-hold may-follow move-or-unmet
near-states next-is next-mask next-memory no-bad-cell none-fails none-told not-both number-bad number-offset
one-bit-more one-fails one-more-passes one-state-barred one-state-known one-state-lawful open-there opened-bytes opened-kind
or-false output-bits-of
pair-fails pow-at-most reading-counters reading-replies refusal-number refusal-text refusal-values refused-at
refused-for replied-memory replies-of replies-second reply-count right-length row-holds row-refusal row-width-of rows-hold
rule-refusal rules-goals rules-moves
same-is same-past says-kind section-at section-inside section-size sheet-refusal side-number size-fits small-f small-t some-assumption
some-guarantee some-has some-input some-lacks some-reply some-state spaced-numbers spelled-goals spelled-moves starts-inside
starts-won state-bits-of state-count state-from state-inside state-line state-lines state-refusal state-small states-of
stays-endless
table-goals table-moves table-sizes target-counted target-lawful target-of told-some too-many-bits true-mask
value-at value-if verdicts-text with-memory worked-bytes worked-game
""".split()


def spelled(name):
    if name[0].isupper():
        return "".join(part[0].upper() + part[1:] for part in name.split("-"))
    return name.replace("-", "_")


NEW = {name: spelled(name) for name in NAMES}
TOKEN = re.compile(r"[^\s(){}.;,λ`\"&|]+")
SPAN = re.compile(r"`[^`\n]+`")


def turned(text):
    return TOKEN.sub(lambda m: NEW.get(m.group(), m.group()), text)


def turned_page(text):
    return SPAN.sub(lambda m: turned(m.group()), text)


def main():
    if len(NEW) != len(NAMES) or len(set(NEW.values())) != len(NEW):
        sys.exit("port_names: two names fall together")
    top = pathlib.Path(".")
    code = [p for p in sorted(top.glob("crates/**/*")) if p.suffix in (".rt", ".antt") and "out" not in p.parts]
    # the page of the port tells the old names
    pages = [top / "README.md", *(p for p in sorted(top.glob("docs/*.md")) if p.name != "PORT.md")]
    for path, turn in [(p, turned) for p in code] + [(p, turned_page) for p in pages]:
        old = path.read_text()
        new = turn(old)
        if new != old:
            path.write_text(new)


main()
