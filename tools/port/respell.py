#!/usr/bin/env python3
"""Brings the repository's own definitions and lemmas to the spelling of today's Rattle.

usage: python3 tools/port/respell.py      at the top of a checkout, once, right after port.py

Words are in snake case, facts and types in upper camel case. Names that the toolchain makes, and names of functions, fields and files of
src/, keep their spelling. A name that ghost code had to import under another spelling is imported as it stands.
"""
import os
import re

# definitions, lemmas and fields of specs/ and proofs/
NAMES = set("""
Above-limit All-good By-average Closed-by Crossed-with Follows-for Goes_on Heavier-fails In-bounds Nearest-law
None-lower One-transcript Order-kept Order-needed Rule-for-two Rule-of So-far Tare-is Then-reported Two-lists Two-sheets
Worked-cases Writes-command a-24 a-48 a-past a-tare add-le after-all after-close after-closing after-start after-step
ahead-some alike-trans all-ascend all-complete all-opened all-opened-more allowed-less alone-by and-true at-most-next
at-word average-asked average-first average-fits average-none average-of average-some average-true average-two away-is
away-le away-none away-positive away-step b-30 b-past b-tare both-ruled by-average by-close by-outcome by-plan by-range
by-refusal by-verb by-words c-past category-in category-of category-passes chosen-le chuck-limit chuck-total
chuck-verdict closed-complete closed-ends closed-plan closing-in closing-settled complete-at complete-end complete-more
correct-fine correct-on counted-le crossed-fits crossed-iff decided-on deviates-one digit-here digit-in division-few
division-some drawn-from each-passes eight-short emptied-at emptied-length emptied-more ends-here entry-small error-at
error-fits error-is error-range error-same errors-of even-limit even-verdict every-complete factor-size falls-less
few-places fewer-short fewer-unreasonable fine-if first-average first-column first-line fits-number follows-below
front-digits gap-past good-decimal good-decimals good-kind good-label good-letter good-words gross-of handbook-bounds
holds-empty holds-weighed in-column in-front in-range in-word initial-most inside-all inside-step is-dash is-opened
isShort isUnreasonable kept-by-first kept-open kind-in kind-of kind-reads label-by label-fits label-in label-in-range
label-range label-reads last-tare last-three last-weighing last-words length-first letter-of letter-reads light-limit
light-verdict line-length line-two lot-11 lot-12 lot-250 lot-251 lot-3200 lot-3201 lot-error lot-from lot-is low-count
low-is lower-iff lt-le mapped-none mav-1500 mav-250 mav-50 mav-at mav-known mav-pound mavs-of mavs-same moisture-fits
moved-err mul-size mul-up mul-up-left name-apart nearest-law nearest-most neg-down neg-sq net-error new-inv new-run
new-sheet no-shortage none-lower none-some not-above not-below not-far not-lt not-placed not-reasonable not-weighable
number-apart number-decimal number-in number-of of-effect of-reading of-verb on-plan on-said on-sheet one-le
one-transcript open-ends open-fine open-on opened-at order-kept order-needed outside-found outside-none own-label
package-error package-mav pair-average pair-over pair-within pairs-positive part-is past-gap pencil-rule pencil-short
pencil-unreasonable pencil-verdict performed-fine place-hi place-lo place-of plan-10 plan-12 plan-2 plan-c plan-of
planned-by planned-sound plant-average plant-over put-mid-is random-is reached-passes read-on read-on-more read-on-push
reads-back refusal-line refused-at refused-ends reopen-fine reply-of report-one requires-is row-of row-passes rows-of
rule-for-two run-again run-all run-closed run-open same-figures same-is same-plan scaled-fit scaled-is set-emptied
settle-fine settled-by settled-fine setup-of seven-short short-falls short-few short-is short-more short-push
short-spaced size-max size-min sound-of sound-plan spans-first spans-more spans-range spread-below spread-fits spread-is
spread-pairs spread-positive spread-size sq-down sq-flip sq-none sq-positive sq-up square-fit square-fits square-is
square-size squares-fit squares-is squares-low squares-more squares-push squares-size start-by start-length start-long
start-plan start-reply start-taken step-fine stored-empty strike-fine strike-on table-passes taken-sound tare-down
tare-noted tare-of tare-range tare-remembered tare-sum tare-sum-more tare-sum-push tare-up tared-fine terms-for
terms-kept terms-new terms-of terms-on test-is test-less three-is times-fits times-is times-size told-by told-one
too-high too-low total-at total-for total-is total-least total-more total-most total-push total-up turned-err turned-ok
two-lists two-sheets units-range unreasonable-falls unreasonable-few unreasonable-is unreasonable-more unreasonable-push
unreasonable-short unweighed-is verb-apart verb-of verdict-word weigh-fine weigh-on weighed-by weighed-is weight-by
weight-from weighted-fit weighted-fits weighted-is when-one word-front word-length word-then words-after words-line
zero-no zero-up zero-yes
""".split())

# what ghost code called some of them
ALIASES = set("""
allComplete allOpened allSmall allowedBy aloneBy averageOf categoryIn correctOn errorsOf faultAccount firstColumn
grossOf kindIn labelBy labelFits labelIn letterOf lineLength lotError lotFrom mavsOf meaningOf nearestOf onSheet openOn
placedBy reachedBy readAs refusalLine refusedAt replyOf settlingBy setupOf soundLot startingBy stepBy stillOpen strikeOn
takesOf tareOf tareSum termsOf toldBy totalFor verbOf verdictWord weighOn weighableBy weighedBy weightFrom wordLength
""".split())

# what a context or a module of the toolchain has of its own under such a name
MADE = re.compile(r"(?:^|[\s(,{\[])(?:c|w|l|g|goal)\.$")


def respelled(name):
    parts = re.split("[-_]", name)
    if name[0].isupper():
        return "".join(p[0].upper() + p[1:] for p in parts)
    return re.sub("(?<=[a-z])[A-Z]", lambda m: "_" + m[0].lower(), "_".join(parts))


def proof_line(line):
    code, dashes, said = line.partition("--")
    word = re.compile(r"[^\s(){}\[\];,.:]+")
    return word.sub(lambda m: respelled(m[0]) if m[0] in NAMES and not MADE.search(code[: m.start()]) else m[0], code) + dashes + said


def source_line(line):
    line = re.sub("«([^»]+)»", lambda m: respelled(m[1]) if m[1] in NAMES or "-" not in m[1] else m[0], line)
    if line.lstrip().startswith("ghost "):
        line = re.sub(r"[\w'-]+", lambda m: respelled(m[0]) if m[0] in NAMES else m[0], line)
    line = re.sub(r"\w+", lambda m: respelled(m[0]) if m[0] in ALIASES or m[0] in NAMES else m[0], line)
    return re.sub(r"\b(\w+) as \1\b", r"\1", line)


for folder, folders, files in os.walk("crates"):
    folders[:] = [f for f in folders if f != "out"]
    for file in files:
        turn = proof_line if file.endswith(".antt") else source_line if file.endswith(".rt") else None
        if turn:
            path = os.path.join(folder, file)
            with open(path, encoding="utf-8") as f:
                old = f.read()
            new = "\n".join(turn(line) for line in old.split("\n"))
            if new != old:
                with open(path, "w", encoding="utf-8") as f:
                    f.write(new)
