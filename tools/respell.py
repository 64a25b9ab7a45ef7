#!/usr/bin/env python3
"""Spells the repository's own definitions and lemmas in snake case: tools/respell.py, once, at the top, right after
/opt/rattle/port/port.py. It goes over src/, specs/, proofs/ and the must-fail edits. Comments and strings
stay, and so do the names of the library, of functions and of the goals that Rattle makes."""
import os
import re

NAMES = """
    Line-of above-crushing admitted-at admitted-between admitted-from admitted-range after-gap all-below
    all-from-nth all-nth all-pass-from-all all-ranged alpha-in answer-is answer-line answered-by area-least
    area-most ask-alone ask-enclosed asked-alone asked-enclosed asked-once at-cause at-cracking at-crushing
    away-is balanced-unbarred balances-from balances-to barred-once begun-draft below-cracking
    between-from-inside between-one between-upper blank-gap book-at book-begun book-is book-of by-13 by-14
    by-15 byte-is call-name call-numbers call-printed card-name cause-is cause-line causes-of chain-rest
    chain-sound clamp-high clamp-inside clamp-low clamp-neg clamp-rises compression-in compression-is
    conclude-once concluded-once concludes-alike cond-sound count-is count-rises counted-joined crushed-above
    crushed-cause crushed-walk curvature-is deck-figures deck-whole depth-most depth-of draft-sound
    each-ranged edit-barred either-layer either-once elastic-neg elastic-of elastic-rises elastic-whole
    elastic-zero ended-walked ends-are ends-bounded ends-enclose ends-line ends-meet ends-near ends-once
    ends-part ends-pass entry-kit err-same factors-long fibre-cast fibre-figures fibre-of fibre-ranged
    fibres-are fibres-of figure-once figures-in figures-long figures-ranged first-balances first-beaten
    first-between first-book first-by-neighbour first-chain first-end first-enough first-in first-is
    first-keep first-kit first-moment first-moment-is first-most first-of-all first-out-at first-out-none
    first-out-once first-out-within first-psi first-sound first-stays first-up force-fits force-is force-of
    force-rises force-within front-is gamma-in goes-alike greatest-admitted greatest-before greatest-chosen
    greatest-for greatest-high greatest-is greatest-once greatest-only greatest-place half-between half-fits
    half-mono has-laws has-outcome held-product held-product-fits held-quotient held-quotient-fits held-rise
    held-rise-fits held-run held-run-fits held-run-some held-sum held-sum-fits held-sum-is held-way
    held-way-fits here-line here-positive here-range here-small here-sound here-spans high-positive
    in-draft-once in-draft-sound in-ksi in-range in-strain initial-least initial-most inside-from-between
    is-bare is-greatest is-least item-ranged joined-facts joined-laws kit-laws kit-of kit-of-row last-balances
    last-between last-by-neighbour last-enough last-in last-is last-moment last-moment-is later-lowest law-is
    law-numbered law-of law-of-lawful law-or-none law-or-none-lawful law-reached laws-are layer-ranged le-self
    least-admitted least-chosen least-for least-is least-once least-only least-place least-positive
    least-reached led-more led-none led-to lever-fits lever-is-whole lever-small lever-taken limits-are
    limits-at limits-in limits-line limits-same line-fits line-high line-is line-last line-rises listed-long
    load-figures load-sound load-turn-once load-within loaded-sound low-is low-positive lower-sets-greatest
    map-lawful material-law material-lawful materials-of meaning-of middle-in moment-of most-positive
    moved-sound name-of-command narrowed-first narrowed-last narrowed-more nearest-mono never-none new-job
    no-form no-law no-law-lawful none-admitted none-admitted-walk none-cause none-empty not-above not-bare
    not-below nowhere-before nowhere-empty nowhere-not-at-end nowhere-reached nth-sound number-taken
    numbered-at numbered-past numbers-long on-given on-plateau one-le one-outcome one-ranged one-run
    only-words onward-high onward-line onward-low onward-past onward-past-gap onward-rises onward-start
    onward-whole-line open-refused option-rises out-of-turn-once outcome-in outcome-line outcome-of p-is
    pairwise-all pairwise-getD pairwise-kept pairwise-length pairwise-more pairwise-places pairwise-push
    pairwise-pushed part-rises part-whole parted-below parted-cause passed-more passed-out past-last
    past-start places-all places-are plateau-starts plateaus-line point-law point-shape point-stress
    points-are points-lawful points-read position-is printed-is product-fits product-is-whole product-natural
    pull-of pull-rises pull-small pull-within put-has-laws put-not-refused put-once put-ranged
    put-refused-once put-sound put-turn-once quot-neg quot-rises ranged-put ranged-taken reach-line
    reached-first reached-item reached-none reached-onward reached-rises reached-second reached-some
    reached-sound reached-under reaches-on real-count real-part reals-are reduction-of refilled-once
    refusal-line refused-again refused-open reopen-once reopen-sound replay-more rest-fits rest-is result-kept
    result-refused run-cut run-not-empty run-once run-some run-taken same-says same-sound same-value says-once
    scale-fits scale-neg scale-positive scale-rises scaled-within second-follow sentence-of sets-greatest
    sets-greatest-once sets-least sets-least-once share-fits share-is shown-moved since-more some-admitted
    some-law some-nth sound-range spelling-is-text start-once start-refused start-sound state-line
    steel-figures steel-whole step-law step-lawful step-once step-refused step-sound step-stress steps-left
    steps-to-once still-reached strain-fits strain-high strain-least strain-low strain-most strain-of
    stress-at stress-below stress-high stress-is stress-low stress-neg stress-of stress-onward stress-or-zero
    stress-rises sum-rises sum-within summed-fits summed-more summed-none take-keeps take-once take-sound
    take-turn-once tension-in tension-is thousandths-of told-ends told-once told-outcome told-refused
    top-layer top-sets-least true-cause truths-of turn-led turn-once turn-sound turn-within turned-is
    turned-most turns-within two-line two-line-between two-line-high two-line-law two-line-lawful
    two-line-line two-line-low two-line-odd two-line-rises two-line-shape two-line-zero uhpc-figures
    uhpc-whole unbalanced-once unmet-askable unmet-once up-to-first v-is walk-printed walked-from-draft
    walks-by walks-on whole-bounded whole-casts whole-exact whole-figures word-begins written-more
    written-points x-positive
""".split()

# Two names had a capital besides.
SPELLED = {"pairwise-getD": "pairwise_get_or", "Line-of": "line_of"}

# A fact that Rattle names in a branch, and no definition of ours.
MADE = ("w.count-is",)

EDGE = r"\s(){}\[\],;.:⌜⌝"
WORD = re.compile(rf"(?<![^{EDGE}])(" + "|".join(re.escape(n) for n in sorted(NAMES, key=len, reverse=True)) + rf")(?![^{EDGE}])")


def respell(text):
    def word(m):
        if any(text[: m.end()].endswith(made) for made in MADE):
            return m[0]
        return SPELLED.get(m[0], m[0].replace("-", "_"))

    return WORD.sub(word, text)


def line_of(line, comment):
    """The line with its comment and its strings left alone."""
    parts = re.split(rf'((?:^|(?<=\s)){comment}(?:\s.*)?$|"(?:[^"\\]|\\.)*")', line)
    return "".join(p if i % 2 else respell(p) for i, p in enumerate(parts))


def main():
    for folder, dirs, files in os.walk("crates"):
        dirs[:] = sorted(d for d in dirs if d != "out")
        for f in sorted(files):
            if not f.endswith((".rt", ".antt", ".edit")):
                continue
            path = os.path.join(folder, f)
            with open(path, encoding="utf-8") as file:
                old = file.read()
            comment = "--" if f.endswith(".antt") else "//"
            new = "\n".join(line_of(line, comment) for line in old.split("\n"))
            if new != old:
                with open(path, "w", encoding="utf-8") as file:
                    file.write(new)


main()
