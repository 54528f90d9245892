#!/usr/bin/env python3
"""Brings this repository's own definitions and lemmas to today's spelling.

Words are in snake case; a dash stays only where it joins the name of a
definition to what is said of it. Run once, at the top of a checkout, after
the kit's own script. Functions of src/, strings, inputs, outputs and the
names of generated goals keep their spelling.
"""
import glob
import re

RENAMED = dict(
    line.split()
    for line in """
    ac-begins ac_begins
    ac-written ac_written
    acLine ac_line
    acLines ac_lines
    acRun ac_run
    adds-by adds_by
    afterAc after_ac
    afterDc after_dc
    afterField after_field
    afterHeading after_heading
    afterName after_name
    all-formed all_formed
    all-some all_some
    all-unit all_unit
    answer-runs answer_runs
    at-cons at_cons
    atAc at_ac
    atDc at_dc
    before-later before_later
    behind-name behind_name
    both-decide both_decide
    both-more both_more
    by-slot by_slot
    channelIn channel_in
    count-more count_more
    countIn count_in
    dc-begins dc_begins
    dc-written dc_written
    dcLine dc_line
    dcLines dc_lines
    dcRun dc_run
    decides-when decides_when
    ends-in-ac ends_in_ac
    equalSteps equal_steps
    escapeIn escape_in
    fieldIn field_in
    fields-step fields_step
    fieldsSaid fields_said
    fileIn file_in
    filledBy filled_by
    first-appearances first_appearances
    first-letter first_letter
    first-line first_line_cut
    firstIn first_in
    firsts-push firsts_push
    firsts-set firsts_set
    flagNext flag_next
    flagOn flag_on
    formedBy formed_by
    formedOf formed_of
    four-pairs four_pairs
    goTogether go_together
    goesOn goes_on
    head-next head_next
    head-written head_written
    headStep head_step
    headingOf heading_of
    heightOn height_on
    hexDigit hex_digit
    hexDigits hex_digits
    hexPair hex_pair
    hexWord hex_word
    in-slot in_its_slot
    inAc in_ac
    inDc in_dc
    inRun in_run
    info-at info_at
    infoIn info_in
    into-ac into_ac
    into-dc into_dc
    is-own is_own
    isBlank is_blank
    isEscape is_escape
    isFor is_for
    isIdle is_idle
    isLossy is_lossy
    isNumeral is_numeral
    isSlot is_slot
    joined-map joined_map
    joined-runs joined_runs
    kept-all kept_all
    known-bounded known_bounded
    knownBytes known_bytes
    last-decided last_decided
    last-in last_in
    lastPlace last_place
    lastPlace-is last_place-is
    lastPlace-more last_place-more
    lastPlace-none last_place-none
    lastPlace-push last_place-push
    least-cover least_cover
    leaves-more leaves_more
    lent-infos lent_infos
    letterIn letter_in
    letterSize letter_size
    lettersBehind letters_behind
    lettersIn letters_in
    lineAfter line_after
    lineEnds line_ends
    lines-behind lines_behind
    lines-written lines_written
    linesAfter lines_after
    linesLeft lines_left
    list-more list_more
    lone-at lone_at
    lonesIn lones_in
    long-us long_us
    lossy-same lossy_same
    lossyAt lossy_at
    map-twice map_twice
    mapIn map_in
    met-new met_new
    met-old met_old
    moreAc more_ac
    moreDc more_dc
    name-added name_added
    name-inside name_inside
    nameIn name_in
    negativeIn negative_in
    never-closed never_closed
    next-lines next_lines
    no-fault no_fault
    no-fewer no_fewer
    no-high no_high
    no-low no_low
    noChannel no_channel
    noHeading no_heading
    noRule no_rule
    noSlots no_slots
    noTriplet no_triplet
    noUnit no_unit
    not-ok not_ok
    not-true not_true
    numberNext number_next
    onFirst on_first
    onLine on_line
    own-slot own_slot
    pairwise-at pairwise_at
    pairwise-distinct pairwise_distinct
    pairwise-found pairwise_found
    pairwise-kept pairwise_kept
    pairwise-weaker pairwise_weaker
    pastAc past_ac
    pastDc past_dc
    planeArea plane_area
    planeStart plane_start
    positiveIn positive_in
    prefixIn prefix_in
    prefixesIn prefixes_in
    quote-first quote_first
    read-is-written read_is_written
    rectangleIn rectangle_in
    room-channels room_channels
    room-map room_map
    room-triplets room_triplets
    rule-decides rule_decides
    ruleIn rule_in
    run-answers run_answers
    same-name same_name-law
    same-type same_type-law
    sameSteps same_steps
    sameType same_type
    scheme-more scheme_more
    schemeAt scheme_at
    schemeIn scheme_in
    schemeNext scheme_next
    sides-take sides_take
    signedIn signed_in
    slot-decides slot_decides
    slotIn slot_in
    slotNext slot_next
    slotOn slot_on
    slots-by slots_by
    slots-more slots_more
    some-field some_field
    some-line some_line
    split-more split_more
    splits-cut splits_cut
    stream-read stream_read
    stream-written stream_written
    streamStep stream_step
    suffixIn suffix_in
    tail-splits tail_splits
    to-all to_all
    to-close to_close
    together-same together_same
    togetherIn together_in
    topOn top_on
    totalSamples total_samples
    triplet-at triplet_at
    tripletOf triplet_of
    tripletsIn triplets_in
    typeNext type_next
    typeOn type_on
    unequalSteps unequal_steps
    unitsIn units_in
    unlessRefused unless_refused
    unsignedIn unsigned_in
    up-to-0 up_to_0
    view-at view_at
    widthOn width_on
    with-field with_field
    withAc with_ac
    withChannel with_channel
    withDc with_dc
    withRectangle with_rectangle
    withRule with_rule
    within-total within_total
    word-pairs word_pairs
    words-read words_read
    words-written words_written
    written-is-read written_is_read
    writtenIn written_in
    xOn x_on
    yOn y_on
""".strip().splitlines()
)

# A word of a contract or a proof: a dash, a prime and letters go on with it.
WORD = re.compile(r"(?<![\w'\-])[A-Za-z][\w'\-]*")
PAGE_WORD = re.compile(r"(?<![\w'\-])[a-z]+[A-Z]\w*")


def respell(path, word):
    with open(path, encoding="utf-8") as file:
        old = file.read()
    new = word.sub(lambda found: RENAMED.get(found.group(0), found.group(0)), old)
    if new != old:
        with open(path, "w", encoding="utf-8") as file:
            file.write(new)


def one_element_word(path):
    """`slice_index_or` for the element of a list, which the kit's script leaves as `get_or` in places."""
    with open(path, encoding="utf-8") as file:
        old = file.read()
    new = re.sub(r"(?<![\w\-])get_or(?![\w\-])", "slice_index_or", old)
    new = re.sub(r"(use Rattle\.std\.specs\.Prelude\.\{)([^}]*)\}", without_repeats, new)
    if new != old:
        with open(path, "w", encoding="utf-8") as file:
            file.write(new)


def without_repeats(found):
    names = dict.fromkeys(name.strip() for name in found.group(2).split(","))
    return found.group(1) + ", ".join(names) + "}"


def main():
    for pattern in ("specs/**/*.antt", "proofs/**/*.antt", "src/**/*.rt"):
        for path in glob.glob("crates/*/" + pattern, recursive=True):
            respell(path, WORD)
    for pattern in ("specs/**/*.antt", "src/**/*.rt"):
        for path in glob.glob("crates/*/" + pattern, recursive=True):
            one_element_word(path)
    for path in glob.glob("docs/*.md") + ["README.md"]:
        respell(path, PAGE_WORD)


main()
