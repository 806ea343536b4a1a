#!/usr/bin/env python3
"""Spells the repository's own definitions and lemmas as the toolchain's guides do: a word in snake case. Run once, at the top, after the
toolchain's own script. Names of src/, of C, strings, inputs and outputs are left.

It also brings the must-fail edits to the spelling that the toolchain's script gave the files that they edit."""

import os
import re

# The names of the repository's definitions, and parts of names of its lemmas, that were in camel case.
CAMEL = """
afterLine allHold allPrint allRead allowedAt answerCode answerRefusal answerRoom answerTo answersOf answersOn atDestination atEnd badByte
badDraws badLength badLine badSize batchAnswer batchEntries batchOutput batchRefusal batchedAnswer blockNearInRow blocksLine blocksWord
boxAt boxFrom boxList boxOf boxRefusal boxedAnswer boxesFrom brokenRule bufferOf canGoOn channelRank checkedNumber climbOf closeTo
columnAfter columnBy columnsApart commandAt commandOf commandStep convertedAnswer cornersFrom countBelow drawRefusal drawnAnswer drawnFaults
drawnMap drawnPlaces endColumn endRow farColumn faultBefore faultBoxes faultLine faultMap faultTests faultWord faultsFrom fedAfter feedAll
fileOf fileTests freshPacket goesOn goesStraight groupsFrom groupsRoom hasLine headingNumber hopAt hopBefore hopBreaks hopBy hopFrom
hopLimit hopTests hopsNamed hopsOf hopsOn howMany inBox inColumns inItsRow inRounds inRow inRows indexOf isAmong isBad isChannel isDigit
isMisplaced isNetwork isOther isRecord isRight isRoute isRule1 isRule2 isSame isThere judgeFrom judgedVerdict judgementOn lastCoded lastIs
lastLine lastNumber lawfulHops lawfulRoute legBefore legBytes legNumber legOf legRefusalNumber legsAfter legsFrom legsIn legsOf lentNumber
letterMistake letterTests lettersFrom lettersOf lettersThenArrived lineStep lineWord mapOf mapTests markRefusal markedAnswer markedRounds
mayHop mayTurn meetsEdge mergeAll mergeTwo meshLine meshOf meshWord misplacedAt mistakeNumber mostHops mostLawful moveAnswer moveRecord
moveRefusal movedBy movedPacket movedTold nearBlocks nearColumn nearInRow nearsRow networkNumber networkOf nextLine nextState noFaults
noLetter noRequest nodeAfter nodeBox notLarge notOwn numberBytes numberFrom numberTold numberedTo numbersOf offMesh okLine okWord onMesh
onRing oneIf otherRow packetAt packetOf permitsWest pickNetwork pickOf pickedPlace placeCount placeNumbered placeTests putBox putFirst
putHops putReturned quarterTurns readFed readFile readGroups readLegs readNumber readerOf recordAfter recordAt refusalCode refusalOf
refusalOn requestRefusal requestTests roomFor routeAnswer routeCall routeCallOn routeOutput routeRefusal routedAnswer rowAfter rowBox
rowsApart ruleA ruleAbout ruleB ruleNumber ruleOf safeNodes sameAnswers sameList sameNetwork samePlace saysEnds saysLine saysNumber
sendAnswer sendAt sendRoom sendTests sendTo sendWord sendsOf shutIn someBlock someClose someFrom someLong someNear someOther spacedAt
spacedLetters spanTold stageOf stateAfter statesAre testedNumber toldCode tooLong tripOf tripOn tripTests tripTo turnBreaks turnsBack
turnsWest twoAt twoOf unlessRefused unsafeNodes verdictCode verdictIndex
""".split()

# Lemmas whose name would fall together with a definition's: (file, name, new name).
APART = [
    ("crates/theory_demands/proofs/Calls.antt", "is_same", "is_same_lem"),
    ("crates/theory_demands/proofs/Theorems.antt", "is_same", "is_same_lem"),
    ("crates/theory_draw/proofs/Numbering.antt", "in_rows", "in_rows_lem"),
    ("crates/theory_legs/proofs/Files.antt", "all_read", "all_read_lem"),
    ("crates/theory_legs/proofs/Files.antt", "read_number", "read_number_lem"),
    ("crates/theory_legs/proofs/Groups.antt", "read_number", "read_number_lem"),
    ("crates/theory_legs/proofs/Refusals.antt", "too_long", "too_long_lem"),
    ("crates/theory_sheet/proofs/Printing.antt", "after_line", "after_line_lem"),
    ("crates/theory_walk/proofs/Rules.antt", "other_row", "other_row_lem"),
    ("crates/to_legs/proofs/Answering.antt", "too_long", "too_long_lem"),
]

# What the toolchain's script renamed, for the edits, which it leaves.
RENAMED = {
    "getD": "get_or",
    "_gives_": "◌gives◌",
    "add-at": "add_at",
    "add-r": "add_r",
    "add-row": "add_row",
    "add-total": "add_total",
    "added-none": "added_none",
    "adds-one": "adds_one",
    "after-filled": "after_filled",
    "after-is": "after_is",
    "after-line": "after_line",
    "after-on": "after_on",
    "after-run": "after_run",
    "after-two": "after_two",
    "again-spec": "again_spec",
    "ahead-after": "ahead_after",
    "all-codes": "all_codes",
    "all-known": "all_known",
    "all-lie": "all_lie",
    "all-read": "all_read",
    "all-right": "all_right",
    "all-settled": "all_settled",
    "and-both": "and_both",
    "and-intro": "and_intro",
    "and-right": "and_right",
    "andThen": "and_then",
    "answerOf": "answer_of",
    "answers-number": "answers_number",
    "any-order": "any_order",
    "at-edge": "at_edge",
    "at-last": "at_last",
    "at-most": "at_most",
    "at-place": "at_place",
    "at-rest": "at_rest",
    "begun-all": "begun_all",
    "begun-more": "begun_more",
    "below-more": "below_more",
    "bit-le": "bit_le",
    "block-listed": "block_listed",
    "block-within": "block_within",
    "blockAt": "block_at",
    "both-found": "both_found",
    "both-is": "both_is",
    "byte-at": "byte_at",
    "calls-alone": "calls_alone",
    "clear-next": "clear_next",
    "clear-none": "clear_none",
    "clear-room": "clear_room",
    "clear-spec": "clear_spec",
    "cleared-more": "cleared_more",
    "copied-all": "copied_all",
    "copied-none": "copied_none",
    "count-fits": "count_fits",
    "count-next": "count_next",
    "counted-none": "counted_none",
    "counting-more": "counting_more",
    "counts-up": "counts_up",
    "cut-short": "cut_short",
    "digit-low": "digit_low",
    "digits-more": "digits_more",
    "each-holds": "each_holds",
    "each-more": "each_more",
    "each-part": "each_part",
    "enter-spec": "enter_spec",
    "enum-told": "enum_told",
    "every-one": "every_one",
    "fails-by": "fails_by",
    "fill-spec": "fill_spec",
    "filled-is": "filled_is",
    "filled-zero": "filled_zero",
    "find-spec": "find_spec",
    "finish-spec": "finish_spec",
    "first-more": "first_more",
    "first-next": "first_next",
    "first-short": "first_short",
    "first-some": "first_some",
    "fits-told": "fits_told",
    "follows-on": "follows_on",
    "found-at": "found_at",
    "free-source": "free_source",
    "from-all": "from_all",
    "from-cut": "from_cut",
    "from-end": "from_end",
    "from-last": "from_last",
    "from-more": "from_more",
    "from-row": "from_row",
    "gathered-none": "gathered_none",
    "getD-past": "get_d_past",
    "go-on": "go_on",
    "goes-by": "goes_by",
    "goes-down": "goes_down",
    "goes-in": "goes_in",
    "goes-on": "goes_on",
    "going-less": "going_less",
    "going-on": "going_on",
    "good-length": "good_length",
    "groups-none": "groups_none",
    "hand-in": "hand_in",
    "here-or-on": "here_or_on",
    "in-order": "in_order",
    "in-row": "in_row",
    "in-told": "in_told",
    "inBlock": "in_block",
    "inRow": "in_row",
    "index-on": "index_on",
    "index-same": "index_same",
    "indexOf": "index_of",
    "inside-of": "inside_of",
    "is-found": "is_found",
    "is-number": "is_number",
    "is-same": "is_same",
    "keeps-same": "keeps_same",
    "last-made": "last_made",
    "last-more": "last_more",
    "last-none": "last_none",
    "lastAt": "last_at",
    "lastBy": "last_by",
    "lastOf": "last_of",
    "later-same": "later_same",
    "le-ind": "le_ind",
    "letter-at": "letter_at",
    "linesOf": "lines_of",
    "list-length": "list_length",
    "low-column": "low_column",
    "map-is": "map_is",
    "mark-spec": "mark_spec",
    "met-by": "met_by",
    "moreAt": "more_at",
    "moved-on": "moved_on",
    "moves-next": "moves_next",
    "mul-at": "mul_at",
    "near-again": "near_again",
    "near-first": "near_first",
    "near-next": "near_next",
    "near-none": "near_none",
    "no-answer": "no_answer",
    "no-more": "no_more",
    "no-number": "no_number",
    "no-other": "no_other",
    "no-part": "no_part",
    "no-place": "no_place",
    "no-record": "no_record",
    "no-room": "no_room",
    "no-rows": "no_rows",
    "noWord": "no_word",
    "node-stays": "node_stays",
    "none-after": "none_after",
    "none-before": "none_before",
    "none-between": "none_between",
    "none-passes": "none_passes",
    "not-first": "not_first",
    "not-found": "not_found",
    "not-itself": "not_itself",
    "not-there": "not_there",
    "number-at": "number_at",
    "number-counts": "number_counts",
    "number-cut": "number_cut",
    "number-fits": "number_fits",
    "number-more": "number_more",
    "number-of": "number_of",
    "number-read": "number_read",
    "numberOf": "number_of",
    "numbers-fit": "numbers_fit",
    "on-row": "on_row",
    "one-block": "one_block",
    "one-more": "one_more",
    "one-number": "one_number",
    "one-on": "one_on",
    "open-at": "open_at",
    "or-cases": "or_cases",
    "or-same": "or_same",
    "order-from": "order_from",
    "other-last": "other_last",
    "other-row": "other_row",
    "own-at": "own_at",
    "passed-none": "passed_none",
    "passes-on": "passes_on",
    "passing-step": "passing_step",
    "pick-spec": "pick_spec",
    "pickOf": "pick_of",
    "picked-fits": "picked_fits",
    "picks-first": "picks_first",
    "picks-second": "picks_second",
    "place-of": "place_of",
    "put-last": "put_last",
    "put-order": "put_order",
    "put-other": "put_other",
    "put-same": "put_same",
    "put-spec": "put_spec",
    "puts-one": "puts_one",
    "rank-rises": "rank_rises",
    "reaches-of": "reaches_of",
    "read-here": "read_here",
    "read-last-spec": "read_last_spec",
    "read-more": "read_more",
    "read-number": "read_number",
    "readOn": "read_on",
    "reads-on": "reads_on",
    "rest-le": "rest_le",
    "room-at": "room_at",
    "room-small": "room_small",
    "roomFor": "room_for",
    "row-copied": "row_copied",
    "row-done": "row_done",
    "row-ends": "row_ends",
    "row-fits": "row_fits",
    "row-kept": "row_kept",
    "row-more": "row_more",
    "row-next": "row_next",
    "row-of": "row_of",
    "row-on": "row_on",
    "rowAt": "row_at",
    "rowBy": "row_by",
    "rows-all": "rows_all",
    "rows-more": "rows_more",
    "rows-none": "rows_none",
    "rule-told": "rule_told",
    "run-ends": "run_ends",
    "run-holds": "run_holds",
    "runs-none": "runs_none",
    "same-ahead": "same_ahead",
    "same-block": "same_block",
    "same-end": "same_end",
    "same-index": "same_index",
    "same-length": "same_length",
    "same-map": "same_map",
    "same-none": "same_none",
    "same-out": "same_out",
    "same-refl": "same_refl",
    "same-row": "same_row",
    "same-self": "same_self",
    "sameList": "same_list",
    "set-beyond": "set_beyond",
    "shut-by": "shut_by",
    "shut-row": "shut_row",
    "size-few": "size_few",
    "size-small": "size_small",
    "so-far": "so_far",
    "some-end": "some_end",
    "some-next": "some_next",
    "sorted-more": "sorted_more",
    "sorted-none": "sorted_none",
    "source-free": "source_free",
    "source-in": "source_in",
    "spread-none": "spread_none",
    "start-none": "start_none",
    "stateOf": "state_of",
    "stays-on": "stays_on",
    "stays-within": "stays_within",
    "step-spec": "step_spec",
    "stepOf": "step_of",
    "sub-wide": "sub_wide",
    "sum-less": "sum_less",
    "there-and-back": "there_and_back",
    "to-row": "to_row",
    "told-here": "told_here",
    "too-long": "too_long",
    "turn-by": "turn_by",
    "turn-in": "turn_in",
    "two-digits": "two_digits",
    "two-none": "two_none",
    "within-of": "within_of",
    "writing-more": "writing_more",
    "wrote-as": "wrote_as",
    "⊎-elim": "⊎_elim",
}

NAME = re.compile(r"[A-Za-z_◌][\w'₀-₉]*(?:-[\w'₀-₉]+)*")


def snake(word):
    return re.sub(r"(?<=[a-z0-9])([A-Z])", lambda m: "_" + m.group(1).lower(), word)


SPELLED = {word: snake(word) for word in CAMEL}


def spelled(text):
    return NAME.sub(lambda m: "-".join(SPELLED.get(part, part) for part in m.group(0).split("-")), text)


# An edit's text as the toolchain's script would have turned it.
def turned(line):
    line = re.sub(r"Rattle·(\w+)·(specs|proofs)\.\2\.", r"Rattle.\1.\2.", line)
    line = re.sub(r"Rattle·(\w+)\.(specs|proofs)\.", r"Rattle.\1.\2.", line)
    line = line.replace("′", "'")
    line = re.sub(r"(?<![\w'-])_([^\w\s.,{}()]+)_(?![\w'-])", r"◌\1◌", line)
    line = re.sub(r"requires \{ ⌜ (.*?) ⌝ \}", r"requires { \1 }", line)
    line = re.sub(r"ensures \{ λ (\w+)\. ⌜ (.*?) ⌝ \}", lambda m: "ensures { " + re.sub(rf"(?<![\w'-]){m.group(1)}(?![\w'-])", "result", m.group(2)) + " }", line)
    line = re.sub(r"(?<=[\w'₀-₉)]) \.(?=[a-z0-9])", ".", line)
    line = re.sub(r"(?<=[\s(])\(([A-Za-z][\w'₀-₉-]*(?:\.[\w'-]+)+)\)", r"\1", line)
    return NAME.sub(lambda m: RENAMED.get(m.group(0), m.group(0)), line)


def files(ending):
    for folder, inner, names in os.walk("crates"):
        inner[:] = sorted(d for d in inner if d not in ("out", "target"))
        yield from (os.path.join(folder, n) for n in sorted(names) if n.endswith(ending))


def change(path, f):
    with open(path, encoding="utf-8") as it:
        old = it.read()
    new = f(old)
    if new != old:
        with open(path, "w", encoding="utf-8") as it:
            it.write(new)


for path, name, new in APART:
    change(path, lambda t: re.sub(rf"(?<![\w'.-]){name}(?![\w'-])", new, t))
for path in [*files(".antt"), *files(".rt")]:
    change(path, spelled)
for path in files(".edit"):
    change(path, lambda t: "\n".join(turned(l) if re.match(r"(old|new|file):", l) else l for l in t.split("\n")))
    change(path, spelled)
for path in ["README.md", *(f"docs/{n}" for n in sorted(os.listdir("docs")) if n.endswith(".md"))]:
    change(path, lambda t: re.sub(r"`[^`\n]+`", lambda m: spelled(m.group(0)), t))
