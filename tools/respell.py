#!/usr/bin/env python3
"""Respells the repository's own definitions and lemmas: words in snake case, as the kit's are.

usage: tools/respell.py      at the top of the repository, once, after the kit's own script has turned the files

A name is turned where it stands as a whole word in specs/, proofs/ or a clause. After a dot it is turned only
behind a module, a record of constructors or a value of a record of this repository, and never behind the name of a
proof's facts (c, l, w, goal, ..), whose fields the check makes.
"""
import glob
import re

# Names that end in a capital letter are families by cases: B for a block, C for a command.
NAMES = """
access-from access_from
access-to access_to
accessOf access_of
active-from active_from
active-to active_to
adds-nothing adds_nothing
after-within after_within
all-zeros all_zeros
answer-fits answer_fits
answerLine answer_line
answerNumbers answer_numbers
asLoad as_load
asStore as_store
becomes-shown becomes_shown
behavesB behaves_b
behavesC behaves_c
behaviours-are-runs behaviours_are_runs
bit-low bit_low
bit-none bit_none
bit-pow bit_pow
bit-suc bit_suc
block-end block_end
block-laid block_laid
block-then block_then
blockBy block_by
branchAt branch_at
but-one but_one
by-suc by_suc
calls-more calls_more
carry-by carry_by
causeLine cause_line
causeOf cause_of
chain-one chain_one
chain-push chain_push
chain-reaches chain_reaches
choicesB choices_b
choicesC choices_c
choicesOf choices_of
command-same command_same
commandOf command_of
compareAndSwap compare_and_swap
completeB complete_b
completeC complete_c
count-ext count_ext
count-is count_is
count-le count_le
count-more count_more
count-promise count_promise
countB count_b
countBelow count_below
countC count_c
cut-none cut_none
cut-only cut_only
cutWithin cut_within
decided-one decided_one
declareAt declare_at
declaredLocation declared_location
declaredRegister declared_register
denied-one denied_one
derivationAt derivation_at
derived-reaches derived_reaches
derived-relaxes derived_relaxes
derived-shown derived_shown
digits-next digits_next
digits-small digits_small
digits-split digits_split
elsewhere-at elsewhere_at
encodeB encode_b
encodeC encode_c
encodeHandIn encode_hand_in
encodePair encode_pair
encodeRest encode_rest
encodeSteps encode_steps
ending-by ending_by
ending-is ending_is
ending-within ending_within
err-inj err_inj
eventsB events_b
eventsC events_c
fair-pick fair_pick
fairB fair_b
fairC fair_c
few-digits few_digits
fewRuns few_runs
files-one files_one
files-only files_only
fit-long fit_long
fit-made fit_made
fit-pair fit_pair
fit-put fit_put
fit-rest fit_rest
fit-rule fit_rule
fiveAndSix five_and_six
flagOf flag_of
flatB flat_b
flatC flat_c
flip-half flip_half
followB follow_b
followC follow_c
forward-from forward_from
forward-to forward_to
found-apart found_apart
found-idle found_idle
found-settled found_settled
from-matched from_matched
front-laid front_laid
half-below half_below
hand-in-at hand_in_at
hand-in-no-model hand_in_no_model
hand-ins-rest hand_ins_rest
handIn hand_in
handIns hand_ins
handed-more handed_more
handed-none handed_none
hides-back hides_back
hides-here hides_here
how-many how_many
how-many-one how_many_one
idle-run idle_run
inner-is inner_is
inner-ok inner_ok
interleaved-back interleaved_back
invisible-before invisible_before
invisible-shown invisible_shown
invisible-under invisible_under
is-branch is_branch
is-declare is_declare
is-four is_four
is-load is_load
is-run is_run
is-three is_three
is-two is_two
isActive is_active
isModel is_model
joined-after joined_after
joined-before joined_before
judged-one judged_one
keepsB keeps_b
keepsC keeps_c
laid-branch laid_branch
laid-declare laid_declare
laid-first laid_first
last-long last_long
layoutB layout_b
layoutC layout_c
leafAt leaf_at
leafOf leaf_of
left-bit left_bit
left-pick left_pick
lengthB length_b
lengthC length_c
limit-ok limit_ok
limitAt limit_at
lines-made lines_made
lines-one lines_one
load-twice load_twice
loadBack load_back
loadMaybe load_maybe
loadOnce load_once
loadThenLoad load_then_load
long-steps long_steps
lower-digits lower_digits
make-pair make_pair
make-put make_put
many-choices many_choices
many-steps many_steps
marks-accepted marks_accepted
marks-count marks_count
marks-none marks_none
marks-refused marks_refused
marks-verdict marks_verdict
meaningOf meaning_of
modelOf model_of
more-answers more_answers
more-long more_long
mostBytes most_bytes
named-few named_few
names-one names_one
nearly-past nearly_past
new-load new_load
next-rest next_rest
nil-cons nil_cons
no-chain no_chain
no-first no_first
no-five no_five
no-forward no_forward
no-loads no_loads
no-model no_model
no-new-load no_new_load
no-original no_original
no-parts no_parts
no-replacement no_replacement
no-swap no_swap
none-at none_at
none-some none_some
nonzero-digits nonzero_digits
not-past not_past
number-below number_below
numbersOf numbers_of
ok-inj ok_inj
ok-size ok_size
on-model on_model
on-models on_models
one-at-least one_at_least
one-idle one_idle
ones-count ones_count
operand-is operand_is
operand-ok operand_ok
or-false or_false
original-runs original_runs
other-rule other_rule
padded-choices padded_choices
pair-no-model pair_no_model
pair-shape pair_shape
pair-spare pair_spare
parseB parse_b
parseC parse_c
part-ended part_ended
part-is part_is
part-more part_more
partEnd part_end
partLength part_length
partsFrom parts_from
pinned-five pinned_five
pinned-six pinned_six
pinned-together pinned_together
pinned-within pinned_within
power-more power_more
power-over power_over
printed-once printed_once
product-few product_few
put-long put_long
put-turns put_turns
reached-at reached_at
read-decimal read_decimal
read-digit read_digit
read-laid read_laid
read-written read_written
readLine read_line
relax-under relax_under
relaxes-past relaxes_past
replacement-runs replacement_runs
report-fits report_fits
report-one report_one
reportNumbers report_numbers
rest-few rest_few
rest-files rest_files
rest-none rest_none
rightLength right_length
ruleOf rule_of
runB run_b
runs-is runs_is
runs-ok runs_ok
runsOf runs_of
same-access same_access
same-files same_files
same-report same_report
same-sizes same_sizes
sets-full sets_full
sets-out sets_out
sets-short sets_short
sets-start sets_start
settled-one settled_one
shower-active shower_active
shower-runs shower_runs
shower-shows shower_shows
shower-start shower_start
shown-past shown_past
silent-count silent_count
silent-verdict silent_verdict
sixOnly six_only
sizeB size_b
sizeC size_c
sized-block sized_block
sized-holds sized_holds
sizes-is sizes_is
sizes-ok sizes_ok
sizesAt sizes_at
sizesOf sizes_of
small-choices small_choices
small-zeros small_zeros
sound-branch sound_branch
sound-declare sound_declare
sound-four sound_four
sound-leaf sound_leaf
sound-one sound_one
sound-three sound_three
sound-two sound_two
sound-zero sound_zero
soundB sound_b
soundC sound_c
span-is span_is
span-ok span_ok
spanAt span_at
spare-pair spare_pair
split-choices split_choices
stated-front stated_front
stepAt step_at
steps-more steps_more
steps-there steps_there
stepsFrom steps_from
stopped-at stopped_at
stopped-one stopped_one
store-from store_from
store-load store_load
storeBack store_back
storeLater store_later
storeSooner store_sooner
storeThenAny store_then_any
storeThenLoad store_then_load
swap-after swap_after
swap-before swap_before
takes-few takes_few
the-choices the_choices
the-digits the_digits
the-run the_run
the-start the_start
to-active to_active
trailing-bit trailing_bit
tsoSwaps tso_swaps
turns-one turns_one
verdict-one verdict_one
verdict-promise verdict_promise
viaC via_c
loadStore load_store_event
onSc on_sc
onTso on_tso
onPso on_pso
onClr on_clr
as-it-is as_it_is
by-rule by_rule
Step-of StepOf
branch-at branch_at_lem
declare-at declare_at_lem
pair-at pair_at_lem
hand-ins hand_ins
is-active active_is
store-back of_store_back
store-later of_store_later
store-sooner of_store_sooner
load-once of_load_once
whole-cons whole_cons
whole-first whole_first
within-laid within_laid
word-few word_few
word-long word_long
word-short word_short
written-more written_more
written-two written_two
yes-five yes_five
yes-forward yes_forward
yes-loads yes_loads
yes-six yes_six
yes-stores yes_stores
yes-swap yes_swap
zeros-idle zeros_idle
"""

TABLE = dict(line.split() for line in NAMES.split("\n") if line)
WORD = re.compile(r"(?<![^\s(){}\[\],;.λ→×])([^\s(){}\[\],;.λ→×]+)(?![^\s(){}\[\],;.λ→×])")
MADE = re.compile(r"(?:^|[\s(){}\[\],;])(?:c|l|w|g|goal)(?:\.[^\s(){}\[\],;.]+)*\.$")


def turned(match):
    word = match.group(1)
    if word not in TABLE:
        return word
    before = match.string[max(0, match.start() - 200):match.start()]
    if before.endswith(".") and MADE.search(before):
        return word
    return TABLE[word]


def main():
    files = glob.glob("crates/*/specs/**/*.antt", recursive=True) + glob.glob("crates/*/proofs/**/*.antt", recursive=True)
    for path in sorted(files + glob.glob("crates/*/src/**/*.rt", recursive=True)):
        with open(path, encoding="utf-8") as f:
            text = f.read()
        lines = []
        for line in text.split("\n"):
            comment = line.lstrip().startswith(("--", "//"))
            code = path.endswith(".rt") and '"' in line
            lines.append(line if comment or code else WORD.sub(turned, line))
        out = "\n".join(lines)
        if out != text:
            with open(path, "w", encoding="utf-8") as f:
                f.write(out)


main()
