#!/usr/bin/env python3
"""Respells the definitions and lemmas of specs/ and proofs/: words in snake case, types in camel case.

usage: python3 tools/respell.py    at the top of a checkout, once, after the language's own script

A whole name is turned, never a part of one. Left as they are: names that the check makes (the first part
after c, l, g or goal, and goals that an answer file declares), functions of src/, comments but for what
stands in backticks, and strings of src/.
"""
import os
import re

NAMES = dict(line.split() for line in """
A-product AProduct
A-reader AReader
Absent-or-given AbsentOrGiven
All-answered AllAnswered
All-pass AllPass
Answered-on AnsweredOn
At-any-length AtAnyLength
At-end AtEnd
Bad-byte BadByte
Bands-judged BandsJudged
Best-found BestFound
Best-within BestWithin
Broken-off BrokenOff
Build-answered BuildAnswered
Built-first BuiltFirst
Built-with BuiltWith
Cut-on CutOn
Ends-elsewhere EndsElsewhere
Every-session EverySession
Fair-division FairDivision
Figures-stand FiguresStand
Filled-twice FilledTwice
First-failing FirstFailing
First-misfit FirstMisfit
Goes_on GoesOn
Line-refusal LineRefusal
Lines-part LinesPart
Named-below NamedBelow
None-within NoneWithin
Numbers-below NumbersBelow
One-more OneMore
Opens-as OpensAs
Own-found OwnFound
Part-given PartGiven
Refused-first RefusedFirst
Replies-on RepliesOn
Rules-determine RulesDetermine
Sound-bands SoundBands
Up-to UpTo
absent-or-given absent_or_given
acceptance-numbers acceptance_numbers
accepted-text accepted_text
after-fill after_fill
alike-report alike_report
all-after-fill all_after_fill
all-reduced all_reduced
all-removed all_removed
amend-form amend_form
answer-text answer_text
answers-more answers_more
any-weaker any_weaker
apart-last apart_last
apart-self apart_self
array-of-runs array_of_runs
as-asked as_asked
at-book at_book
at-book-done at_book_done
at-book-elsewhere at_book_elsewhere
at-end at_end
at-fault at_fault
bad-byte bad_byte
bad-field bad_field
band-of band_of
bands-given bands_given
bands-judged bands_judged
bands-of bands_of
before-all before_all
before-le before_le
before-newline before_newline
before-plain before_plain
begin-answers begin_answers
below-from below_from
best-beyond best_beyond
best-good best_good
best-more best_more
best-not-within best_not_within
best-unique best_unique
better-of better_of
blank-all blank_all
blank-below blank_below
blank-long blank_long
blank-row blank_row
book-is book_is
book-number book_number
book-sized book_sized
book-state book_state
bounded-after-fill bounded_after_fill
bounded-push bounded_push
broken-after broken_after
broken-at-first broken_at_first
broken-first broken_first
broken-from broken_from
broken-here broken_here
broken-later broken_later
broken-none broken_none
broken-off broken_off
broken-part broken_part
broken-unanswered broken_unanswered
build-answer build_answer
build-fault build_fault
build-form build_form
build-line build_line
build-refusal build_refusal
build-refused build_refused
buyer-of buyer_of
by-line by_line
call-form call_form
call-letters call_letters
cancel-below cancel_below
cancel-elsewhere cancel_elsewhere
cancel-form cancel_form
cancel-gone cancel_gone
cancel-ready cancel_ready
cancel-row cancel_row
cancel-side cancel_side
cancelled-below cancelled_below
cancels-elsewhere cancels_elsewhere
cancels-keep cancels_keep
cancels-only cancels_only
cancels-unique cancels_unique
check-code check_code
checked-alike checked_alike
clear-buy clear_buy
clear-sell clear_sell
close-elsewhere close_elsewhere
close-keeps close_keeps
closed-lines closed_lines
closed-plain closed_plain
closed-so closed_so
closes-fit closes_fit
closes-over closes_over
cond-none cond_none
cond-other cond_other
conserved-more conserved_more
count-few count_few
count-is count_is
counted-below counted_below
cut-feeds cut_feeds
cut-found cut_found
cut-none cut_none
define-form define_form
does-done does_done
does-elsewhere does_elsewhere
does-unique does_unique
duration-letters duration_letters
duration-of duration_of
end-answers end_answers
ends-clear ends_clear
ends-fill ends_fill
ends-filled ends_filled
enter-elsewhere enter_elsewhere
enter-form enter_form
entered-small entered_small
enters-elsewhere enters_elsewhere
enters-keeps enters_keeps
enters-only enters_only
enters-unique enters_unique
entries-of entries_of
event-letters event_letters
event-of event_of
every-session every_session
fault-elsewhere fault_elsewhere
faults-only faults_only
fields-length fields_length
fields-of fields_of
fill-below fill_below
fill-cancels-none fill_cancels_none
fill-other fill_other
fill-own fill_own
fill-rows fill_rows
first-broken first_broken
first-built first_built
first-line first_line
first-refused first_refused
first-unique first_unique
follows-closed follows_closed
follows-keeps follows_keeps
follows-read follows_read
follows-refused follows_refused
follows-seen follows_seen
follows-unread follows_unread
form-of-letter form_of_letter
found-less found_less
found-no found_no
found-then found_then
found-yes found_yes
from-runs from_runs
front-is front_is
front-unread front_unread
getD-each get_or_each
given-used given_used
gives-later gives_later
gives-newest gives_newest
gives-only gives_only
gives-others-none gives_others_none
gives-own gives_own
going-fill going_fill
good-self good_self
good-through good_through
handed-by handed_by
has-newline has_newline
in-front in_front
in-level in_level
in-level-at in_level_at
in-phase in_phase
input-over input_over
is-cancellation is_cancellation
is-trade is_trade
judged-by judged_by
keep-answers keep_answers
keeps-padded keeps_padded
keeps-still keeps_still
kept-no kept_no
kept-yes kept_yes
kind-code kind_code
kind-letter kind_letter
kind-number kind_number
last-digit last_digit
last-part last_part
layer-number layer_number
left-cons left_cons
left-inside left_inside
legs-of legs_of
length-after-fill length-after_fill
length-all length_all
length-kept-le length-kept_le
less-found less_found
letter-among letter_among
letter-first letter_first
level-open level_open
level-some level_some
line-call line_call
line-refusal line_refusal
lines-found lines_found
lines-grow lines_grow
lines-part lines_part
lines-plain lines_plain
lines-plain-after lines_plain_after
lone-capital lone_capital
lot-book lot_book
lot-book-sized lot_book-sized
lot-size lot_size
lot-size-sized lot_size-sized
made-both made_both
match-all match_all
match-below match_below
match-cancels-none match_cancels_none
match-clear match_clear
match-length match_length
match-other match_other
match-own match_own
match-unique match_unique
minus-size minus_size
misfit-of-runs misfit_of_runs
misfit-place misfit_place
more-answers more_answers
more-none more_none
more-then more_then
most-above most_above
most-ge most_ge
named-later named_later
names-other names_other
names-own names_own
next-answers next_answers
next-fill next_fill
next-kinds next_kinds
next-phase next_phase
no-band no_band
no-fault no_fault
no-leg no_leg
no-letter no_letter
no-misfit no_misfit
no-order no_order
no-other-more no_other_more
nobody-owned nobody_owned
nobody-within nobody_within
none-better none_better
none-entered none_entered
none-unread none_unread
not-built not_built
not-offered not_offered
not-zero not_zero
number-within number_within
numbers-below numbers_below
one-digit one_digit
one-each-count one_each_count
one-each-next one_each_next
one-each-sum one_each_sum
one-each-within one_each_within
one-fits one_fits
onto-parted onto_parted
open-line open_line
open-on open_on
opened-by opened_by
opened-gateway opened_gateway
opens-from opens_from
options-named options_named
orderly-thins orderly_thins
other-letter other_letter
part-before part_before
part-is part_is
part-le part_le
part-plain part_plain
part-plain-after part_plain_after
parts-end parts_end
parts-le parts_le
parts-le-most parts_le_most
plain-number plain_number
positive-after positive_after
price-above price_above
price-below price_below
price-field price_field
price-from price_from
price-of price_of
price-time price_time
price-time-count price_time_count
price-time-step price_time_step
price-time-sum price_time_sum
price-time-within price_time_within
pro-rata pro_rata
pro-rata-count pro_rata_count
pro-rata-sum pro_rata_sum
pro-rata-within pro_rata_within
product-letters product_letters
product-named product_named
product-of product_of
push-more push_more
quantity-of quantity_of
quantity-sized quantity_sized
quantity-small quantity_small
quote-form quote_form
raised-ge raised_ge
read-line read_line
read-rest read_rest
refusal-code refusal_code
refusal-of refusal_of
refused-any refused_any
refused-by refused_by
refused-field refused_field
refused-text refused_text
refused-then refused_then
refused-weaker refused_weaker
reply-on reply_on
report-all report_all
report-keeps report_keeps
report-more report_more
report-text report_text
rest-ends rest_ends
rest-found rest_found
rest-grows rest_grows
rest-none rest_none
resting-below resting_below
resting-open resting_open
rests-given rests_given
row-text row_text
rows-below rows_below
rows-offered rows_offered
rows-yes rows_yes
rule-chosen rule_chosen
rule-for rule_for
rule-is rule_is
rules-determine rules_determine
same-book same_book
same-book-refl same_book_refl
same-from-good same_from_good
same-price same_price
same-price-refl same_price_refl
same-side same_side
same-side-refl same_side_refl
same-verdict same_verdict
seen-refused seen_refused
served-all served_all
served-from served_from
served-none served_none
served-over served_over
served-refused served_refused
settled-by settled_by
settled-open settled_open
settles-cut settles_cut
settles-full settles_full
settles-killed settles_killed
settles-rest settles_rest
settles-unique settles_unique
settles-whole settles_whole
shares-below shares_below
shares-total shares_total
side-letters side_letters
side-of side_of
signed-number signed_number
sized-lot sized_lot
small-lasts small_lasts
some-counted some_counted
some-none some_none
some-row some_row
standing-more standing_more
standing-sound standing_sound
stands-first stands_first
still-reply still_reply
still-then still_then
suits-chosen suits_chosen
sumOf-++ sum_of-++
sumOf-zero sum_of_zero
switch-done switch_done
switch-elsewhere switch_elsewhere
switch-fault switch_fault
switch-form switch_form
switch-open switch_open
switch-refused switch_refused
switches-only switches_only
take-before take_before
take-room take_room
take-front take_front
takes-checked takes_checked
takes-keeps takes_keeps
takes-unique takes_unique
taking-end taking_end
taking-here taking_here
taking-no taking_no
taking-yes taking_yes
told-inside told_inside
told-outside told_outside
topmost-later topmost_later
topmost-none topmost_none
topped-up topped_up
total-end total_end
total-le total_le
total-more total_more
total-push total_push
trade-below trade_below
trade-other trade_other
trade-own trade_own
trade-row trade_row
turn-of turn_of
turned-from turned_from
turned-not turned_not
uncrossed-last uncrossed_last
uncrossed-thins uncrossed_thins
used-found used_found
used-is used_is
used-none used_none
used-some used_some
whole-after whole_after
whole-ge whole_ge
with-book with_book
with-high with_high
with-instrument with_instrument
with-low with_low
with-ratio with_ratio
withdraw-ready withdraw_ready
withdrawn-balance withdrawn_balance
withdrawn-keeps withdrawn_keeps
within-band within_band
write-end write_end
write-more write_more
""".strip().splitlines())

# a whole name
NAME = re.compile(r"(?<![\w'\u2032+-])[A-Za-z][\w'\u2032]*(?:-(?:[\w'\u2032]+|\+\+))*(?![\w'\u2032])")
# a path that begins at a proof's own record or at its goals
MADE = re.compile(r"(?<![\w'.-])(?:c|l|goal|g)\.$")


def respell(text):
    """The text with each name turned that the table has."""
    out, last = [], 0
    for m in NAME.finditer(text):
        new = NAMES.get(m.group())
        if new is None or MADE.search(text, 0, m.start()):
            continue
        out += [text[last:m.start()], new]
        last = m.end()
    return "".join(out) + text[last:]


def in_backticks(text):
    return re.sub(r"`[^`]*`", lambda m: respell(m.group()), text)


def antt_line(line):
    if line.startswith("use ") and re.search(r"\.(Goals|Given)(?![\w'])", line):
        return line
    if re.match(r"(abbrev )?(pub )?\S+ : goal\.", line):
        return line
    code, dashes, comment = line.partition("-- ")
    return respell(code) + dashes + in_backticks(comment)


def rust_line(line):
    code, slashes, comment = line.partition("//")
    return re.sub(r'("[^"]*")|([^"]+)', lambda m: m.group(1) or respell(m.group(2)), code) + slashes + in_backticks(comment)


def main():
    for root, dirs, files in os.walk("crates"):
        dirs[:] = sorted(d for d in dirs if d != "out")
        for name in sorted(files):
            turn = {".antt": antt_line, ".rt": rust_line}.get(os.path.splitext(name)[1])
            if turn is None:
                continue
            path = os.path.join(root, name)
            with open(path, encoding="utf-8") as f:
                old = f.read()
            new = "\n".join(turn(line) for line in old.split("\n"))
            if new != old:
                with open(path, "w", encoding="utf-8") as f:
                    f.write(new)


if __name__ == "__main__":
    main()
