#!/usr/bin/env python3
"""Brought the names of this repository's own definitions and lemmas to one spelling. It was run once, after the language's own script.

    python3 /opt/rattle/port/port.py && python3 tools/respell.py        at the top

A word that stands for a type or a fact is in upper camel case, all others are in snake case, with a dash where it joins the names of two definitions. What Rattle makes (the goals of a proof, and what a goal
hands over) and what the code of src/ calls its functions keeps its name. Rewritten are specs/ and proofs/, the clauses and ghost items of src/, the
lines of must-fail edits, and words between backticks in README.md and docs/ (but not in CHANGES.md and PORT.md, which tell of the past).
"""
import re
import sys
from pathlib import Path

root = Path(__file__).resolve().parent.parent

TYPES = """
Check-suffices CheckSuffices
Comes-home ComesHome
Distances-add-up DistancesAddUp
Each-can-be-written EachCanBeWritten
Empty-is-all-free EmptyIsAllFree
Entered-is-held EnteredIsHeld
Files-are-plans FilesArePlans
Free-places-are-granted FreePlacesAreGranted
Front-decides FrontDecides
Held-as-counted HeldAsCounted
Holders-are-counted HoldersAreCounted
Judge-agrees-with-check JudgeAgreesWithCheck
Leaving-undoes-entering LeavingUndoesEntering
Left-is-free LeftIsFree
Legs-are-listed LegsAreListed
Legs-join-neighbours LegsJoinNeighbours
Lengths-are-pitches LengthsArePitches
Lowest-goes-back LowestGoesBack
Lowest-standstill-is-found LowestStandstillIsFound
Moves-are-turns MovesAreTurns
Never-more-than-two NeverMoreThanTwo
No-standstill-no-end-of-progress NoStandstillNoEndOfProgress
Numbers-are-pictures NumbersArePictures
One-is-named OneIsNamed
Other-carriers-stay OtherCarriersStay
Other-places-stay OtherPlacesStay
Own-places-are-left OwnPlacesAreLeft
Reachable-is-computed ReachableIsComputed
Refusals-change-nothing RefusalsChangeNothing
Released-plans-come-home ReleasedPlansComeHome
Rules-are-searched RulesAreSearched
Runs-are-pictured RunsArePictured
Small-files SmallFiles
Standstills-are-stuck-strings StandstillsAreStuckStrings
Stuck-strings StuckStrings
Waits-are-named WaitsAreNamed
Ways-lead WaysLead
Worked-plans WorkedPlans
"""

WORDS = """
above-append above_append
above-less above_less
above-none above_none
absent-at absent_at
absent-on absent_on
accountOf account_of
advanceAnswer advance_answer
after-all after_all_lem
afterAll after_all
agrees-err agrees_err
all-before all_before
all-below-none all_below_none
all-below-set all_below_set
all-free all_free
all-home all_home
all-stand all_stand
allOnFloor all_on_floor
any-has any_has
any-no any_no
apart-clear apart_clear
apart-first apart_first
apart-on apart_on
apart-rest apart_rest
apart-set apart_set
apart-true apart_true
arrivalsOf arrivals_of
backToGoal back_to_goal
base-some base_some
begun-turn begun_turn
below-column below_column
below-from below_from
below-le below_le
below-passed below_passed
below-pred below_pred
below-stops below_stops
beyond-lies beyond_lies
both-taken both_taken
by-counts by_counts_lem
by-motion by_motion
bytesFor bytes_for
call-keeps call_keeps
came-last came_last
came-of came_of
came-parts came_parts
came-round came_round
can-before can_before
can-depart can_depart
canMove can_move
carrier-at carrier_at_lem
carrier-front carrier_front
carrier-is carrier_is
carrier-none carrier_none
carrier-nth carrier_nth
carrier-of carrier_of
carrier-ok carrier_ok
carrier-parts carrier_parts
carrier-whole carrier_whole
carrierAt carrier_at
carriers-count carriers_count
carriers-end carriers_end
carriers-fit carriers_fit
carriers-front carriers_front
carriers-full carriers_full
carriers-held carriers_held
carriers-more carriers_more
carriers-refused carriers_refused
carriers-stop carriers_stop
carriers-trailing carriers_trailing
carriers-whole carriers_whole
carriersAt carriers_at
carriersIn carriers_in
cell-absent cell_absent
cell-end cell_end
cell-here cell_here
cell-later cell_later
cell-none cell_none
cell-some cell_some
cells-front cells_front
cells-most cells_most
cells-ok cells_ok
cells-some cells_some
cellsAt cells_at
chain-found chain_found
check-suffices check_suffices
cleared-none cleared_none
closes-written closes_written
column-pitch column_pitch
computed-reached computed_reached
count-one count_one
countAnswer count_answer
counted-after counted_after
counted-call counted_call
counted-enter counted_enter
counted-leave counted_leave
departuresOf departures_of
distance-after distance_after
distance-opened distance_opened
distances-add-up distances_add_up
div-of div_of
down-mod down_mod
draftOf draft_of
drop-front drop_front
each-begins each_begins
each-can-be-written each_can_be_written
each-ends each_ends
each-has-path each_has_path
each-leads each_leads
empty-free empty_free
end-front end_front
end-ok end_ok
ended-turn ended_turn
enter-granted enter_granted
enter-is enter_is
enterAnswer enter_answer
enterHere enter_here
entered-holds entered_holds
entered-is entered_is
entered-others entered_others
entering-keeps entering_keeps
entries-count entries_count
entries-few entries_few
entries-front entries_front
entries-laid entries_laid
entries-more entries_more
entries-of entries_of_lem
entries-ok entries_ok
entries-stop entries_stop
entriesBytes entries_bytes
entriesOf entries_of
entry-inside entry_inside
entryTable entry_table
equal-found equal_found
equalGoals equal_goals
equalStarts equal_starts
exit-later exit_later
exit-same exit_same
exits-above exits_above
exits-away exits_away
exits-beyond exits_beyond
exits-inside exits_inside
exits-more exits_more
exits-none exits_none
exits-nth exits_nth
exits-rise exits_rise
exitsFrom exits_from
exitsOf exits_of
exitsOver exits_over
falls-on falls_on
few-carriers few_carriers
few-enter few_enter
few-entries few_entries
few-leave few_leave
few-legs few_legs
few-spread few_spread
file-of file_of
file-ok file_ok
files-are-plans files_are_plans
filled-length filled_length
filled-up filled_up
first-differs first_differs
first-end first_end
first-hit first_hit
first-is first_is
first-is-named first_is_named
first-leg first_leg
first-none first_none
first-pair-none first_pair_none
first-pair-some first_pair_some
firstChain first_chain
firstEqual first_equal
firstPair first_pair
firstWait first_wait
fits-stop fits_stop
fitsCarriers fits_carriers
fitsHall fits_hall
fitsLayout fits_layout
fitsLeg fits_leg
fitsLegs fits_legs
fitsRail fits_rail
floor-all floor_all
floor-fits floor_fits
floor-front floor_front
floor-next floor_next
floor-of floor_of
floor-ok floor_ok
floorAt floor_at
floorBytes floor_bytes
follows-front follows_front
follows-ok follows_ok
followsAt follows_at
foreignAt foreign_at
foreignGoal foreign_goal
foreignTo foreign_to
free-at free_at
free-cell free_cell_lem
free-empty free_empty
free-none free_none
freeCell free_cell
from-nth from_nth
front-decides front_decides
front-written front_written
half-below half_below
hall-front hall_front
hall-of hall_of_lem
hall-ok hall_ok
hall-parts hall_parts
hall-whole hall_whole
hallAt hall_at
hallExits hall_exits
hallLength hall_length
hallOf hall_of
has-everyone has_everyone
has-leads has_leads
has-leg has_leg
has-not has_not
has-over has_over
hasPlace has_place
head-fits head_fits
head-on head_on_lem
headOn head_on
height-some height_some
held-arrived held_arrived
held-departed held_departed
held-empty held_empty
held-inside held_inside
held-not-empty held_not_empty
held-nowhere held_nowhere
held-once held_once
held-some held_some
holder-found holder_found
holder-spread holder_spread
holderOf holder_of
holders-are-counted holders_are_counted
holds-once holds_once
idle-entering idle_entering
idle-leaving idle_leaving
idle-motion idle_motion
idle-now idle_now
idle-stretch idle_stretch
idle-turn idle_turn
ifOpen if_open
in-cell-one in_cell_one
in-goals in_goals
inCell in_cell
inOrder in_order
inside-leg inside_leg
is-arrived is_arrived
is-clear is_clear
is-departed is_departed
is-not is_not
isBlocked is_blocked
isCell is_cell
isHolder is_holder
isOpen is_open
isTurnFor is_turn_for
judge-agrees-with-check judge_agrees_with_check
kept-after kept_after
kept-all kept_all
kept-arrived kept_arrived
kept-call kept_call
kept-departed kept_departed
kept-opened kept_opened
kept-turn kept_turn
known-spread known_spread
lacksLeg lacks_leg
last-beyond last_beyond
last-came last_came
last-ends last_ends
last-inside last_inside
lastMover last_mover
layout-fits layout_fits
leads-over leads_over
least-end least_end
least-from least_from
least-pair least_pair
leastOther least_other
leave-granted leave_granted
leave-is leave_is
leave-undoes leave_undoes
leaveAnswer leave_answer
leaveHere leave_here
led-finds led_finds
led-marked led_marked
led-within led_within
left-free left_free
left-others left_others
leg-bytes leg_bytes_lem
leg-carrier leg_carrier
leg-finds leg_finds
leg-fit leg_fit
leg-front leg_front
leg-inside leg_inside
leg-of leg_of
leg-ok leg_ok
leg-parts leg_parts
leg-whole leg_whole
legAt leg_at
legBytes leg_bytes
legCount leg_count
legLength leg_length
leglessAt legless_at
legs-absent legs_absent
legs-apart legs_apart
legs-front legs_front
legs-join legs_join
legs-lead-away legs_lead_away
legs-length legs_length
legs-linked legs_linked
legs-more legs_more
legs-of legs_of_lem
legs-ok legs_ok
legs-stop legs_stop
legsAt legs_at
legsBelow legs_below
legsBytes legs_bytes
legsOf legs_of
length-later length_later
length-long length_long
length-pitch length_pitch
length-short length_short
lengthOver length_over
lengths-fit lengths_fit
lengths-led lengths_led
lengths-most lengths_most
lengths-pitch lengths_pitch
less-div less_div
less-mod less_mod
lies-away lies_away
lies-beyond lies_beyond
lies-shares lies_shares
lineWithLoop line_with_loop
listed-none listed_none
listed-some listed_some
lowIn low_in
lowOut low_out
lowest-goes-back lowest_goes_back
lowest-is lowest_is
lowest-standstill-is-found lowest_standstill_is_found
lowestStandstill lowest_standstill
lt-pred lt_pred
marked-floor marked_floor
marked-reached marked_reached
marks-reachable marks_reachable
may-enter may_enter
may-leave may_leave
mod-of mod_of
motionAnswer motion_answer
motionOf motion_of
moves-are-turns moves_are_turns
moves-on moves_on
names-only names_only
never-farther never_farther
never-more never_more
never-refused never_refused
never-short never_short
next-before next_before
next-count next_count
next-free next_free
next-ok next_ok
next-within next_within
nextIn next_in
nextOut next_out
no-circular-wait no_circular_wait
no-foreign-goal no_foreign_goal
no-free no_free
no-goal no_goal
no-legs no_legs
no-more-than-carriers no_more_than_carriers
no-moves no_moves
no-owner no_owner
no-standstill-no-end-of-progress no_standstill_no_end_of_progress
noLeg no_leg
noPath no_path
nobody-moves nobody_moves
none-begins none_begins
none-differs none_differs
none-earlier none_earlier
none-from-sizes none_from_sizes
none-short none_short
none-some none_some
none-sum none_sum
not-further not_further
not-granted not_granted
not-past not_past
not-true not_true
not-under not_under
notEntered not_entered
nothing-found nothing_found
nth-is nth_is
nth-later nth_later
number-bytes number_bytes
number-front number_front
number-of number_of_lem
numbers-are-pictures numbers_are_pictures
numbersIn numbers_in
occupies-seen occupies_seen
ofTurn of_turn
on-board on_board_lem
onBoard on_board
onEntering on_entering
onFloor on_floor
onLeaving on_leaving
onLine on_line
one-is-named one_is_named
one-wrong one_wrong
oneTooLong one_too_long
open-from open_from
open-inside open_inside
open-parts open_parts
open-some open_some
opened-stands opened_stands
or-none or_none
others-stay others_stay
over-has over_has
over-leads over_leads
pairs-found pairs_found
passes-test passes_test
path-back path_back
path-few path_few
path-within path_within
paths-all paths_all
paths-more paths_more
paths-stop paths_stop
picture-of picture_of_lem
pictureOf picture_of
picturesOf pictures_of
pitch-most pitch_most
pitch-some pitch_some
places-at-number places_at_number
places-at-past places_at_past
places-most places_most
places-some places_some
plan-fits plan_fits
planIn plan_in
pred-below pred_below
pred-is pred_is
rail-fit rail_fit
rail-front rail_front
rail-of rail_of
rail-ok rail_ok
railAt rail_at
ranged-front ranged_front
ranged-of ranged_of
ranged-ok ranged_ok
rangedAt ranged_at
reachable-first reachable_first
reachable-from reachable_from
reachable-is reachable_is
reachable-is-computed reachable_is_computed
reachable-parts reachable_parts
reached-computed reached_computed
reached-inside reached_inside
reached-picture reached_picture
record-short record_short
recordSize record_size
refused-is refused_is
released-plans-come-home released_plans_come_home
repliesTo replies_to
rest-small rest_small
rests-entering rests_entering
rests-leaving rests_leaving
rests-motion rests_motion
right-before right_before
right-column right_column
right-from right_from
right-row right_row
rises-listed rises_listed
rises-none rises_none
routeAt route_at
routeBytes route_bytes
routeOf route_of
routes-back routes_back
routes-behind routes_behind
routes-length routes_length
routes-more routes_more
routes-none routes_none
routes-of routes_of_lem
routes-ok routes_ok
routesBytes routes_bytes
routesIn routes_in
routesOf routes_of
row-pitch row_pitch
rowTable row_table
rows-laid rows_laid
rows-length rows_length
rules-are-searched rules_are_searched
runs-are-pictured runs_are_pictured
same-on same_on
same-pair same_pair
sameAt same_at
scopeIn scope_in
second-differs second_differs
shares-lies shares_lies
sharesEnd shares_end
shortRefusal short_refusal
shortTable short_table
shorter-call shorter_call
sizes-passed sizes_passed
some-value some_value
spare-same spare_same
spareFree spare_free
speltAccount spelt_account
speltAnswer spelt_answer
speltFault spelt_fault
speltKind spelt_kind
speltValues spelt_values
split-free split_free
spread-clear spread_clear
standstills-are-stuck-strings standstills_are_stuck_strings
start-inside start_inside
start-on-floor start_on_floor
starts-differ starts_differ
starts-entered starts_entered
startsHeld starts_held
still-from still_from
still-parts still_parts
stuckTurns stuck_turns
sum-but sum_but
sum-none sum_none
tail-fits tail_fits
take-front take_front
take-further take_further
tally-two tally_two
tallyFor tally_for
test-passed test_passed
throughGoal through_goal
to-carrier to_carrier_lem
toCarrier to_carrier
toGo to_go
true-apart true_apart
true-false true_false
true-not true_not
turn-keeps turn_keeps
turnArrived turn_arrived
turnDeparted turn_departed
turnsFor turns_for
twice-not twice_not
twice-push twice_push
two-more two_more
two-turns two_turns
unused-all unused_all
unused-less unused_less
unused-same unused_same
value-mapped value_mapped
value-nth value_nth
wait-found wait_found
waits-are-named waits_are_named
waits-round waits_round
walk-on walk_on
was-carrier was_carrier
was-held was_held
was-holder was_holder
was-on-board was_on_board
way-leads way_leads
way-sticks way_sticks
wayBack way_back
ways-lead ways_lead
weightOf weight_of
when-none when_none
when-some when_some
who-is who_is
whoAnswer who_answer
whoIn who_in
whoOut who_out
within-stop within_stop
written-closes written_closes
written-more written_more
wrongEnd wrong_end
wrongEnds wrong_ends
zero-picture zero_picture
"""

FIELDS = """
across-least across_least
across-most across_most
at-start at_start
breaches-are breaches_are
bytes-are bytes_are
came-in came_in
down-least down_least
down-most down_most
entries-are entries_are
equal-goals equal_goals
equal-starts equal_starts
floor-is floor_is
foreign-goal foreign_goal
foreign-is foreign_is
from-inside from_inside
height-least height_least
height-most height_most
in-wait in_wait
legs-are legs_are
no-leg no_leg
no-path no_path
not-in-run not_in_run
of-picture of_picture
over-back over_back
over-front over_front
plan-is plan_is
replies-are replies_are
turns-are turns_are
wait-is wait_is
width-least width_least
width-most width_most
wrong-end wrong_end
"""

TURNED = """
above-listed above_listed
after-more after_more
after-none after_none
all-keep all_keep
any-none any_none
any-same any_same
any-some any_some
apart-none apart_none
at-home at_home
below-next below_next
below-none below_none
below-one below_one
below-row below_row
below-split below_split
below-two below_two
both-ok both_ok
both-right both_right
byCounts by_counts
came-from came_from
came-same came_same
cell-apart cell_apart
cell-below cell_below
cellOf cell_of
cells-of cells_of
cleared-more cleared_more
cond-same cond_same
count-none count_none
distance-is distance_is
down-div down_div
down-fits down_fits
down-is down_is
end-of end_of
endAt end_at
endOf end_of
entriesAt entries_at
first-more first_more
first-some first_some
fits-more fits_more
guard-ok guard_ok
has-here has_here
has-listed has_listed
has-more has_more
held-none held_none
high-half high_half
in-row in_row
is-home is_home
isForeign is_foreign
join-free join_free
kindOf kind_of
last-byte last_byte
last-row last_row
layoutOf layout_of
left-behind left_behind
left-is left_is
lengthOf length_of
lengths-some lengths_some
linked-on linked_on
listed-more listed_more
low-half low_half
no-move no_move
no-row no_row
noRow no_row
none-below none_below
none-first none_first
none-from none_from
none-is none_is
number-small number_small
numberAt number_at
numberOf number_of
of-number of_number
one-more one_more
or-some or_some
orElse or_else
pair-found pair_found
placesAt places_at
placesOf places_of
planOf plan_of
pred-lt pred_lt
read-fits read_fits
read-is read_is
right-end right_end
row-is row_is
row-within row_within
rows-are rows_are
rows-long rows_long
rows-more rows_more
rowsOf rows_of
same-row same_row
same-rows same_rows
set-all set_all
set-other set_other
some-below some_below
some-is some_is
spread-none spread_none
stands-from stands_from
stands-parts stands_parts
stepOf step_of
sum-first sum_first
sum-moved sum_moved
sum-same sum_same
taken-back taken_back
to-inside to_inside
was-free was_free
when-false when_false
when-true when_true
width-some width_some
within-all within_all
within-more within_more
written-all written_all
written-one written_one
"""

# Within one crate: a word of the library has the name.
WITHIN = {"laws": {"sum": "sum_over"}}


def table(text):
    return dict(line.split() for line in text.strip().split("\n"))


TOP = table(TYPES) | table(WORDS)
HELD = table(FIELDS)
# What the language's script has turned already, which it does not do in edits and pages.
SAID = TOP | table(TURNED)
TOKEN = re.compile(r"[^\s(){};,.\"`]+")


def turned(text, names, own):
    """The text with the names in it respelled. Behind a dot stands a field, or, where a path leads there, a name of a module."""

    def one(m):
        word, before = m.group(0), text[: m.start()]
        if not before.endswith("."):
            return own.get(word) or names.get(word) or HELD.get(word) or word
        path = re.search(r"[^\s(){};,]*$", before).group(0)
        if path.startswith("Rattle."):
            return names.get(word, word)
        return HELD.get(word, word)

    return TOKEN.sub(one, text)


def ghost(text, names, own):
    """A source file: its clauses and ghost items, and what stands between backticks in comments."""
    out, depth, inside = [], 0, False
    for line in text.split("\n"):
        bare = line.strip()
        if bare.startswith("//"):
            out.append(quoted(line, names, own))
            continue
        if not inside and re.match(r"(pub )?(ghost|requires|ensures|decreases|invariant)\b", bare):
            inside, depth = True, 0
        if inside:
            depth += line.count("{") - line.count("}")
            out.append(turned(line, names, own))
            inside = depth > 0
        else:
            out.append(line)
    return "\n".join(out)


def quoted(text, names, own):
    return re.sub(r"`[^`\n]+`", lambda m: turned(m.group(0), names, own), text)


def edit(text, own):
    """A must-fail edit: lines of a file of specs/ or of src/."""
    out, spec = [], False
    for line in text.split("\n"):
        if line.startswith("file:"):
            spec = line.endswith(".antt")
        elif spec or re.match(r"(old|new):\s*(ghost|requires|ensures)\b", line):
            head, colon, rest = line.partition(":")
            line = head + colon + turned(rest, SAID, own)
        out.append(line)
    return "\n".join(out)


def rewrite(path, text):
    if text != path.read_text():
        path.write_text(text)
        return 1
    return 0


changed = 0
for crate in sorted((root / "crates").iterdir()):
    own = WITHIN.get(crate.name, {})
    for path in sorted(crate.rglob("*.antt")):
        if "out" not in path.relative_to(crate).parts:
            changed += rewrite(path, turned(path.read_text(), TOP, own))
    for path in sorted((crate / "src").rglob("*.rt")):
        changed += rewrite(path, ghost(path.read_text(), TOP, own))
    for path in sorted(crate.glob("must-fail/*.edit")):
        changed += rewrite(path, edit(path.read_text(), own))
for path in [root / "README.md", *sorted((root / "docs").glob("*.md"))]:
    if path.name not in ("CHANGES.md", "PORT.md"):
        changed += rewrite(path, quoted(path.read_text(), SAID, {}))
print(f"{changed} files respelled")
sys.exit(0)
