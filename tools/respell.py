#!/usr/bin/env python3
"""Respells the definitions, lemmas, fields and facts of this repository: words in snake case, types and facts in camel case.

usage: python3 tools/respell.py            at the top of the repository, once

A name of the table is turned wherever it stands as a whole word in an .antt file or, outside comments and strings, in an .rt
file, and between backticks in a page. Names of the program, its inputs and its outputs are not in the table. A lemma whose
name is the outer call and then the inner one keeps a dash between the two.

Three names of the questions of a table had fallen together with those of the view: in the files of TABLE they are
table_module, table_entry and table_symbol.
"""

import glob
import re

NAMES = """
Atom-room→AtomRoom Copy-room→CopyRoom Cover-room→CoverRoom Cycle-room→CycleRoom Edge-in→EdgeIn Empty-rows→EmptyRows First-in→FirstIn
In-class→InClass Links-within→LinksWithin May-fold→MayFold Next-in→NextIn Next-slot→NextSlot No-bits→NoBits One-more→OneMore
One-numbered→OneNumbered Only-text→OnlyText Row-cycle→RowCycle Row-edge→RowEdge Same-part→SamePart Says-bits→SaysBits Says-cycles→SaysCycles
Says-edges→SaysEdges Says-firsts→SaysFirsts Says-hosts→SaysHosts Says-imports→SaysImports Says-loaders→SaysLoaders Says-numbers→SaysNumbers
Says-prepared→SaysPrepared Says-reaches→SaysReaches Says-roots→SaysRoots Says-rows→SaysRows Says-starts→SaysStarts Says-trials→SaysTrials
Says-wholes→SaysWholes Slots-done→SlotsDone Slots-spread→SlotsSpread Small-cases→SmallCases Starts-done→StartsDone Tests-agree→TestsAgree
Too-many→PastLimit Unless-edge→UnlessEdge Zero-words→ZeroWords accepted-exactly→accepted_exactly across-more→across_more added-exit→added_exit
added-row→added_row after-deciding→after_deciding all-counts-end→all_counts_end among-hit→among_hit among-miss→among_miss and-digit→and_digit
and-false→and_false and-not→and_not and-or→and_or and-true→and_true answers-cyclic→answers_cyclic any-hit→any_hit any-miss→any_miss
anyAmong→any_among areas-of→areas_of around-none→around_none async-entry→async_entry at-end→at_end at-thing→at_thing atom-below→atom_below
atom-bit→atom_bit atom-edge→atom_edge atom-edge-below→atom_edge_below atom-equal→atom_equal atom-graph→atom_graph atom-graph-or→atom_graph_or
atom-graph-same→atom_graph_same atom-graph-within→atom_graph_within atom-is→atom_is atom-like→atom_like atom-of→atom_of atom-row→atom_row
atom-some→atom_some atoms-at→atoms_at atoms-checked→atoms_checked back-again→back_again back-asks→back_asks back-begins→back_begins
back-ends→back_ends back-here→back_here back-less→back_less back-ready→back_ready back-spot→back_spot back-there→back_there
barred-before→barred_before begin-checked→begin_checked begun-at→begun_at behind-op-row→behind_op_row behind-put-row→behind_put_row
behind-with-bit→behind_with_bit behind-without-bit→behind_without_bit below-if→below_if beq-true→beq_true bind-err→bind_err bit-back→bit_back
bit-less→bit_less bit-mark→bit_mark bit-of→bit_of bit-pow→bit_pow bit-push→bit_push bit-shr→bit_shr bit-stays→bit_stays bit-suc→bit_suc
bit-then→bit_then bit-zero→bit_zero bits-kept→bits_kept bits-under→bits_under by-action→by_action by-namespace→by_namespace
by-remaining→by_remaining by-remaining-of→by_remaining_of by-remaining-to→by_remaining_to by-rules→by_rules by-rules-of→by_rules_of
by-rules-to→by_rules_to canon-last→canon_last chunk-below→chunk_below chunk-graph→chunk_graph chunk-graph-below→chunk_graph_below
chunk-only→chunk_only chunks-cyclic→chunks_cyclic chunks-cyclic-decides→chunks_cyclic_decides class-equal→class_equal class-found→class_found
class-in→class_in class-is→class_is class-like→class_like class-new→class_new class-old→class_old class-some→class_some classes-are→classes_are
classes-new→classes_new closed-full→closed_full closed-reached→closed_reached column-room→column_room columns-end→columns_end
columns-more→columns_more columnsOf→columns_of cond-le→cond_le copy-room→copy_room count-below→count_below count-block→count_block
count-blocks→count_blocks count-first→count_first count-le→count_le count-one-more→count_one_more count-row→count_row counted-twice→counted_twice
counted-wrapper→counted_wrapper counting-site→counting_site counts-checked→counts_checked counts-none→counts_none counts-one→counts_one
counts-stop→counts_stop counts-told→counts_told counts-within→counts_within cover-asks→cover_asks cover-begins→cover_begins cover-led→cover_led
cover-less→cover_less cover-outside→cover_outside cover-ready→cover_ready covered-decides→covered_decides covered-test→covered_test
cut-none→cut_none cycle-graph→cycle_graph cycle-said→cycle_said cycle-target→cycle_target cycle-tested→cycle_tested cycles-at→cycles_at
cycles-kept→cycles_kept cyclic-decides→cyclic_decides cyclic-now→cyclic_now cyclic-test→cyclic_test decide-append→decide_append
decide-other→decide_other decided-at→decided_at decided-others→decided_others decides-empty→decides_empty decides-same→decides_same
depends-on→depends_on digit-count→digit_count digit-same→digit_same digit-small→digit_small digit-step→digit_step drop-none→drop_none
drop-none-more→drop_none_more drop-on→drop_on drop-some→drop_some dynamic-below→dynamic_below dynamic-exports→dynamic_exports
dynamic-imported→dynamic_imported each-export→each_export each-of-decides→each_of_decides each-partial→each_partial each-passes→each_passes
edge-of-loads→edge_of_loads edge-passes→edge_passes edge-step→edge_step edge-unless→edge_unless empty-none→empty_none
empty-not-least→empty_not_least empty-row→empty_row empty-rows-kept→empty_rows_kept empty-word→empty_word emptyLines→empty_lines
emptyTable→empty_table end_of_lem→end_of ended-back→ended_back ended-then→ended_then ending-back→ending_back ending-by→ending_by_lem
ending-more→ending_more ending-spent→ending_spent endingBy→ending_by entries-after→entries_after entry-answer→entry_answer entry-back→entry_back
entry-check→entry_check entry-checked→entry_checked entry-count→entry_count entry-few→entry_few entry-list→entry_list entry-none→entry_none
entry-some→entry_some entry-spent→entry_spent entry-text→entry_text_lem entry-view→entry_view entryBody→entry_body entryInfoOf→entry_info_of
entryLine→entry_line entryLines→entry_lines entryText→entry_text entryTexts→entry_texts entryValue→entry_value eqb-parts→eqb_parts
every-below→every_below every-below-decides→every_below_decides export-answer→export_answer export-back→export_back export-check→export_check
export-checked→export_checked export-list→export_list exportBody→export_body exportLine→export_line exportText→export_text exportValue→export_value
exports-are→exports_are exports-name→exports_name exports-same→exports_same faultAt→fault_at faultLine→fault_line faultOf→fault_of
few-entries→few_entries few-in-entry→few_in_entry few-in-lists→few_in_lists few-in-module→few_in_module few-lists→few_lists few-modules→few_modules
few-names→few_names few-symbols→few_symbols field-more→field_more fields-checked→fields_checked fieldsLine→fields_line fieldsValue→fields_value
fill-closed→fill_closed fill-ready→fill_ready fill-skip→fill_skip first-again→first_again first-is→first_is first-over→first_over
firsts-below→firsts_below firsts-kept→firsts_kept flags-none→flags_none flags-some→flags_some formFault→form_fault found-begins→found_begins
found-few→found_few found-goes→found_goes found-grows→found_grows found-marked→found_marked found-new→found_new found-not-least→found_not_least
found-was→found_was four-then→four_then frame-new→frame_new frame-none→frame_none from-commonjs→from_commonjs from-host→from_host
from-number→from_number from-optional→from_optional front-op-row→front_op_row front-put-row→front_put_row front-with-bit→front_with_bit
front-without-bit→front_without_bit get-some→get_some has-after→has_after has-at→has_at has-below→has_below has-bit→has_bit has-decides→has_decides
has-empty-row→has-empty_row has-frame→has_frame has-from→has_from has-front→has_front has-host→has_host has-host-below→has_host_below
has-marks→has_marks has-meet-row→has-meet_row has-minus-row→has-minus_row has-name→has_name has-no-end→has_no_end has-op-row→has_op_row
has-op-row-apart→has_op_row_apart has-op-row-elsewhere→has_op_row_elsewhere has-past→has_past has-put-row-apart→has-put_row_apart
has-put-row-elsewhere→has-put_row_elsewhere has-test→has_test has-union-row→has-union_row has-with-bit→has-with_bit
has-with-bit-apart→has-with_bit_apart has-with-bit-elsewhere→has-with_bit_elsewhere has-with-bit-itself→has-with_bit_itself
has-with-bit-other→has-with_bit_other has-without-bit→has-without_bit has-without-bit-apart→has-without_bit_apart
has-without-bit-elsewhere→has-without_bit_elsewhere has-without-bit-itself→has-without_bit_itself has-without-bit-other→has-without_bit_other
has-zero→has_zero head-counts→head_counts head-rest→head_rest headLine→head_line headerLine→header_line headerOf→header_of held-some→held_some
heldBy→held_by heldLines→held_lines heldWhole→held_whole host-edge→host_edge host-edge-below→host_edge_below hosts-at→hosts_at hosts-kept→hosts_kept
if-there→if_there if-usable→if_usable if-usable-some→if_usable_some imports-at→imports_at imports-below→imports_below imports-kept→imports_kept
in-a-circle→in_a_circle info-is→info_is infoOf→info_of is-cjs→is_cjs is-decides→is_decides is-esm→is_esm is-namespace→is_namespace is-of→is_of
is-root→is_root is-used→is_used isDigit→is_digit isRefusal→is_refusal item-answer→item_answer item-check→item_check item-list→item_list
item-none→item_none item-some→item_some items-are→items_are items-checked→items_checked keeps-signature→keeps_signature kept-opened→kept_opened
kept-or-lost→kept_or_lost leader-below→leader_below leader-class→leader_class leader-least→leader_least leader-rises→leader_rises
leads-below→leads_below leads-more→leads_more leads-of→leads_of leads-of-way→leads_of_way leads-usable→leads_usable least-atom→least_atom
least-below→least_below least-is→least_is least-like→least_like least-module→least_module least-of-256→least_of_256 least-same→least_same
leasts-are→leasts_are leasts-last→leasts_last leasts-more→leasts_more leasts-new→leasts_new leasts-old→leasts_old leasts-on→leasts_on
leasts-same→leasts_same led-node→led_node led-opened→led_opened led-other→led_other left-added→left_added leftBy→left_by length-marks→length_marks
length-op-row→length_op_row length-put-row→length-put_row length-with-bit→length-with_bit length-without-bit→length-without_bit
less-digit→less_digit limit-fits→limit_fits limit-least→limit_least line-back→line_back line-end→line_end line-there→line_there lineBy→line_by
lineColumn→line_column lineIn→line_in lineOfThing→line_of_thing lineValue→line_value lines-below→lines_below lines-under→lines_under
linesIn→lines_in linesSaid→lines_said link-bad→link_bad link-check→link_check link-checked→link_checked link-none→link_none link-one→link_one
link-passes→link_passes link-some→link_some links-checked→links_checked list-of→list_of_lem listIn→list_in listed-placed→listed_placed
lists-checked→lists_checked live-service→live_service load-count→load_count load-none→load_none load-shape→load_shape load-slot→load_slot
load-some→load_some loaders-at→loaders_at loaders-kept→loaders_kept loads-decides→loads_decides loads-from→loads_from loads-listed→loads_listed
loads-of-edge→loads_of_edge loads-on→loads_on loads-test→loads_test looked-all→looked_all looked-next→looked_next looked-none→looked_none
loses-own→loses_own lower-cases→lower_cases lowest-even→lowest_even lowest-odd→lowest_odd ltb-mapped→ltb_mapped many-again→many_again
many-back→many_back many-exit→many_exit many-numbers→many_numbers many-spent→many_spent many-stop→many_stop many-way→many_way manyLines→many_lines
mapped-mapped→mapped_mapped mark-behind→mark_behind mark-bit→mark_bit mark-front→mark_front mark-marks→mark_marks mark-queue→mark_queue
marked-has→marked_has marked-is→marked_is marks-before→marks_before marks-more→marks_more marks-none→marks_none marks-of→marks_of
marks-uncovered→marks_uncovered meaningIn→meaning_in meaningOf→meaning_of meet-row→meet_row minus-row→minus_row minus-words→minus_words
module-answer→module_answer module-at→module_at module-back→module_back module-check→module_check module-checked→module_checked
module-count→module_count module-end→module_end module-fault0→module_fault0 module-fault1→module_fault1 module-fault2→module_fault2
module-fault3→module_fault3 module-fault4→module_fault4 module-fault5→module_fault5 module-fault6→module_fault6 module-few→module_few
module-list→module_list module-none→module_none module-number→module_number module-read→module_read module-some→module_some
module-spent→module_spent module-stop→module_stop module-text→module_text_lem module-told→module_told module-view→module_view moduleAt→table_module
moduleBody→module_body moduleLine→module_line moduleLines→module_lines moduleText→module_text moduleTexts→module_texts moduleValue→module_value
modules-at→modules_at name-before→name_before name-check→name_check name-found→name_found name-none→name_none name-other→name_other
name-then→name_then name-twice→name_twice names-among→names_among names-check→names_check names-checked→names_checked names-nothing→names_nothing
names-told→names_told namespace-included→namespace_included new-least→new_least new-or-old→new_or_old next-same→next_same nextStarts→next_starts
no-atom→no_atom no-cycle→no_cycle no-entry→no_entry no-module→no_module node-ready→node_ready none-decided→none_decided none-marked→none_marked
normal-below→normal_below not-not→not_not nth-map→nth_map nth-map-read→nth_map_read number-back→number_back number-line-back→number_line_back
number-new→number_new number-none→number_none number-over→number_over number-rows→number_rows number-then→number_then numberBody→number_body
numberLine→number_line numberLines→number_lines numberedValue→numbered_value numbers-at→numbers_at numbers-checked→numbers_checked
numbers-end→numbers_end numbers-kept→numbers_kept numbers-within→numbers_within okBy→ok_by on-trial→on_trial one-atom→one_atom one-back→one_back
one-spent→one_spent oneLine→one_line ones-count→ones_count only-decides→only_decides only-text→only_text only-the-only→only_the_only
open-chain→open_chain open-decides→open_decides open-path→open_path open-within→open_within opened-led→opened_led opened-outcome→opened_outcome
opens-exit→opens_exit opens-wrong→opens_wrong optional-back→optional_back optionalAt→optional_at optionalIn→optional_in or-digit→or_digit
orEmpty→or_empty other-than→other_than outside-one→outside_one outside-two→outside_two over-on→over_on own-chunk→own_chunk own-symbol→own_symbol
owns-use→owns_use pairs-with→pairs_with parsed-back→parsed_back part-before→part_before part-between→part_between part-on→part_on
partial-answer→partial_answer partial-back→partial_back partialAt→partial_at partialBody→partial_body partialLine→partial_line
partialText→partial_text partials-are→partials_are partialsOf→partials_of partly-used→partly_used parts-checked→parts_checked
passes-edge→passes_edge path-of→path_of path-of-way→path_of_way place-answer→place_answer place-finds→place_finds place-last→place_last
place-more→place_more place-next→place_next place-past→place_past placed-more→placed_more plainFault→plain_fault prepared-at→prepared_at
prepared-kept→prepared_kept push-front→push_front push-marks→push_marks pushed-added→pushed_added pushed-before→pushed_before put-0→put_0
put-row→put_row queue-of→queue_of queue-within→queue_within reach-graph→reach_graph reach-target→reach_target reached-closed→reached_closed
reaches-at→reaches_at reaches-decides→reaches_decides reaches-kept→reaches_kept ready-asks→ready_asks recordPlace→record_place
refused-opened→refused_opened refusedAt→refused_at resolves-to→resolves_to rest-is→rest_is root-inside→root_inside root-some→root_some
roots-at→roots_at row-bit→row_bit row-closed→row_closed row-edge→row_edge row-empty→row_empty row-frame→row_frame row-marked→row_marked
row-none→row_none row-places→row_places row-shape→row_shape row-some→row_some row-test→row_test row-there→row_there rows-say→rows_say
runtime-checked→runtime_checked runtime-dependent→runtime_dependent runtime-only→runtime_only said-cycle→said_cycle same-as→same_as same-is→same_is
same-row-decides→same_row_decides same-row-like→same_row_like same-told→same_told scratch-at→scratch_at scratch-on→scratch_on serve-none→serve_none
serve-some→serve_some served-by→served_by set-marks→set_marks share-count→share_count site-answer→site_answer site-back→site_back
site-check→site_check site-checked→site_checked site-list→site_list siteAt→site_at siteBody→site_body siteLine→site_line siteOf→site_of
siteText→site_text sites-are→sites_are slot-asks→slot_asks slot-done→slot_done slot-empty→slot_empty slot-found→slot_found slot-less→slot_less
slot-room→slot_room slot-spot→slot_spot slots-begin→slots_begin slots-empty→slots_empty small-here→small_here small-more→small_more
some-below-decides→some_below_decides some-below-one→some_below_one some-export→some_export some-last→some_last some-of-append→some_of_append
some-of-decides→some_of_decides some-of-more→some_of_more some-reference→some_reference some-site→some_site spent-as→spent_as spent-both→spent_both
spent-none→spent_none spentBy→spent_by spread-all→spread_all spread-next→spread_next start-row→start_row starts-at→starts_at
starts-before→starts_before starts-kept→starts_kept starts-same→starts_same step-edge→step_edge still-has→still_has
strict-signature→strict_signature symbol-answer→symbol_answer symbol-at→symbol_at symbol-back→symbol_back symbol-check→symbol_check
symbol-checked→symbol_checked symbol-count→symbol_count symbol-list→symbol_list symbol-none→symbol_none symbol-some→symbol_some
symbol-spent→symbol_spent symbol-text→symbol_text_lem symbol-view→symbol_view symbolBody→symbol_body symbolLine→symbol_line symbolText→symbol_text
symbolTexts→symbol_texts symbols-pass→symbols_pass table-back→table_back table-checked→table_checked tableBody→table_body tableLine→table_line
take-front→take_front take-hit→take_hit take-miss→take_miss test-digit→test_digit test-edge→test_edge test-next→test_next text-fault0→text_fault0
text-fault1→text_fault1 text-fault2→text_fault2 text-fault3→text_fault3 text-read→text_read textMeaning→text_meaning textTexts→text_texts
textValue→text_value the-only→the_only the-only-only→the_only_only the-only-some→the_only_some then-parts→then_parts those-below→those_below
those-have→those_have those-pass→those_pass those-rise→those_rise those-same→those_same times-again→times_again times-back→times_back
times-exit→times_exit times-stop→times_stop tooLong→too_long trials-at→trials_at trials-kept→trials_kept turn-asks→turn_asks turn-none→turn_none
turn-some→turn_some two-first→two_first uncovered-decides→uncovered_decides union-row→union_row unless-barred→unless_barred
unless-cyclic→unless_cyclic unless-edge→unless_edge unless-is→unless_is unless-next→unless_next unless-passes→unless_passes unless-row→unless_row
unless-shape→unless_shape unless-stops→unless_stops unless-test→unless_test unlines-append→unlines_append unlines-lines→unlines_lines
usable-below→usable_below usable-none→usable_none usable-of→usable_of usable-of-some→usable_of_some usable-root→usable_root usable-some→usable_some
usable-told→usable_told verdicts-at→verdicts_at view-entry→view_entry view-module→view_module view-modules→view_modules walk-again→walk_again
walk-asks→walk_asks walk-node→walk_node walk-now→walk_now walk-on→walk_on walk-over→walk_over walk-room→walk_room walk-spot→walk_spot
walk-stops→walk_stops way-below→way_below way-front→way_front way-inside→way_inside way-map→way_map way-of-path→way_of_path
way-then-leads→way_then_leads when-is→when_is when-not→when_not whole-at→whole_at whole-decides→whole_decides wholes-at→wholes_at
wholes-kept→wholes_kept with-bit→with_bit without-bit→without_bit word-is→word_is word-of-marks→word_of_marks word-op-row→word_op_row
word-put-row→word_put_row word-stays→word_stays word-with-bit→word_with_bit word-without-bit→word_without_bit words-checked→words_checked
words-first→words_first wrapper-of→wrapper_of written-line→written_line written-lined→written_lined zero-rows→zero_rows
zero-words-kept→zero_words_kept
"""

# The files that mean the questions of a table by entry_at and symbol_at.
TABLE = {
    "crates/tables/specs/Asked.antt",
    "crates/tables/src/table.rt",
    "crates/textparts/proofs/Found.antt",
    "crates/bits/proofs/Asks.antt",
    "crates/checks/proofs/Walks.antt",
    "crates/asks/proofs/Read.antt",
}

WORD = re.compile(r"(?<![\w'\u2032-])[A-Za-z][\w'\u2032]*(?:-[\w'\u2032]+)*(?![\w'\u2032-])")
# What Rattle itself names: a goal, a step of a proof, the fields that a file of goals hands out.
MADE = re.compile(r"(?:\b(?:goal|c|w|l)\.)$")
QUIET = re.compile(r'//[^\n]*|"(?:[^"\\\n]|\\.)*"|b?\'(?:[^\'\\\n]|\\.)\'')


def table():
    out = {}
    for pair in NAMES.split():
        old, new = pair.split("\u2192")
        out[old] = new
    return out


def turn(text, names):
    def one(m):
        new = names.get(m.group(0))
        if new is None or MADE.search(text[max(0, m.start() - 6):m.start()]):
            return m.group(0)
        return new
    return WORD.sub(one, text)


def turn_code(text, names):
    out, at = [], 0
    for m in QUIET.finditer(text):
        out += [turn(text[at:m.start()], names), m.group(0)]
        at = m.end()
    return "".join(out) + turn(text[at:], names)


def turn_page(text, names):
    return re.sub(r"`[^`\n]+`", lambda m: turn(m.group(0), names), text)


def main():
    names = table()
    asked = dict(names, entry_at="table_entry", symbol_at="table_symbol")
    for path in sorted(glob.glob("crates/**/*", recursive=True)) + sorted(glob.glob("docs/*.md")) + ["README.md"]:
        if not path.endswith((".rt", ".antt", ".md")) or "/out/" in path:
            continue
        with open(path, encoding="utf-8") as f:
            text = f.read()
        use = asked if path in TABLE else names
        new = turn_page(text, use) if path.endswith(".md") else turn_code(text, use) if path.endswith(".rt") else turn(text, use)
        if new != text:
            with open(path, "w", encoding="utf-8") as f:
                f.write(new)


if __name__ == "__main__":
    main()
