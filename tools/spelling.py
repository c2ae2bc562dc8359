#!/usr/bin/env python3
"""Gives the repository's own definitions and lemmas the spelling of std: words in snake case, types and facts in camel case.

usage: tools/spelling.py        at the top of a checkout that port.py has just turned

Each row of NAMES is an old name and its new one. All names are replaced at once, as whole words, in crates/. Five names would have fallen
together with a field, a ghost field or a lemma, and have new words: fit_goods, fit_mesh, fit_sum, prices_add_up and walks_at-is.
"""

import os
import re

NAMES = """
    Addresses-bounded AddressesBounded; Excesses-cancel ExcessesCancel;
    Free-goods-not-in-surplus FreeGoodsNotInSurplus; J1-lawful J1Lawful; K1-lawful K1Lawful;
    Label-determined LabelDetermined; Label-exists LabelExists; No-file-has-a-fault NoFileHasAFault;
    One-economy OneEconomy; One-fault OneFault; Worked-examples WorkedExamples; acceptingAt accepting_at;
    acrossOn across_on; address-full address_full; address-size address_size; address-small address_small;
    adds-up adds_up; addsUp prices_add_up; allEven all_even; allLabelled all_labelled; allPrint all_print;
    arrivalText arrival_text; arrived-cell arrived_cell; arrivedAt arrived_at; at-wall at_wall;
    beginningOf beginning_of; cameFrom came_from; carriedBy carried_by; cells-1-2 cells_1_2; cells-2-3 cells_2_3;
    cells-4-2 cells_4_2; cornerAt corner_at; cornerOf corner_of; cornerOn corner_on; cornersOf corners_of;
    downFrom down_from; dropsOn drops_on; dueIn due_in; dueOf due_of; dueTag due_tag; each-fault each_fault;
    each-file each_file; economyOf economy_of; excessFor excess_for; excessesAt excesses_at; faultText fault_text;
    few-names few_names; few-traders few_traders; fieldFor field_for; fileOf file_of; finerMesh finer_mesh;
    first-short first_short; firstAbove first_above; firstAfter first_after; firstAfter-here first_after-here;
    firstAfter-none first_after-none; firstAfter-skip first_after-skip; from-first from_first; goes-on goes_on;
    goodText good_text; goodWall good_wall; goodsDue goods_due; goodsField goods_field; goodsFit fit_goods;
    goodsFrom goods_from; goodsOf goods_of; gridFor grid_for; gridOf grid_of; halts-only halts_only;
    halts-there halts_there; handedBack HandedBack; home-corner home_corner; home-place home_place;
    in-getD in-get_or; isCell is_cell; isPoint is_point; isProper is_proper; isWalking is_walking;
    j1-admits j1_admits; j1-arrives j1_arrives; j1-cell j1_cell; j1-does-not j1_does_not; j1-first j1_first;
    j1Across j1_across; j1Corner j1_corner; j1First j1_first; j1Last j1_last; j1Middle j1_middle; joinRows join_rows;
    k1-arrives k1_arrives; k1-cell k1_cell; k1-first k1_first; k1-last k1_last; k1-second k1_second;
    k1-third k1_third; k1Across k1_across; k1Corner k1_corner; k1First k1_first; k1Last k1_last; k1Middle k1_middle;
    label-first label_first; label-priced label_priced; label-second label_second; labelIn label_in;
    labelNow label_now; labelOn label_on; lengthFits length_fits; levelOf level_of; levelsAt levels_at;
    levelsFit levels_fit; listed-getD listed-get_or; lookFor look_for; madeFiner made_finer;
    marketLabel market_label; marketRule market_rule; meshFits fit_mesh; meshOf mesh_of; nameDue name_due;
    nameField name_field; nameFor name_for; names-room names_room; namesIn names_in; never-ten never_ten;
    newestShown newest_shown; no-goods no_goods; no-halt no_halt; no-sum no_sum; no-way no_way;
    nothingDue nothing_due; onArrival on_arrival; onHalt on_halt; only-start only_start; openText open_text;
    outerLabel outer_label; outerWall outer_wall; ownedFor owned_for; ownedInAll owned_in_all; owns-room owns_room;
    placeFor place_for; placedTo placed_to; pointAtLevels point_at_levels; pointFor point_for; pointText point_text;
    pricesOf prices_of; pricesOn prices_on; properOn proper_on; realWall real_wall; ruleOf rule_of;
    same-corners same_corners; second-spare second_spare; sheet-halts sheet_halts; sheetFor sheet_for;
    sheetOf sheet_of; sheetRule sheet_rule; six-steps six_steps; stageOf stage_of; start-cell start_cell;
    startFor start_for; startShape start_shape; stopNumber stop_number; sumDue sum_due; sumField sum_field;
    sumFits fit_sum; sumOver sum_over; sumOver-add sum_over-add; sumOver-dot sum_over-dot; sumOver-le sum_over-le;
    sumOver-lt sum_over-lt; sumOver-none sum_over-none; sumOver-price sum_over-price; sumOver-same sum_over-same;
    sumOver-shift sum_over-shift; sumOver-some sum_over-some; sumOver-times sum_over-times; swapRule swap_rule;
    tagDue tag_due; ticketIn ticket_in; toLevels to_levels; toPrices to_prices; traderAt trader_at;
    traderDue trader_due; traderField trader_field; traderIn trader_in; tradersIn traders_in; tradersOf traders_of;
    tradersText traders_text; upJ up_j; upK up_k; valueFits value_fits; walksAt walks_at; walks_at walks_at-is;
    wallCode wall_code; weighs-room weighs_room; weightsFit weights_fit; whenRefused WhenRefused;
    withGoods with_goods; withName with_name; withTrader with_trader;
    j1FirstAcross j1_first_across; j1LastAcross j1_last_across; k1FirstAcross k1_first_across;
    k1LastAcross k1_last_across; middleAcross middle_across; by-wall by_wall; by-halt by_halt;
    not-walking not_walking; not-arrived not_arrived; no-good no_good; not-accepted not_accepted;
    no-factor no_factor; not-admitted not_admitted;
"""

WORD = re.compile(r"[A-Za-z_][\w'-]*")


def main():
    names = dict(row.split() for row in NAMES.replace("\n", " ").split(";") if row.strip())
    for folder, folders, files in os.walk("crates"):
        folders[:] = [f for f in folders if f != "out"]
        for file in files:
            if not file.endswith((".rt", ".antt", ".edit")):
                continue
            path = os.path.join(folder, file)
            with open(path, encoding="utf-8") as f:
                text = f.read()
            new = WORD.sub(lambda m: names.get(m.group(0), m.group(0)), text)
            if new != text:
                with open(path, "w", encoding="utf-8") as f:
                    f.write(new)


main()
