//! The rulings of the interface page, by their numbers.

use super::*;

/// A line with eight holds, the first of which ends at 602, the others never.
fn eight_holds() -> Table {
    let mut table = opened();
    for last in 1..=8 {
        go(&mut table, 2, "auth", [192, 0, 2, last]);
        ok(&mut table, 2, congestion(if last == 1 { 0x01 } else { 0xE0 }));
    }
    table
}

#[test]
fn ruling_2_counts_the_holds_at_the_time_of_the_call() {
    let mut table = eight_holds();
    assert_eq!(refusal(&table, 2, start(1, 0, HOME)), 13);
    assert_eq!(refusal(&table, 601, start(1, 0, HOME)), 13);
    ok(&mut table, 602, start(1, 0, HOME));
    assert_eq!(line(&table).holds.len(), 7);
    assert_eq!(ok(&mut table, 602, addresses(&[v4([192, 0, 2, 1])])).numbers[0], 4);
}

#[test]
fn ruling_3_child_deleted_tests_no_range() {
    let mut table = in_phase("live");
    for spi in [0, 255, 256, u64::MAX] {
        assert_eq!(refusal(&table, 0, Event::ChildDeleted { spi }), 10);
    }
    assert_eq!(refusal(&table, u64::MAX, Event::ChildDeleted { spi: 0 }), 8);
    ok(&mut table, 0, Event::ChildMade { spi: 256, session: 1 });
    assert_eq!(refusal(&table, 0, Event::ChildMade { spi: 256, session: 2 }), 11);
    assert_eq!(refusal(&table, 0, Event::ChildDeleted { spi: 256 }), 0);
}

#[test]
fn ruling_4_the_country_answer_tests_the_home_mcc_where_it_is_awaited() {
    let visited_is_home = "home\t001\t01\n";
    for phase in PHASES {
        let expected = if phase == "country" { 8 } else { 10 };
        assert_eq!(refusal(&in_phase(phase), 0, country(&[], visited_is_home)), expected);
        assert_eq!(refusal(&in_phase(phase), 0, no_country(visited_is_home)), expected);
        assert_eq!(refusal(&in_phase(phase), 0, country(&[], "home\t001\t01")), 9);
    }
}

#[test]
fn ruling_5_the_registered_plmn_is_judged_by_the_text_of_each_call() {
    let mut table = opened();
    ok(&mut table, 0, start_registered(1, (999, 70), HOME));
    let facts = Facts { place: Place::Abroad { mcc: 1 }, registered: Some(Plmn { mcc: 999, mnc: 70 }), version: 4 };
    assert_eq!(line(&table).phase, Phase::Country(facts));
    let mut same_home = table.clone();
    assert_eq!(asked(&ok(&mut same_home, 0, country(&[(1, 2), (999, 70)], HOME))), "mnc002.mcc001");
    assert_eq!(line(&same_home).phase, Phase::Name(facts));
    assert_eq!(asked(&ok(&mut table, 0, country(&[(1, 2), (999, 70)], "home\t998\t70\n"))), "mnc070.mcc999");
}

#[test]
fn ruling_7_identifiers_and_lengths() {
    let long_success = vec![3, 7, 0, 4, 0];
    assert_eq!(refusal(&in_phase("eap"), 0, eap(long_success)), 9);
    assert_eq!(refusal(&in_phase("eap"), 0, eap(start_packet(7))), 10);
    assert_eq!(refusal(&in_phase("owed"), 0, eap(nas_packet(8, &[1]))), 10);
    assert_eq!(refusal(&in_phase("eap"), 0, success(8)), 10);
    assert_eq!(refusal(&in_phase("idle"), 0, eap(vec![0; 70_000])), 9);
}

#[test]
fn ruling_8_giving_up_says_nothing() {
    for phase in ["country", "chosen", "owed", "eap"] {
        assert_eq!(ok(&mut in_phase(phase), 0, Event::GiveUp).numbers, [0; 12]);
    }
}

#[test]
fn ruling_9_unauthenticated_congestion() {
    for phase in PHASES {
        assert_eq!(refusal(&in_phase(phase), 0, Event::Congestion { authenticated: 0, timer: 0xE0 }), 10);
        assert_eq!(refusal(&in_phase(phase), 0, Event::Congestion { authenticated: 0, timer: 0x100 }), 8);
    }
}

#[test]
fn ruling_10_texts_are_tested_in_every_phase() {
    for phase in PHASES {
        assert_eq!(refusal(&in_phase(phase), 0, start(2, 999, HOME)), 8);
        assert_eq!(refusal(&in_phase(phase), 0, start(2, 999, "home\t999\t70")), 9);
        assert_eq!(refusal(&in_phase(phase), 0, start(0, 0, "")), 9);
        assert_eq!(refusal(&in_phase(phase), 0, no_country("")), 9);
    }
}

#[test]
fn ruling_11_thirteen_for_every_start_and_a_node_that_is_not_permitted() {
    let node = format!("{HOME}node\tv4\tc0000201\n");
    for event in [start(0, 0, HOME), start(1, 0, &node), start(2, 1, HOME)] {
        assert_eq!(refusal(&eight_holds(), 2, event), 13);
    }
    assert_eq!(refusal(&eight_holds(), 2, start(0, 0, "")), 9);
    let mut table = opened();
    go(&mut table, 0, "auth", [192, 0, 2, 1]);
    ok(&mut table, 0, congestion(0xE0));
    assert_eq!(stop(&ok(&mut table, 0, start(1, 0, &node))), (4, 1));
}

#[test]
fn ruling_12_ties_and_a_barred_home() {
    let text = format!("{HOME}plmn\t001\t02\t7\nplmn\t001\t01\t7\nbar\t999\t70\n");
    assert_eq!(asked(&ok(&mut in_phase("country"), 0, country(&[(1, 1), (1, 2)], &text))), "mnc002.mcc001");
    assert_eq!(stop(&ok(&mut in_phase("country"), 0, country(&[(999, 70)], &text))), (3, 0));
    assert_eq!(asked(&ok(&mut in_phase("country"), 0, country(&[(999, 70)], HOME))), "mnc070.mcc999");
    let other_country = format!("{HOME}plmn\t002\t01\t7\n");
    assert_eq!(asked(&ok(&mut opened(), 0, start_registered(1, (2, 1), &other_country))), "mnc001.mcc002");
}

#[test]
fn ruling_13_parameters_later_and_a_repeated_identifier() {
    let mut table = in_phase("eap");
    ok(&mut table, 0, eap(nas_packet(7, &[1])));
    ok(&mut table, 0, reply(&PARAMETERS, &[1]));
    let short_start = vec![1, 7, 0, 13, 254, 0, 0x28, 0xAF, 0, 0, 0, 3, 1];
    assert_eq!(refusal(&in_phase("auth"), 0, eap(short_start)), 9);
}

#[test]
fn ruling_14_only_the_first_reply_looks_at_the_phase() {
    for phase in PHASES {
        let table = in_phase(phase);
        assert_eq!(refusal(&table, 0, reply(&PARAMETERS, &[])), 8);
        assert_eq!(refusal(&table, 0, reply(&PARAMETERS, &[0; 2049])), 8);
        assert_eq!(refusal(&table, 0, reply(&[0; 1025], &[1])), 8);
        assert_eq!(refusal(&table, 0, reply(&[1], &[1])), 9);
        assert_eq!(refusal(&table, 0, reply(&[], &[1])), if phase == "owed" { 8 } else { 10 });
    }
}
