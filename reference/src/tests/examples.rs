//! The examples of document 01, starred and other.

use super::*;

fn timer(octet: u64) -> [u64; 6] {
    let answer = packet_call(&PacketCall::Timer { octet });
    assert_eq!(answer.refusal, 0);
    answer.fields
}

#[test]
fn timers() {
    assert_eq!(timer(0x61), [1, 2, 0, 0, 0, 0]);
    assert_eq!(timer(0x00), [0; 6]);
    assert_eq!(timer(0xE0), [2, 0, 0, 0, 0, 0]);
    assert_eq!(timer(0xFF), [2, 0, 0, 0, 0, 0]);
    assert_eq!(timer(0xDF), [1, 35_712_000, 0, 0, 0, 0]);
    for (unit, seconds) in [600, 3600, 36_000, 2, 30, 60, 1_152_000].into_iter().enumerate() {
        assert_eq!(timer((unit as u64) << 5), [0; 6]);
        assert_eq!(timer((unit as u64) << 5 | 1), [1, seconds, 0, 0, 0, 0]);
    }
}

#[test]
fn congestion_61_at_100_is_held_at_101_and_free_at_102() {
    let mut table = in_phase("auth");
    ok(&mut table, 100, congestion(0x61));
    let mut early = table.clone();
    ok(&mut early, 101, start(1, 0, HOME));
    assert_eq!(stop(&ok(&mut early, 101, addresses(&[v4([192, 0, 2, 7])]))), (4, 1));
    ok(&mut table, 102, start(1, 0, HOME));
    assert!(line(&table).holds.is_empty());
    assert_eq!(ok(&mut table, 102, addresses(&[v4([192, 0, 2, 7])])).numbers[0], 4);
}

#[test]
fn the_hold_looks_at_the_time_of_the_address_answer() {
    let mut table = in_phase("auth");
    ok(&mut table, 100, congestion(0x61));
    ok(&mut table, 101, start(1, 0, HOME));
    assert_eq!(ok(&mut table, 102, addresses(&[v4([192, 0, 2, 7])])).numbers[0], 4);
}

#[test]
fn names() {
    let mut table = opened();
    let answer = ok(&mut table, 0, start(1, 0, HOME));
    assert_eq!(name(&answer, 2), "n3iwf.5gc.mnc070.mcc999.pub.3gppnetwork.org");
    assert_eq!(answer.numbers, [3, 0, 0, 2, 0, 43, 0, 0, 0, 0, 0, 43]);
    assert_eq!(&answer.buffer[..43], &answer.part[..]);
    assert_eq!((answer.buffer.len(), answer.buffer[43..].iter().all(|octet| *octet == 0)), (64, true));
    let mut table = opened();
    let answer = ok(&mut table, 0, start(2, 999, "home\t001\t01\n"));
    assert_eq!(name(&answer, 2), "n3iwf.5gc.mcc999.visited-country.pub.3gppnetwork.org");
    assert_eq!(answer.numbers, [2, 0, 0, 2, 0, 52, 0, 0, 0, 0, 0, 52]);
}

#[test]
fn addresses_v6_held_v4_and_the_third() {
    let mut table = opened();
    go(&mut table, 0, "auth", [192, 0, 2, 1]);
    ok(&mut table, 0, congestion(0xE0));
    ok(&mut table, 9, start(1, 0, HOME));
    let answer = ok(&mut table, 9, addresses(&[v6([0xFE; 16]), v4([192, 0, 2, 1]), v4([192, 0, 2, 7]), v4([192, 0, 2, 8])]));
    assert_eq!(answer.numbers, [4, 0, 2, 0, 0, 0, 4, 0, 0xC000_0207, 0, 0, 0]);
    assert_eq!(stop(&ok(&mut in_phase("name"), 0, addresses(&[]))), (4, 0));
}

#[test]
fn a_version_6_address_is_two_halves() {
    let mut table = opened();
    let text = format!("{HOME}node\tv6\t20010db8000000000000000000000007\n");
    let Event::Start { text, room, .. } = start(1, 0, &text) else { unreachable!() };
    let event = Event::Start { place: 1, mcc: 0, registered: 0, registered_mcc: 0, registered_mnc: 0, version: 6, text, room };
    assert_eq!(ok(&mut table, 0, event).numbers, [4, 0, 0, 0, 0, 0, 6, 0x2001_0DB8_0000_0000, 7, 0, 0, 0]);
    assert_eq!(listed(&mut table, 0), "line\t0\tchosen\t20010db8000000000000000000000007\t0\n");
}

#[test]
fn the_start_packet() {
    let packet = vec![0x01, 0x07, 0x00, 0x0E, 0xFE, 0x00, 0x28, 0xAF, 0x00, 0x00, 0x00, 0x03, 0x01, 0x00];
    assert_eq!(packet, start_packet(7));
    assert_eq!(packet_call(&PacketCall::ReadRequest { packet: packet.clone() }).fields, [1, 7, 0, 0, 0, 0]);
    assert_eq!(ok(&mut in_phase("auth"), 0, eap(packet)).numbers, [7, 0, 0, 0, 0, 0, 0, 0, 0, 0, 0, 0]);
}

#[test]
fn a_later_reply() {
    let mut table = in_phase("eap");
    let answer = ok(&mut table, 0, eap(nas_packet(7, &[1, 2, 3])));
    assert_eq!((answer.numbers, answer.part), ([8, 0, 0, 3, 16, 3, 0, 0, 0, 0, 0, 0], vec![1, 2, 3]));
    let answer = ok(&mut table, 0, reply(&[], &[0x7E]));
    let packet = [0x02, 0x07, 0x00, 0x13, 0xFE, 0x00, 0x28, 0xAF, 0x00, 0x00, 0x00, 0x03, 0x02, 0x00, 0x00, 0x00, 0x00, 0x01, 0x7E];
    assert_eq!(answer.buffer, [&packet[..], &[0; 3090 - 19]].concat());
    assert_eq!(answer.numbers, [9, 0, 0, 0, 0, 0, 0, 0, 0, 0, 0, 19]);
}

#[test]
fn success_while_owed_and_after_the_reply() {
    let mut table = in_phase("owed");
    assert_eq!(refusal(&table, 0, success(7)), 10);
    ok(&mut table, 0, reply(&PARAMETERS, &[0x7E]));
    assert_eq!(ok(&mut table, 0, success(7)).numbers[0], 10);
    assert_eq!(line(&table).phase, Phase::Sure(Address::V4(0xC000_0207)));
}

#[test]
fn eight_children_and_no_ninth() {
    let mut table = in_phase("live");
    for spi in 256..264 {
        ok(&mut table, 0, Event::ChildMade { spi, session: 1 });
    }
    assert_eq!(refusal(&table, 0, Event::ChildMade { spi: 264, session: 1 }), 12);
    assert_eq!(refusal(&table, 0, Event::ChildMade { spi: 256, session: 1 }), 11);
    ok(&mut table, 0, Event::ChildDeleted { spi: 256 });
    ok(&mut table, 0, Event::ChildMade { spi: 264, session: 15 });
}

#[test]
fn thirty_two_lines_and_no_next() {
    let mut table = Table::default();
    for pair in 0..32 {
        assert_eq!(table.call(&Call::Open { tenant: pair / 4, line: pair % 4 }).refusal, 0);
    }
    assert_eq!(table.call(&Call::Open { tenant: 8, line: 0 }).refusal, 6);
    assert_eq!(table.call(&Call::Open { tenant: 7, line: 3 }).refusal, 4);
    assert_eq!(table.call(&Call::Close { tenant: 0, line: 2 }).refusal, 0);
    assert_eq!(table.call(&Call::Open { tenant: 8, line: 0 }).refusal, 0);
}

#[test]
fn the_listing() {
    let mut table = in_phase("live");
    for line in [2, 1] {
        table.call(&Call::Open { tenant: 0, line });
    }
    table.call(&Call::Close { tenant: 0, line: 1 });
    table.call(&Call::Open { tenant: 1, line: 3 });
    ok(&mut table, 0, Event::ChildMade { spi: 0xC0DE, session: 5 });
    assert_eq!(listed(&mut table, 0), "line\t0\tlive\tc0000207\t1\nchild\t0\t0000c0de\t5\nline\t2\tidle\t-\t0\n");
    assert_eq!(listed(&mut table, 1), "line\t3\tidle\t-\t0\n");
    assert_eq!(listed(&mut table, 15), "");
    for phase in PHASES {
        let word = if phase == "owed" { "eap" } else { phase };
        let address = if ["idle", "country", "name"].contains(&phase) { "-" } else { "c0000207" };
        assert_eq!(listed(&mut in_phase(phase), 0), format!("line\t0\t{word}\t{address}\t0\n"));
    }
}

#[test]
fn children_keep_the_order_made() {
    let mut table = in_phase("live");
    for spi in [900, 300, 0xFFFF_FFFF] {
        ok(&mut table, 0, Event::ChildMade { spi, session: 15 });
    }
    ok(&mut table, 0, Event::ChildDeleted { spi: 300 });
    ok(&mut table, 0, Event::ChildMade { spi: 300, session: 2 });
    let records = "child\t0\t00000384\t15\nchild\t0\tffffffff\t15\nchild\t0\t0000012c\t2\n";
    assert_eq!(listed(&mut table, 0), format!("line\t0\tlive\tc0000207\t3\n{records}"));
    assert_eq!(ok(&mut table, 0, Event::IkeDelete).numbers, [12, 0, 0, 0, 0, 0, 0, 0, 0, 0, 0, 0]);
    assert_eq!(listed(&mut table, 0), "line\t0\tidle\t-\t0\n");
}

/// Selection, step by step.
#[test]
fn s1_and_s2() {
    assert_eq!(stop(&ok(&mut opened(), 0, start(0, 0, HOME))), (1, 0));
    let barred = format!("{HOME}bar\t999\t070\n");
    assert_eq!(asked(&ok(&mut opened(), 0, start(1, 0, &barred))), "mnc070.mcc999");
    let named = format!("{HOME}node\tname\tGw-1.example.\nplmn\t999\t70\t0\n");
    let answer = ok(&mut opened(), 0, start(1, 0, &named));
    assert_eq!(name(&answer, 1), "Gw-1.example.");
    assert_eq!(&named[answer.numbers[4] as usize..][..answer.numbers[5] as usize], "Gw-1.example.");
    assert_eq!(answer.numbers, [3, 0, 0, 1, 22, 13, 0, 0, 0, 0, 0, 0]);
    assert_eq!(answer.buffer, [0; 64]);
    let address = format!("{HOME}node\tv4\tc0000207\n");
    assert_eq!(ok(&mut opened(), 0, start(1, 0, &address)).numbers, [4, 0, 0, 0, 0, 0, 4, 0, 0xC000_0207, 0, 0, 0]);
}

#[test]
fn s3_asks_the_registered_plmn_only_with_a_record_and_unbarred() {
    let text = format!("{HOME}plmn\t001\t01\t9\n");
    assert_eq!(asked(&ok(&mut opened(), 0, start_registered(1, (1, 1), &text))), "mnc001.mcc001");
    let country = "n3iwf.5gc.mcc001.visited-country.pub.3gppnetwork.org";
    assert_eq!(name(&ok(&mut opened(), 0, start_registered(1, (1, 2), &text)), 2), country);
    assert_eq!(name(&ok(&mut opened(), 0, start_registered(1, (1, 1), HOME)), 2), country);
    let barred = format!("{text}bar\t001\t001\n");
    assert_eq!(name(&ok(&mut opened(), 0, start_registered(1, (1, 1), &barred)), 2), country);
    let home = format!("{HOME}plmn\t999\t70\t0\n");
    assert_eq!(name(&ok(&mut opened(), 0, start_registered(1, (999, 70), &home)), 2), country);
}

#[test]
fn s4_no_reply_is_not_an_empty_reply() {
    assert_eq!(stop(&ok(&mut in_phase("country"), 0, no_country(HOME))), (2, 0));
    assert_eq!(asked(&ok(&mut in_phase("country"), 0, country(&[], HOME))), "mnc070.mcc999");
}

#[test]
fn s4_with_networks() {
    let text = format!("{HOME}plmn\t001\t03\t5\nplmn\t001\t02\t5\nplmn\t001\t04\t0\nbar\t001\t04\nbar\t001\t05\n");
    let answer_to = |registered, networks: &[(u16, u16)]| {
        let mut table = opened();
        ok(&mut table, 0, start_registered(1, registered, HOME));
        ok(&mut table, 0, country(networks, &text))
    };
    assert_eq!(asked(&answer_to((1, 9), &[(1, 2), (1, 9), (1, 3)])), "mnc009.mcc001");
    assert_eq!(asked(&answer_to((1, 5), &[(1, 5), (1, 7), (1, 2), (1, 3)])), "mnc003.mcc001");
    assert_eq!(asked(&answer_to((1, 8), &[(1, 7), (1, 2), (1, 4)])), "mnc002.mcc001");
    assert_eq!(asked(&answer_to((1, 8), &[(1, 5), (1, 7), (1, 6)])), "mnc007.mcc001");
    assert_eq!(stop(&answer_to((1, 8), &[(1, 4), (1, 5)])), (3, 0));
}

#[test]
fn s4_without_networks() {
    let text = format!("{HOME}plmn\t002\t01\t0\nplmn\t001\t03\t5\nplmn\t001\t02\t4\nplmn\t001\t04\t0\nbar\t001\t04\n");
    assert_eq!(asked(&ok(&mut in_phase("country"), 0, country(&[], &text))), "mnc002.mcc001");
    let node = format!("{HOME}node\tname\tgw\nplmn\t001\t04\t0\nbar\t001\t04\n");
    assert_eq!(name(&ok(&mut in_phase("country"), 0, country(&[], &node)), 1), "gw");
    let address = format!("{HOME}node\tv4\tc0000207\n");
    assert_eq!(ok(&mut in_phase("country"), 0, country(&[], &address)).numbers[0], 4);
    let other_version = format!("{HOME}node\tv6\t{}\n", "0".repeat(32));
    assert_eq!(stop(&ok(&mut in_phase("country"), 0, country(&[], &other_version))), (4, 1));
}

#[test]
fn closing_leaves_nothing_behind() {
    let mut table = in_phase("auth");
    ok(&mut table, 50, congestion(0xE0));
    table.call(&Call::Close { tenant: 0, line: 0 });
    assert_eq!(table, Table::default());
    table.call(&Call::Open { tenant: 0, line: 0 });
    assert_eq!(table, opened());
}

#[test]
fn each_line_has_its_own_clock() {
    let mut table = opened();
    table.call(&Call::Open { tenant: 0, line: 1 });
    ok(&mut table, 500, start(1, 0, HOME));
    assert_eq!(table.call(&Call::Timed { tenant: 0, line: 1, time: 3, event: start(1, 0, HOME) }).refusal, 0);
    assert_eq!(refusal(&table, 499, Event::GiveUp), 7);
    assert_eq!(refusal(&table, 500, Event::GiveUp), 0);
}

#[test]
fn what_the_events_answer() {
    let numbers = |phase, event| ok(&mut in_phase(phase), 0, event).numbers;
    let action = |action| [action, 0, 0, 0, 0, 0, 0, 0, 0, 0, 0, 0];
    let ended = |action, error| [action, 0, 0, 0, 0, 0, 0, 0, 0, 1, error, 0];
    assert_eq!(numbers("chosen", Event::Begin), action(5));
    assert_eq!(numbers("init", Event::Init), action(6));
    assert_eq!(numbers("eap", success(7)), action(10));
    assert_eq!(numbers("sure", Event::Final { good: 1 }), action(11));
    assert_eq!(numbers("sure", Event::Final { good: 0 }), action(12));
    assert_eq!(numbers("auth", Event::Error { number: 16_383 }), [13, 0, 0, 0, 0, 0, 0, 0, 0, 0, 16_383, 0]);
    assert_eq!(numbers("owed", Event::Error { number: 1 }), ended(13, 1));
    assert_eq!(numbers("eap", congestion(0)), ended(12, 0));
    assert_eq!(numbers("sure", congestion(0)), action(12));
    assert_eq!(numbers("live", Event::ChildMade { spi: 256, session: 1 }), action(0));
}
