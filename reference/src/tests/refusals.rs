//! Both sides of every refusal.

use super::*;

#[test]
fn pairs_and_rooms() {
    let mut table = opened();
    for (tenant, line) in [(16, 0), (0, 4), (u64::MAX, u64::MAX)] {
        assert_eq!(table.call(&Call::Open { tenant, line }).refusal, 2);
        assert_eq!(table.call(&Call::Close { tenant, line }).refusal, 2);
        assert_eq!(table.call(&Call::Timed { tenant, line, time: 0, event: reply(&[], &[]) }).refusal, 2);
    }
    assert_eq!(table.call(&Call::List { tenant: 16, room: 0 }).refusal, 2);
    let answer = table.call(&Call::List { tenant: 0, room: 1023 });
    assert_eq!((answer.refusal, answer.buffer), (3, vec![0; 1023]));
    assert_eq!(table.call(&Call::Close { tenant: 15, line: 3 }).refusal, 5);
    assert_eq!(table.call(&Call::Timed { tenant: 15, line: 3, time: 0, event: reply(&[], &[]) }).refusal, 5);
    assert_eq!(table.call(&Call::Open { tenant: 15, line: 3 }).refusal, 0);
    assert_eq!(table.call(&Call::Open { tenant: 15, line: 3 }).refusal, 4);
    let short_name =
        Event::Start { place: 9, mcc: 9, registered: 9, registered_mcc: 9, registered_mnc: 9, version: 9, text: vec![], room: 63 };
    assert_eq!(refusal(&table, 0, short_name.clone()), 3);
    assert_eq!(table.call(&Call::Timed { tenant: 1, line: 0, time: 0, event: short_name }).refusal, 3);
    assert_eq!(refusal(&table, 0, Event::Country { replied: 9, networks: vec![], text: vec![], room: 63 }), 3);
    assert_eq!(refusal(&table, 0, Event::Reply { parameters: vec![], nas: vec![], room: 3089 }), 3);
}

#[test]
fn times() {
    let table = in_phase("chosen");
    assert_eq!(refusal(&table, 4_294_967_295, Event::Begin), 0);
    assert_eq!(refusal(&table, 4_294_967_296, Event::Begin), 8);
    assert_eq!(refusal(&table, u64::MAX, Event::Init), 8);
    let mut late = table.clone();
    ok(&mut late, 4_294_967_295, Event::Begin);
    assert_eq!(refusal(&late, 4_294_967_294, Event::Error { number: 0 }), 7);
    ok(&mut late, 4_294_967_295, Event::Init);
    ok(&mut late, 4_294_967_295, congestion(0xDF));
    assert_eq!(line(&late).holds[0].until, Some(4_294_967_295 + 35_712_000));
}

fn start_of(numbers: [u64; 6]) -> Event {
    let [place, mcc, registered, registered_mcc, registered_mnc, version] = numbers;
    Event::Start { place, mcc, registered, registered_mcc, registered_mnc, version, text: HOME.into(), room: 64 }
}

#[test]
fn numbers_of_start() {
    let good = [[0, 0, 0, 0, 0, 4], [1, 0, 1, 999, 999, 6], [2, 998, 1, 0, 0, 4], [2, 0, 0, 0, 0, 6], [0, 0, 1, 999, 70, 6]];
    for numbers in good {
        assert_eq!(refusal(&opened(), 0, start_of(numbers)), 0, "{numbers:?}");
    }
    let bad = [
        [3, 0, 0, 0, 0, 4],
        [0, 1, 0, 0, 0, 4],
        [1, 1, 0, 0, 0, 4],
        [2, 1000, 0, 0, 0, 4],
        [2, 999, 0, 0, 0, 4],
        [1, 0, 2, 0, 0, 4],
        [1, 0, 0, 1, 0, 4],
        [1, 0, 0, 0, 1, 4],
        [1, 0, 1, 1000, 0, 4],
        [1, 0, 1, 0, 1000, 4],
        [1, 0, 0, 0, 0, 5],
        [u64::MAX, 0, 0, 0, 0, 4],
    ];
    for numbers in bad {
        assert_eq!(refusal(&opened(), 0, start_of(numbers)), 8, "{numbers:?}");
    }
}

fn text_refusal(text: &str) -> u64 {
    refusal(&opened(), 0, start(1, 0, text))
}

#[test]
fn texts_well_formed() {
    let plmns: String = (0..16).map(|mnc| format!("plmn\t001\t{mnc:02}\t{}\n", mnc * 17)).collect();
    let bars: String = (0..16).map(|mnc| format!("bar\t001\t{mnc:03}\n")).collect();
    let long_name = format!("node\tname\t{}\n", "aZ0-.".repeat(51).split_at(253).0);
    assert_eq!(text_refusal(&format!("{HOME}{plmns}{bars}")), 0);
    assert_eq!(text_refusal(&format!("{HOME}{long_name}{plmns}{bars}")), 0);
    for rest in ["", "node\tname\tx\n", "bar\t999\t70\n", "plmn\t999\t70\t255\n", "plmn\t000\t00\t0\nbar\t000\t000\n"] {
        assert_eq!(text_refusal(&format!("{HOME}{rest}")), 0, "{rest}");
    }
}

#[test]
fn texts_ill_formed() {
    let seventeen: String = (0..17).map(|mnc| format!("bar\t001\t{mnc:03}\n")).collect();
    let seventeen_plmns: String = (0..17).map(|mnc| format!("plmn\t001\t{mnc:03}\t0\n")).collect();
    let long_name = format!("node\tname\t{}\n", "a".repeat(254));
    let wrong_rests = [
        "\n",
        "home\t999\t70\n",
        "home\t999\t71\n",
        "node\tname\t\n",
        "node\tname\n",
        "node\tname\ta_b\n",
        "node\tname\ta b\n",
        "node\tname\ta\tb\n",
        "node\tname\té\n",
        "node\tv4\tC0000207\n",
        "node\tv4\tc000020\n",
        "node\tv4\t+c000207\n",
        "node\tv4\tc00002070\n",
        "node\tv6\tc0000207\n",
        "node\tv5\tc0000207\n",
        "node\tname\ta\nnode\tname\ta\n",
        "node\tv4\tc0000207\nnode\tname\tb\n",
        "plmn\t001\t01\t0\nnode\tname\ta\n",
        "bar\t001\t01\nnode\tname\ta\n",
        "bar\t001\t01\nplmn\t001\t01\t0\n",
        "plmn\t001\t01\t256\n",
        "plmn\t001\t01\t00\n",
        "plmn\t001\t01\t01\n",
        "plmn\t001\t01\t+1\n",
        "plmn\t001\t01\t-1\n",
        "plmn\t001\t01\t\n",
        "plmn\t001\t01\t99999999999999999999999\n",
        "plmn\t001\t01\n",
        "plmn\t001\t01\t1\t\n",
        "plmn\t01\t01\t1\n",
        "plmn\t0001\t01\t1\n",
        "plmn\t001\t1\t1\n",
        "plmn\t001\t0001\t1\n",
        "plmn\t00a\t01\t1\n",
        "plmn\t001\t01\t1\nplmn\t001\t001\t2\n",
        "bar\t001\t01\nbar\t001\t001\n",
        "bar\t001\t01\r\n",
        "bar\t001\t01",
        "bar\t001\t01\n\n",
        "bar\t001 01\n",
        "bar\t\t001\t01\n",
        " bar\t001\t01\n",
        "BAR\t001\t01\n",
        "other\t1\n",
        &seventeen,
        &seventeen_plmns,
        &long_name,
    ];
    for rest in wrong_rests {
        assert_eq!(text_refusal(&format!("{HOME}{rest}")), 9, "{rest}");
    }
    for text in ["", "\n", "home\t999\t70", "home\t999\n", "home\t999\t7\n", "home\t999\t70\t\n", "home\t99\t70\n", "bar\t001\t01\n"] {
        assert_eq!(text_refusal(text), 9, "{text}");
    }
    let not_utf8 = Event::Country { replied: 1, networks: vec![], text: b"home\t999\t70\nnode\tname\t\xFF\n".to_vec(), room: 64 };
    assert_eq!(refusal(&in_phase("country"), 0, not_utf8), 9);
}

#[test]
fn the_length_of_a_text() {
    let of_length = |length: usize| "x".repeat(length);
    assert_eq!(text_refusal(&of_length(1024)), 9);
    assert_eq!(text_refusal(&of_length(1025)), 8);
}

#[test]
fn lists() {
    let networks =
        |replied, networks: Vec<u8>| refusal(&in_phase("country"), 0, Event::Country { replied, networks, text: HOME.into(), room: 64 });
    assert_eq!(networks(1, [0, 1, 0, 1].repeat(16)), 0);
    assert_eq!(networks(1, [0, 1, 0, 1].repeat(17)), 8);
    assert_eq!(networks(1, vec![0, 1, 0]), 8);
    assert_eq!(networks(1, vec![3, 231, 3, 231]), 0);
    assert_eq!(networks(1, vec![3, 232, 0, 1]), 8);
    assert_eq!(networks(1, vec![0, 1, 3, 232]), 8);
    assert_eq!(networks(0, vec![]), 0);
    assert_eq!(networks(0, vec![0, 1, 0, 1]), 8);
    assert_eq!(networks(2, vec![]), 8);
    let addresses = |addresses: Vec<u8>| refusal(&in_phase("name"), 0, Event::Address { addresses });
    assert_eq!(addresses(v4([1, 2, 3, 4]).repeat(16)), 0);
    assert_eq!(addresses(v4([1, 2, 3, 4]).repeat(17)), 8);
    assert_eq!(addresses(v6([9; 16])), 0);
    assert_eq!(addresses(v6([9; 16])[..16].to_vec()), 8);
    assert_eq!(addresses([4].into_iter().chain([1; 16]).collect()), 8);
    assert_eq!(addresses([5].into_iter().chain([0; 16]).collect()), 8);
}

#[test]
fn numbers_of_the_other_events() {
    let table = in_phase("sure");
    assert_eq!(refusal(&table, 0, Event::Final { good: 2 }), 8);
    assert_eq!(refusal(&opened(), 0, Event::Final { good: 2 }), 8);
    for (number, expected) in [(0, 8), (1, 0), (16_383, 0), (16_384, 8), (u64::MAX, 8)] {
        assert_eq!(refusal(&table, 0, Event::Error { number }), expected);
    }
    for (authenticated, timer, expected) in [(2, 0, 8), (1, 256, 8), (0, 256, 8), (1, 255, 0), (0, 255, 10)] {
        assert_eq!(refusal(&table, 0, Event::Congestion { authenticated, timer }), expected);
    }
    let live = in_phase("live");
    for (spi, session, expected) in
        [(255, 1, 8), (256, 0, 8), (256, 1, 0), (4_294_967_295, 15, 0), (4_294_967_296, 15, 8), (256, 16, 8), (u64::MAX, 1, 8)]
    {
        assert_eq!(refusal(&live, 0, Event::ChildMade { spi, session }), expected);
    }
}

/// Every event that has nothing wrong with it is accepted in its phases and 10 in all others.
#[test]
fn phases() {
    let made = Event::ChildMade { spi: 256, session: 1 };
    let authenticating = &["auth", "owed", "eap", "sure"][..];
    let given_up = &["country", "name", "chosen", "init", "auth", "owed", "eap", "sure"][..];
    let cases: [(Event, &[&str]); 18] = [
        (start(1, 0, HOME), &["idle"]),
        (country(&[], HOME), &["country"]),
        (no_country(HOME), &["country"]),
        (addresses(&[]), &["name"]),
        (Event::Begin, &["chosen"]),
        (Event::Init, &["init"]),
        (eap(start_packet(0)), &["auth"]),
        (eap(nas_packet(9, &[1])), &["eap"]),
        (success(7), &["eap"]),
        (success(8), &[]),
        (reply(&PARAMETERS, &[1]), &["owed"]),
        (Event::Final { good: 0 }, &["sure"]),
        (Event::Final { good: 1 }, &["sure"]),
        (Event::Error { number: 1 }, authenticating),
        (congestion(0x61), authenticating),
        (Event::GiveUp, given_up),
        (made, &["live"]),
        (Event::IkeDelete, &["live"]),
    ];
    for phase in PHASES {
        let table = in_phase(phase);
        for (event, allowed) in &cases {
            let expected = if allowed.contains(&phase) { 0 } else { 10 };
            assert_eq!(refusal(&table, 0, event.clone()), expected, "{phase} {event:?}");
        }
        assert_eq!(refusal(&table, 0, Event::ChildDeleted { spi: 256 }), 10);
        assert_eq!(refusal(&table, 0, Event::Congestion { authenticated: 0, timer: 0 }), 10);
    }
}

fn read_request(packet: Vec<u8>) -> (u64, [u64; 6]) {
    let answer = packet_call(&PacketCall::ReadRequest { packet });
    (answer.refusal, answer.fields)
}

#[test]
fn requests() {
    let longest = nas_packet(3, &[5; 2048]);
    assert_eq!(read_request(longest), (0, [2, 3, 0, 0, 16, 2048]));
    assert_eq!(read_request(nas_packet(3, &[5; 2049])), (9, [0; 6]));
    assert_eq!(read_request(nas_packet(3, &[])), (9, [0; 6]));
    assert_eq!(read_request(vec![3, 9, 0, 4]), (0, [3, 9, 0, 0, 0, 0]));
    for packet in [vec![], vec![3], vec![3, 9, 0, 4, 0], vec![3, 9, 0, 5], vec![3, 9, 0, 5, 0], vec![4, 9, 0, 4], vec![1, 9, 0, 4]] {
        assert_eq!(read_request(packet), (9, [0; 6]));
    }
    for place in 0..start_packet(7).len() {
        let mut packet = start_packet(7);
        packet[place] ^= 0x80;
        let expected = if place == 1 || place == 13 { 0 } else { 9 };
        assert_eq!(read_request(packet).0, expected, "octet {place}");
    }
    let mut stop = start_packet(7);
    stop[12] = 4;
    assert_eq!(read_request(stop).0, 9);
    let mut extended = start_packet(7);
    extended.extend([1, 2]);
    assert_eq!(read_request(extended.clone()).0, 9);
    extended[3] = 16;
    assert_eq!(read_request(extended), (0, [1, 7, 0, 0, 0, 0]));
    let mut extended = nas_packet(7, &[1, 2, 3]);
    extended.push(0);
    extended[3] += 1;
    assert_eq!(read_request(extended), (0, [2, 7, 0, 0, 16, 3]));
    let mut cut = nas_packet(7, &[1, 2, 3]);
    cut[15] = 4;
    assert_eq!(read_request(cut).0, 9);
    let mut too_long = start_packet(7);
    too_long.resize(65_536 + 14, 0);
    assert_eq!(read_request(too_long).0, 9);
}

fn write(identifier: u64, parameters: &[u8], nas: &[u8], room: usize) -> PacketAnswer {
    packet_call(&PacketCall::WriteResponse { identifier, parameters: parameters.into(), nas: nas.into(), room })
}

fn read_response(packet: &[u8]) -> (u64, [u64; 6]) {
    let answer = packet_call(&PacketCall::ReadResponse { packet: packet.into() });
    (answer.refusal, answer.fields)
}

#[test]
fn responses_written_and_read_back() {
    let long: Vec<u8> = [&[7, 255][..], &[1; 255], &[8, 255], &[2; 255], &[9, 255], &[3; 255], &[1, 251], &[4; 251]].concat();
    assert_eq!(long.len(), 1024);
    for (parameters, nas) in [(&[][..], &[1][..]), (&PARAMETERS, &[1, 2, 3]), (&[5, 0], &[9; 300]), (&long, &[6; 2048])] {
        let answer = write(200, parameters, nas, 3090);
        let starts = (16, 18 + parameters.len() as u64);
        assert_eq!(answer.fields, [2, 200, starts.0, parameters.len() as u64, starts.1, nas.len() as u64]);
        let length = (answer.fields[4] + answer.fields[5]) as usize;
        let (packet, rest) = answer.buffer.split_at(length);
        assert!(rest.iter().all(|octet| *octet == 0));
        assert_eq!(read_response(packet), (0, answer.fields));
        assert_eq!((&packet[16..][..parameters.len()], &packet[starts.1 as usize..]), (parameters, nas));
    }
}

#[test]
fn responses_refused() {
    for (identifier, parameters, nas, room, expected) in [
        (256, &[1][..], &[][..], 3089, 3),
        (256, &[1], &[1], 3090, 8),
        (255, &[1], &[1], 3090, 9),
        (0, &[1, 2, 3], &[1], 3090, 9),
        (0, &[], &[], 3090, 8),
        (0, &[], &[0; 2049], 3090, 8),
        (0, &[0; 1025], &[1], 3090, 8),
        (0, &[0; 1024], &[1], 3090, 0),
        (255, &[], &[0; 2048], 4000, 0),
    ] {
        let answer = write(identifier, parameters, nas, room);
        assert_eq!((answer.refusal, answer.buffer.len()), (expected, room));
        assert!(expected == 0 || (answer.fields == [0; 6] && answer.buffer.iter().all(|octet| *octet == 0)));
    }
    let packet = write(7, &PARAMETERS, &[1, 2], 3090).buffer[..23].to_vec();
    assert_eq!(read_response(&packet).0, 0);
    for (place, octet) in [(0, 1), (3, 22), (12, 1), (12, 4), (15, 2), (15, 4), (17, 0), (17, 2), (20, 0), (20, 3)] {
        let mut packet = packet.clone();
        packet[place] = octet;
        assert_eq!(read_response(&packet).0, 9, "octet {place}");
    }
    for length in 0..23 {
        let mut packet = packet[..length].to_vec();
        if let Some(octet) = packet.get_mut(3) {
            *octet = length as u8;
        }
        assert_eq!(read_response(&packet).0, 9);
    }
    let mut extended = packet.clone();
    extended.push(0xEE);
    extended[3] = 24;
    extended[13] = 0xFF;
    assert_eq!(read_response(&extended), (0, [2, 7, 16, 3, 21, 2]));
    let long: Vec<u8> = [&[2, 7, 4, 21, 254, 0, 0x28, 0xAF, 0, 0, 0, 3, 2, 0, 4, 2][..], &[0; 1026], &[0, 1, 1]].concat();
    assert_eq!(read_response(&long).0, 9);
}

#[test]
fn the_walk_over_parameters() {
    let step = |parameters: &[u8], at| {
        let answer = packet_call(&PacketCall::Parameter { parameters: parameters.into(), at });
        (answer.refusal, answer.fields)
    };
    let block = [1, 2, 0xA, 0xB, 9, 0, 5];
    assert_eq!(step(&block, 0), (0, [1, 1, 2, 2, 4, 0]));
    assert_eq!(step(&block, 4), (0, [1, 9, 6, 0, 6, 0]));
    assert_eq!(step(&block, 6), (9, [0; 6]));
    assert_eq!(step(&block, 7), (0, [0; 6]));
    assert_eq!(step(&block, 8), (8, [0; 6]));
    assert_eq!(step(&block, u64::MAX), (8, [0; 6]));
    assert_eq!(step(&block, 2), (9, [0; 6]));
    assert_eq!(step(&[], 0), (0, [0; 6]));
    assert_eq!(step(&[0; 1024], 1024), (0, [0; 6]));
    assert_eq!(step(&[0; 1025], 0), (8, [0; 6]));
    assert_eq!(packet_call(&PacketCall::Timer { octet: 256 }).refusal, 8);
}
