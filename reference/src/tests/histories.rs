//! Long random histories: nothing panics, the table stays sound, and a refused call changes nothing.

use super::*;
use std::collections::BTreeSet;

/// A small generator of random numbers (xorshift).
struct Dice(u64);

impl Dice {
    fn next(&mut self) -> u64 {
        self.0 ^= self.0 << 13;
        self.0 ^= self.0 >> 7;
        self.0 ^= self.0 << 17;
        self.0 >> 8
    }

    fn below(&mut self, bound: u64) -> u64 {
        self.next() % bound
    }

    fn of<T: Clone>(&mut self, choices: &[T]) -> T {
        choices[self.below(choices.len() as u64) as usize].clone()
    }

    /// One time in twenty any number, else one below the bound.
    fn about(&mut self, bound: u64) -> u64 {
        if self.below(20) == 0 {
            self.next() << self.below(9)
        } else {
            self.below(bound)
        }
    }

    fn octets(&mut self, longest: u64) -> Vec<u8> {
        (0..self.below(longest + 1)).map(|_| self.next() as u8).collect()
    }

    fn room(&mut self, least: usize) -> usize {
        if self.below(20) == 0 {
            self.below(4000) as usize
        } else {
            least
        }
    }

    fn text(&mut self) -> Vec<u8> {
        let rests = ["", "node\tname\tgw\n", "node\tv4\tc0000201\n", "plmn\t001\t01\t3\nbar\t001\t02\n", "node\tv6\t1\n"];
        let mut text = format!("{}{}", self.of(&[HOME, "home\t001\t01\n"]), self.of(&rests)).into_bytes();
        if self.below(10) == 0 {
            let place = self.below(text.len() as u64) as usize;
            text[place] = self.next() as u8;
        }
        text
    }

    fn packet(&mut self) -> Vec<u8> {
        let identifier = self.below(2) as u8;
        let mut packet = match self.below(3) {
            0 => start_packet(identifier),
            1 => nas_packet(identifier, &self.octets(5)),
            _ => vec![3, identifier, 0, 4],
        };
        if self.below(10) == 0 {
            let place = self.below(packet.len() as u64) as usize;
            packet[place] = self.next() as u8;
        }
        packet
    }

    fn start(&mut self) -> Event {
        let place = self.about(3);
        let registered = self.about(2);
        Event::Start {
            place,
            mcc: if place == 2 { self.about(3) } else { 0 },
            registered,
            registered_mcc: if registered == 1 { self.about(3) } else { 0 },
            registered_mnc: if registered == 1 { self.about(3) } else { 0 },
            version: self.of(&[4, 4, 4, 4, 6, 6, 6, 5]),
            text: self.text(),
            room: self.room(64),
        }
    }

    fn answer_of_dns(&mut self) -> Event {
        if self.below(2) == 0 {
            let networks = (0..self.below(4)).flat_map(|_| [0, self.below(3) as u8, 0, self.below(3) as u8]).collect();
            return Event::Country { replied: self.about(2), networks, text: self.text(), room: self.room(64) };
        }
        let entries: Vec<Vec<u8>> = (0..self.below(5))
            .map(|_| match self.below(3) {
                0 => v6([self.below(3) as u8; 16]),
                _ => v4([192, 0, 2, self.below(12) as u8]),
            })
            .collect();
        addresses(&entries)
    }

    fn event(&mut self) -> Event {
        match self.below(16) {
            0 | 1 => self.start(),
            2..=4 => self.answer_of_dns(),
            5 => Event::Begin,
            6 => Event::Init,
            7 | 8 => eap(self.packet()),
            9 => Event::Reply { parameters: self.of(&[vec![], PARAMETERS.to_vec(), vec![1]]), nas: self.octets(3), room: self.room(3090) },
            10 => Event::Final { good: self.about(2) },
            11 => self.of(&[Event::Error { number: 9 }, Event::Error { number: 0 }, Event::GiveUp, Event::IkeDelete, Event::Init]),
            12 => Event::Congestion { authenticated: self.about(2), timer: self.about(256) },
            13 | 14 => Event::ChildMade { spi: self.about(12).saturating_add(256), session: self.about(17) },
            _ => Event::ChildDeleted { spi: self.about(268) },
        }
    }

    fn call(&mut self, clock: u64) -> Call {
        let (tenant, line) = (self.of(&[0, 1, 16]).min(self.about(17)), self.about(2));
        match self.below(200) {
            0..=7 => Call::Open { tenant, line },
            8 => Call::Close { tenant, line },
            9..=14 => Call::List { tenant, room: self.room(1024) },
            _ => Call::Timed { tenant, line, time: (clock + self.below(3)).saturating_sub(self.below(3)), event: self.event() },
        }
    }
}

fn assert_sound(table: &Table) {
    for ((tenant, number), line) in table.lines() {
        assert!(tenant <= 15 && number <= 3 && line.time <= 4_294_967_295);
        let held: Vec<Address> = line.holds.iter().map(|hold| hold.address).collect();
        assert!(held.len() <= if line.phase == Phase::Idle { 8 } else { 7 });
        assert!(line.holds.iter().all(|hold| hold.until.is_none_or(|until| until > line.time)));
        assert!((1..held.len()).all(|place| !held[..place].contains(&held[place])));
        match &line.phase {
            Phase::Country(facts) => assert!(matches!(facts.place, Place::Abroad { .. })),
            Phase::Name(facts) => assert!(facts.place != Place::Unknown),
            Phase::Chosen(address) | Phase::Init(address) | Phase::Auth(address) => assert!(!held.contains(address)),
            Phase::Eap(address, _) | Phase::Sure(address) => assert!(!held.contains(address)),
            Phase::Live(address, children) => {
                assert!(!held.contains(address) && children.len() <= 8);
                assert!((1..children.len()).all(|place| children[..place].iter().all(|child| child.spi != children[place].spi)));
            }
            Phase::Idle => (),
        }
    }
}

#[test]
fn random_histories_stay_sound() {
    let mut refusals = BTreeSet::new();
    let mut words = BTreeSet::new();
    for seed in 1..=40 {
        let mut dice = Dice(0x9E37_79B9_7F4A_7C15_u64.wrapping_mul(seed));
        let mut table = Table::default();
        for step in 0..5_000 {
            let call = dice.call(10 + step / 50);
            let before = table.clone();
            let answer = table.call(&call);
            refusals.insert(answer.refusal);
            words.extend(listed(&mut table, 0).lines().filter_map(|record| record.split('\t').nth(2).map(str::to_string)));
            if answer.refusal != 0 {
                assert_eq!(table, before);
                assert_eq!((answer.numbers, answer.part), ([0; 12], vec![]));
                assert!(answer.buffer.iter().all(|octet| *octet == 0));
            } else {
                assert!(answer.buffer.iter().skip(answer.numbers[11] as usize).all(|octet| *octet == 0));
                assert_eq!(answer.numbers[5], answer.part.len() as u64);
            }
            assert_eq!(answer.buffer.len(), call.room().0);
            assert_sound(&table);
        }
    }
    assert!([0, 2, 3, 4, 5, 7, 8, 9, 10, 11].iter().all(|refusal| refusals.contains(refusal)), "{refusals:?}");
    assert!(PHASES.iter().all(|phase| *phase == "owed" || words.contains(*phase)), "{words:?}");
}

#[test]
fn random_packets_never_panic_and_read_back() {
    let mut dice = Dice(77);
    for _ in 0..100_000 {
        let packet = if dice.below(2) == 0 { dice.packet() } else { dice.octets(40) };
        packet_call(&PacketCall::ReadRequest { packet: packet.clone() });
        packet_call(&PacketCall::Parameter { parameters: packet.clone(), at: dice.about(40) });
        let mut response = packet;
        if let Some(code) = response.first_mut() {
            *code = 2;
        }
        let read = packet_call(&PacketCall::ReadResponse { packet: response.clone() });
        if read.refusal == 0 {
            let [_, identifier, at, length, nas_at, nas_length] = read.fields.map(|field| field as usize);
            let (parameters, nas) = (response[at..][..length].to_vec(), response[nas_at..][..nas_length].to_vec());
            let written = packet_call(&PacketCall::WriteResponse { identifier: identifier as u64, parameters, nas, room: 3090 });
            assert_eq!(written.fields, read.fields);
        }
    }
}
