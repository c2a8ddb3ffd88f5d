//! PLMNs, addresses, and the configuration text.

use std::collections::BTreeSet;

/// A PLMN, compared by its two numbers, so an MNC written 01 equals one written 001.
#[derive(Clone, Copy, Debug, PartialEq, Eq, PartialOrd, Ord)]
pub struct Plmn {
    pub mcc: u64,
    pub mnc: u64,
}

impl Plmn {
    /// Both numbers of a PLMN are 0 to 999.
    pub(crate) fn of_numbers(mcc: u64, mnc: u64) -> Option<Plmn> {
        (mcc <= 999 && mnc <= 999).then_some(Plmn { mcc, mnc })
    }

    /// A lent network is four octets, MCC and MNC big-endian.
    pub(crate) fn of_entry(entry: &[u8]) -> Option<Plmn> {
        let [a, b, c, d] = *entry else { return None };
        Plmn::of_numbers(u16::from_be_bytes([a, b]).into(), u16::from_be_bytes([c, d]).into())
    }
}

/// An address: 32 bits in version 4, 128 bits in version 6.
#[derive(Clone, Copy, Debug, PartialEq, Eq)]
pub enum Address {
    V4(u32),
    V6(u128),
}

impl Address {
    /// A lent address is the version and 16 octets, of which version 4 uses four and leaves the other twelve zero.
    pub(crate) fn of_entry(entry: &[u8]) -> Option<Address> {
        match entry {
            [4, a, b, c, d, 0, 0, 0, 0, 0, 0, 0, 0, 0, 0, 0, 0] => Some(Address::V4(u32::from_be_bytes([*a, *b, *c, *d]))),
            [6, octets @ ..] => Some(Address::V6(u128::from_be_bytes(octets.try_into().ok()?))),
            _ => None,
        }
    }

    /// An address is written with 8 or 32 lower-case hex digits.
    pub(crate) fn hex(self) -> String {
        match self {
            Address::V4(bits) => format!("{bits:08x}"),
            Address::V6(bits) => format!("{bits:032x}"),
        }
    }

    /// The version and the address as two halves of 64 bits, version 4 in the low one alone.
    pub(crate) fn numbers(self) -> (u64, u64, u64) {
        match self {
            Address::V4(bits) => (4, 0, u64::from(bits)),
            Address::V6(bits) => (6, (bits >> 64) as u64, bits as u64),
        }
    }
}

/// A lent list is at most 16 entries of one size, each whole and in its range.
pub(crate) fn read_list<T>(octets: &[u8], size: usize, read: impl Fn(&[u8]) -> Option<T>) -> Option<Vec<T>> {
    let entries = octets.chunks(size).map(read).collect::<Option<Vec<T>>>()?;
    (entries.len() <= 16).then_some(entries)
}

/// What the `node` record gives: a name, with the place in the text where it starts, or an address.
pub(crate) enum Node {
    Name { start: usize, name: String },
    Address(Address),
}

/// A configuration text that was read: `preferred` are its `plmn` records with their priorities, `forbidden` its `bar` records.
pub(crate) struct Config {
    pub home: Plmn,
    pub node: Option<Node>,
    pub preferred: Vec<(Plmn, u64)>,
    pub forbidden: Vec<Plmn>,
}

impl Config {
    /// Reads a text: each record ended by a newline, `home` first and once, then at most one `node`, then `plmn`, then `bar` records.
    pub(crate) fn read(text: &[u8]) -> Option<Config> {
        let text = std::str::from_utf8(text).ok()?;
        let mut records = text.strip_suffix('\n')?.split('\n').map(|record| record.split('\t').collect::<Vec<_>>());
        let first = records.next()?;
        let ["home", mcc, mnc] = *first else { return None };
        let mut config = Config { home: read_plmn(mcc, mnc)?, node: None, preferred: Vec::new(), forbidden: Vec::new() };
        let name_start = text.find('\n')? + "\nnode\tname\t".len();
        for record in records {
            match *record {
                ["node", kind, value] if !config.is_provisioned() && config.forbidden.is_empty() => {
                    config.node = Some(read_node(kind, value, name_start)?)
                }
                ["plmn", mcc, mnc, priority] if config.forbidden.is_empty() => {
                    config.preferred.push((read_plmn(mcc, mnc)?, read_priority(priority)?))
                }
                ["bar", mcc, mnc] => config.forbidden.push(read_plmn(mcc, mnc)?),
                _ => return None,
            }
        }
        let preferred: Vec<Plmn> = config.preferred.iter().map(|(plmn, _)| *plmn).collect();
        (sixteen_different(&preferred) && sixteen_different(&config.forbidden)).then_some(config)
    }

    /// Provisioned means that the text has a `node` record or at least one `plmn` record.
    fn is_provisioned(&self) -> bool {
        self.node.is_some() || !self.preferred.is_empty()
    }

    /// A PLMN is barred when a `bar` record names it.
    pub(crate) fn bars(&self, plmn: Plmn) -> bool {
        self.forbidden.contains(&plmn)
    }

    /// Of the `plmn` records, wanted and not barred, the one of best priority, the earlier one on a tie.
    pub(crate) fn best(&self, wanted: impl Fn(Plmn) -> bool) -> Option<Plmn> {
        let candidates = self.preferred.iter().filter(|(plmn, _)| wanted(*plmn) && !self.bars(*plmn));
        candidates.min_by_key(|(_, priority)| *priority).map(|(plmn, _)| *plmn)
    }
}

/// There are at most 16 records of a kind, and no PLMN is in two of them.
fn sixteen_different(plmns: &[Plmn]) -> bool {
    plmns.len() <= 16 && plmns.iter().collect::<BTreeSet<_>>().len() == plmns.len()
}

/// `node` has a name of 1 to 253 letters of either case, digits, hyphens or dots, or an address just as [`Address::hex`] writes it.
fn read_node(kind: &str, value: &str, name_start: usize) -> Option<Node> {
    let may_stand_in_name = |letter: char| letter.is_ascii_alphanumeric() || letter == '-' || letter == '.';
    let address = match kind {
        "name" if (1..=253).contains(&value.len()) && value.chars().all(may_stand_in_name) => {
            return Some(Node::Name { start: name_start, name: value.to_string() })
        }
        "v4" => Address::V4(u32::from_str_radix(value, 16).ok()?),
        "v6" => Address::V6(u128::from_str_radix(value, 16).ok()?),
        _ => return None,
    };
    (address.hex() == value).then_some(Node::Address(address))
}

/// An MCC is written with three digits, an MNC with two or three.
fn read_plmn(mcc: &str, mnc: &str) -> Option<Plmn> {
    let fits = mcc.len() == 3 && (2..=3).contains(&mnc.len());
    fits.then_some(Plmn { mcc: read_digits(mcc)?, mnc: read_digits(mnc)? })
}

/// A priority is 0 to 255 and written without leading zeros.
fn read_priority(field: &str) -> Option<u64> {
    read_digits(field).filter(|priority| *priority <= 255 && priority.to_string() == field)
}

/// A number has decimal digits and nothing else, no sign either.
fn read_digits(field: &str) -> Option<u64> {
    field.parse().ok().filter(|_| field.chars().all(|letter| letter.is_ascii_digit()))
}
