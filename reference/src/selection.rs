//! Choosing a gateway, S1 to S5.

use crate::answer::{Accepted, Action, Holder};
use crate::config::{Address, Config, Node, Plmn};
use crate::hold::Hold;

/// Where the handset is.
#[derive(Clone, Copy, Debug, PartialEq, Eq)]
pub enum Place {
    Unknown,
    Home,
    Abroad { mcc: u64 },
}

/// The place facts as start gave them, kept while DNS runs.
#[derive(Clone, Copy, Debug, PartialEq, Eq)]
pub struct Facts {
    pub place: Place,
    pub registered: Option<Plmn>,
    pub version: u64,
}

impl Facts {
    /// The numbers of start are each in their range, and 0 where the call does not have them.
    pub(crate) fn of_numbers(place: u64, mcc: u64, registered: u64, registered_plmn: (u64, u64), version: u64) -> Option<Facts> {
        let place = match (place, mcc) {
            (0, 0) => Place::Unknown,
            (1, 0) => Place::Home,
            (2, 0..=999) => Place::Abroad { mcc },
            _ => return None,
        };
        let registered = match (registered, registered_plmn) {
            (0, (0, 0)) => None,
            (1, (mcc, mnc)) => Some(Plmn::of_numbers(mcc, mnc)?),
            _ => return None,
        };
        matches!(version, 4 | 6).then_some(Facts { place, registered, version })
    }

    /// Only a line abroad has a visited MCC.
    pub(crate) fn visited(&self) -> Option<u64> {
        let Place::Abroad { mcc } = self.place else { return None };
        Some(mcc)
    }

    /// The registered PLMN counts as none where it is the home PLMN of the text at hand.
    fn registered_away_from(&self, home: Plmn) -> Option<Plmn> {
        self.registered.filter(|plmn| *plmn != home)
    }
}

/// Start: S1 stops without a place, S2 serves home, S3 asks a registered and unbarred PLMN with a `plmn` record, S4 the country. That
/// record makes the text of S3 provisioned.
pub(crate) fn at_start(facts: &Facts, config: &Config, holds: &[Hold]) -> Accepted {
    match facts.place {
        Place::Unknown => stop(1),
        Place::Home => at_home(facts, config, holds),
        Place::Abroad { mcc } => {
            let registered = facts.registered_away_from(config.home);
            let country_name = || format!("n3iwf.5gc.mcc{mcc:03}.visited-country.pub.3gppnetwork.org");
            let known = config.best(|plmn| registered == Some(plmn));
            known.map_or_else(|| ask_built(Action::AskCountry, country_name()), ask_operator)
        }
    }
}

/// S2: the configured node is used if there is one, else the home operator is asked, and no `bar` record counts against it.
fn at_home(facts: &Facts, config: &Config, holds: &[Hold]) -> Accepted {
    match &config.node {
        Some(Node::Address(address)) => at_addresses(&[*address], facts.version, holds),
        Some(Node::Name { start, name }) => {
            Accepted { part_is_in: Holder::Text, part_start: *start, part: name.clone().into(), ..Action::AskGateway.into() }
        }
        None => ask_operator(config.home),
    }
}

/// S4, the country answer: no reply stops; a reply without networks leads to the best `plmn` record of the country, else home's way.
pub(crate) fn at_country(networks: Option<&[Plmn]>, facts: &Facts, config: &Config, holds: &[Hold]) -> Accepted {
    match networks {
        None => stop(2),
        Some([]) => {
            let best = config.best(|plmn| facts.visited() == Some(plmn.mcc));
            best.map_or_else(|| at_home(facts, config, holds), ask_operator)
        }
        Some(listed) => among_listed(listed, facts, config).map_or_else(|| stop(3), ask_operator),
    }
}

/// Networks listed: the registered one if unbarred, else the best of the `plmn` records, else the first unbarred one on the list.
fn among_listed(listed: &[Plmn], facts: &Facts, config: &Config) -> Option<Plmn> {
    let registered = facts.registered_away_from(config.home).filter(|plmn| listed.contains(plmn) && !config.bars(*plmn));
    let best = config.best(|plmn| listed.contains(&plmn));
    let first = listed.iter().copied().find(|plmn| !config.bars(*plmn));
    registered.or(best).or(first)
}

/// S5: the first address of the local version that is not held is chosen; all before it, or without one all, were passed over.
pub(crate) fn at_addresses(addresses: &[Address], version: u64, holds: &[Hold]) -> Accepted {
    let held = |address: &Address| holds.iter().any(|hold| hold.address == *address);
    let permitted = |address: &Address| address.numbers().0 == version && !held(address);
    let passed = addresses.iter().take_while(|address| !permitted(address)).count();
    match addresses.get(passed) {
        Some(address) => Accepted { passed, address: Some(*address), ..Action::UseAddress.into() },
        None => Accepted { passed, ..stop(4) },
    }
}

/// A stop passes over no address unless a list was gone through.
fn stop(stop: u64) -> Accepted {
    Accepted { stop, ..Action::Stop.into() }
}

/// An operator name writes MNC and MCC with three digits each.
fn ask_operator(plmn: Plmn) -> Accepted {
    ask_built(Action::AskGateway, format!("n3iwf.5gc.mnc{:03}.mcc{:03}.pub.3gppnetwork.org", plmn.mnc, plmn.mcc))
}

/// A built name stands at the front of the name buffer, and the part is that name.
fn ask_built(action: Action, name: String) -> Accepted {
    Accepted { part_is_in: Holder::NameBuffer, part: name.clone().into(), written: name.into(), ..action.into() }
}
