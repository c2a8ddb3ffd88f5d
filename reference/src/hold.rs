//! The timer octet and the holds.

use crate::config::Address;

/// Seconds of the timer units 0 to 6; unit 7 has none, it means deactivated.
const UNITS: [u64; 7] = [600, 3600, 36_000, 2, 30, 60, 1_152_000];

/// What a timer octet says.
#[derive(Clone, Copy, Debug, PartialEq, Eq)]
pub(crate) enum Timer {
    NoHold,
    Seconds(u64),
    Deactivated,
}

impl Timer {
    /// The top three bits are the unit, the low five the count; a count of 0 sets no hold unless the timer is deactivated.
    pub(crate) fn read(octet: u8) -> Timer {
        let count = u64::from(octet & 0x1F);
        match UNITS.get(usize::from(octet >> 5)) {
            None => Timer::Deactivated,
            Some(_) if count == 0 => Timer::NoHold,
            Some(seconds) => Timer::Seconds(count * seconds),
        }
    }
}

/// A hold on an address, with the moment at which it ends or without end.
#[derive(Clone, Copy, Debug, PartialEq, Eq)]
pub struct Hold {
    pub address: Address,
    pub until: Option<u64>,
}

impl Hold {
    /// The hold that a timer sets on an address at this time (at most 4,294,967,295), if it sets one.
    pub(crate) fn set(address: Address, time: u64, timer: Timer) -> Option<Hold> {
        match timer {
            Timer::NoHold => None,
            Timer::Seconds(seconds) => Some(Hold { address, until: Some(time + seconds) }),
            Timer::Deactivated => Some(Hold { address, until: None }),
        }
    }

    /// A hold is in force before its end; at the moment of its end the address is free.
    pub(crate) fn is_in_force_at(&self, time: u64) -> bool {
        self.until.is_none_or(|until| time < until)
    }
}
