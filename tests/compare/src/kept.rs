//! The tables that stored requests (corpus/README.md) build and damage, lent to the exported calls.

use crate::history::Run;
use crate::judge::{judged, Base};
use crate::layout::{self, RECORD, TABLE};
use crate::random::Random;
use crate::requests::{no_request, number, octets, requests};

const TABLES: &[u8] = include_bytes!("../corpus/tables.txt");

/// More octets than a table has, so that longer tables are tried too.
const KEPT: usize = 8192;

/// Judges every table; how many there are.
pub fn all(run: &mut Run) -> Result<u64, String> {
    let random = &mut Random::of(run.seed, 6);
    let mut kept = vec![0; KEPT];
    let mut base = Base::of(&kept[..TABLE]);
    let mut judged_tables = 0;
    for (line, fields) in (1..).zip(requests(TABLES)) {
        for table in tables(&fields, &kept).ok_or_else(|| no_request("tables.txt", line))? {
            judged(&base, &table, 1, random, run)?;
            judged_tables += 1;
        }
        if let Some(changed) = changed(&fields, &kept) {
            kept = changed;
            base = Base::of(&kept[..TABLE]);
        }
    }
    Ok(judged_tables)
}

/// The octets after a request that changes them.
fn changed(fields: &[&[u8]], kept: &[u8]) -> Option<Vec<u8>> {
    match *fields {
        [b"clear"] => Some(vec![0; KEPT]),
        [b"put", place, new] => put(kept, number(place)? as usize, &octets(new)?),
        [b"erase", record] => put(kept, RECORD * number(record)? as usize, &[0; RECORD]),
        [b"store", source, target, pair] => {
            let record = kept[..TABLE].chunks(RECORD).nth(number(source)? as usize)?;
            layout::line_of(record)?;
            let stored = [&[u8::try_from(number(pair)?).ok()?], &record[1..]].concat();
            put(&kept[..TABLE], RECORD * number(target)? as usize, &stored).map(|table| [&table, &kept[TABLE..]].concat())
        }
        _ => None,
    }
}

/// The tables that a request is about.
fn tables(fields: &[&[u8]], kept: &[u8]) -> Option<Vec<Vec<u8>>> {
    match *fields {
        [b"try", place, new] => Some(vec![put(kept, number(place)? as usize, &octets(new)?)?[..TABLE].to_vec()]),
        [b"add", place, count, value] => {
            let (place, count, value) = (number(place)? as usize, number(count)? as usize, number(value)? as u8);
            let added = |at: usize| put(kept, at, &[kept.get(at)?.wrapping_add(value)]).map(|octets| octets[..TABLE].to_vec());
            (place..place.checked_add(count)?).map(added).collect()
        }
        [b"length", count] => Some(vec![kept.get(..number(count)? as usize)?.to_vec()]),
        _ => Some(vec![changed(fields, kept)?[..TABLE].to_vec()]),
    }
}

/// Other octets at a place, where they fit.
fn put(kept: &[u8], place: usize, new: &[u8]) -> Option<Vec<u8>> {
    let mut kept = kept.to_vec();
    kept.get_mut(place..place.checked_add(new.len())?)?.copy_from_slice(new);
    Some(kept)
}
