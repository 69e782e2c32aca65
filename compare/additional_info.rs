// Document 02's area of additional information (1/13), which the Rust steps over, written for the
// comparison alone: a walk from the front of the area to its end. Numbers 1 and 5 are 01's.

use crate::made_records::{told, MESSAGE_CODES};
use knx_release::calls::{remainder, u24_at};
use std::ops::RangeInclusive;

/// The Rust answers 58 and 63.
pub const CALLS: [u8; 5] = [59, 60, 61, 62, 64];

const TOO_SMALL: u8 = 1;
const PAYLOAD_TOO_LARGE: u8 = 5;
const NOT_FILLED_EXACTLY: u8 = 14;

/// What a length byte can say of an area.
const LONGEST_AREA: usize = 255;

const RELATIVE_TIMESTAMP: u8 = 4;
const EXTENDED_RELATIVE_TIMESTAMP: u8 = 6;
/// The number of a named type is that of its variant too.
const NAMED_TYPES: RangeInclusive<u8> = 1..=7;

/// A call's number and its values; None where the record is none.
pub fn call(number: u8, args: &[u8], buffer: &mut [u8]) -> Option<(u8, Vec<usize>)> {
    let answer = match number {
        59 => record_at(args, 0).map(|record| values(args, record.as_ref())),
        60 => records(args).map(|records| vec![records.len()]),
        61 => {
            let (n, area) = (u24_at(args, 0)? as usize, &args[3..]);
            records(area).map(|records| values(area, records.get(n)))
        }
        62 => {
            let (&kind, behind) = args.split_first()?;
            let (area, data) = area_and_rest(behind)?;
            append(area, kind, data, buffer).map(|count| vec![count])
        }
        64 => {
            let (&code, behind) = args.split_first()?;
            let code = *MESSAGE_CODES.get(usize::from(code).checked_sub(1)?)?;
            let (area, rest) = area_and_rest(behind)?;
            frame(code, area, rest, buffer).map(|count| vec![count])
        }
        _ => return None,
    };
    Some(told(answer))
}

/// An area behind its length in three bytes, and the bytes behind it.
fn area_and_rest(args: &[u8]) -> Option<(&[u8], &[u8])> {
    let length = u24_at(args, 0)? as usize;
    args[3..].split_at_checked(length)
}

// Reading

/// A record of an area: its type, and where its data stands in the area.
struct Record {
    kind: u8,
    start: usize,
    end: usize,
}

/// The record at a place of the area; none where the area ends there.
fn record_at(area: &[u8], at: usize) -> Result<Option<Record>, u8> {
    match area[at..] {
        [] => Ok(None),
        [kind, length, ref behind @ ..] if behind.len() >= usize::from(length) => {
            let start = at + 2;
            Ok(Some(Record { kind, start, end: start + usize::from(length) }))
        }
        _ => Err(NOT_FILLED_EXACTLY),
    }
}

/// All records of an area, which they have to fill exactly.
fn records(area: &[u8]) -> Result<Vec<Record>, u8> {
    let mut records = Vec::new();
    let mut at = 0;
    while let Some(record) = record_at(area, at)? {
        at = record.end;
        records.push(record);
    }
    Ok(records)
}

/// Found, the type by its two values, the timestamp, the data, what remains; zeros for no record.
fn values(area: &[u8], record: Option<&Record>) -> Vec<usize> {
    let Some(&Record { kind, start, end }) = record else {
        return vec![0; 9];
    };
    let data = &area[start..end];
    let variant = if NAMED_TYPES.contains(&kind) { kind } else { 0 };
    let [there, value] = timestamp(kind, data).map_or([0, 0], |value| [1, value as usize]);
    let rest = remainder(&area[end..]);
    vec![1, variant.into(), kind.into(), there, value, start, end, remainder(data), rest]
}

/// A type of timestamp with another length is a record all the same, without a value.
fn timestamp(kind: u8, data: &[u8]) -> Option<u32> {
    match (kind, data) {
        (RELATIVE_TIMESTAMP, &[a, b]) => Some(u32::from_be_bytes([0, 0, a, b])),
        (EXTENDED_RELATIVE_TIMESTAMP, &[a, b, c, d]) => Some(u32::from_be_bytes([a, b, c, d])),
        _ => None,
    }
}

// Writing

fn append(area: &[u8], kind: u8, data: &[u8], buffer: &mut [u8]) -> Result<usize, u8> {
    records(area)?;
    if area.len() + 2 + data.len() > LONGEST_AREA {
        return Err(PAYLOAD_TOO_LARGE);
    }
    write(&[area, &[kind, data.len() as u8], data].concat(), buffer)
}

/// The rest is not looked at.
fn frame(code: u8, area: &[u8], rest: &[u8], buffer: &mut [u8]) -> Result<usize, u8> {
    records(area)?;
    if area.len() > LONGEST_AREA {
        return Err(PAYLOAD_TOO_LARGE);
    }
    write(&[&[code, area.len() as u8], area, rest].concat(), buffer)
}

/// Writes all bytes at the front of a buffer that holds them, and gives their count.
fn write(bytes: &[u8], buffer: &mut [u8]) -> Result<usize, u8> {
    let part = buffer.get_mut(..bytes.len()).ok_or(TOO_SMALL)?;
    part.copy_from_slice(bytes);
    Ok(part.len())
}
