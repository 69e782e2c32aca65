// Accessors on records that no parse made, written for the comparison alone: the Rust's records
// cannot be made by hand, or read their slice unchecked. Document 01: "An accessor given a record
// that no parse made repeats that record's parse checks first, with their numbers." Which values
// the checks are over stands in docs/DECISIONS.md, "Readings".

use std::ops::RangeInclusive;

pub const CALLS: RangeInclusive<u8> = 52..=57;

const TOO_SMALL: u8 = 1;
const INVALID_FRAME: u8 = 2;
const UNSUPPORTED_VERSION: u8 = 3;
const INVALID_MESSAGE_CODE: u8 = 6;

/// The message codes in 01's order, those of L_Data first.
pub const MESSAGE_CODES: [u8; 7] = [0x11, 0x29, 0x2E, 0x10, 0x2D, 0x2F, 0x2B];
/// The codes of the named application services, in the order of their numbers.
const APCI_CODES: [u16; 13] = [
    0x000, 0x040, 0x080, 0x0C0, 0x100, 0x140, 0x180, 0x1C0, 0x200, 0x240, 0x280, 0x300, 0x340,
];
const READ: u8 = 1;
const RESPONSE: u8 = 2;
const WRITE: u8 = 3;

/// A call's number of 01 and its values; None where the record is none.
pub fn call(number: u8, args: &[u8]) -> Option<(u8, Vec<usize>)> {
    match (number, args) {
        (52, &[length, version, service, t1, t2, ref slice @ ..]) => {
            Some((0, frame(&Frame { length, version, service, total: word(t1, t2) }, slice)))
        }
        (53, [code, slice @ ..]) => Some((0, cemi(*code, slice))),
        (54, [code, slice @ ..]) => Some(told(as_ldata(*code, slice))),
        (55, &[_, control2, _, _, d1, d2, npdu, kind, _, apci, _, _, ref slice @ ..]) => {
            Some((0, ldata(control2, word(d1, d2), npdu, kind, apci, slice)))
        }
        (56, &[refused, length, version, service, t1, t2, ref held @ ..]) => {
            let frame = Frame { length, version, service, total: word(t1, t2) };
            Some(told(accepted(refused).and_then(|()| frame.view(6, held))))
        }
        (57, &[refused, npdu, kind, _, ref held @ ..]) => {
            Some(told(accepted(refused).and_then(|()| held_data(npdu, kind, held))))
        }
        _ => None,
    }
}

fn word(high: u8, low: u8) -> u16 {
    u16::from_be_bytes([high, low])
}

/// A refusal has no values.
pub fn told(answer: Result<Vec<usize>, u8>) -> (u8, Vec<usize>) {
    answer.map_or_else(|number| (number, Vec::new()), |values| (0, values))
}

/// An accessor's number, then its values, zeros where it refuses.
fn with_number(answer: Result<Vec<usize>, u8>, count: usize) -> Vec<usize> {
    let (number, mut values) = told(answer);
    values.resize(count, 0);
    [vec![number.into()], values].concat()
}

/// Where a part stands, and its bytes as one number by 65,521.
fn view(slice: &[u8], start: usize, end: usize) -> Vec<usize> {
    let rest = slice[start..end].iter().fold(0, |rest, &b| (rest * 256 + usize::from(b)) % 65_521);
    vec![start, end, rest]
}

// Frames

struct Frame {
    length: u8,
    version: u8,
    /// By its number.
    service: u8,
    total: u16,
}

impl Frame {
    /// The fields decide; of the slice only its length is asked.
    fn checks(&self, slice: &[u8]) -> Result<(), u8> {
        if slice.len() < 6 {
            return Err(TOO_SMALL);
        }
        if self.length != 6 {
            return Err(INVALID_FRAME);
        }
        if self.version != 0x10 {
            return Err(UNSUPPORTED_VERSION);
        }
        if self.total < 6 || slice.len() < usize::from(self.total) {
            return Err(INVALID_FRAME);
        }
        Ok(())
    }

    /// The part from there to the total length.
    fn view(&self, start: usize, slice: &[u8]) -> Result<Vec<usize>, u8> {
        self.checks(slice).map(|()| view(slice, start, self.total.into()))
    }
}

/// `header`, `service_type`, `body` and `data`.
fn frame(frame: &Frame, slice: &[u8]) -> Vec<usize> {
    let service = usize::from(frame.service);
    let header = vec![frame.length.into(), frame.version.into(), service, frame.total.into()];
    [
        with_number(frame.checks(slice).map(|()| header), 4),
        with_number(frame.checks(slice).map(|()| vec![service]), 1),
        with_number(frame.view(6, slice), 3),
        with_number(frame.view(0, slice), 3),
    ]
    .concat()
}

// cEMI frames

/// The slice's own bytes are checked again.
fn cemi_checks(slice: &[u8]) -> Result<(), u8> {
    if slice.len() < 2 {
        return Err(TOO_SMALL);
    }
    if MESSAGE_CODES.contains(&slice[0]) { Ok(()) } else { Err(INVALID_MESSAGE_CODE) }
}

/// Where what stands behind the additional information starts.
fn service_start(slice: &[u8]) -> Result<usize, u8> {
    let start = 2 + usize::from(slice[1]);
    if slice.len() < start { Err(INVALID_FRAME) } else { Ok(start) }
}

/// Whether a message code, by its number, is L_Data.
fn is_ldata(code: u8) -> bool {
    code <= 3
}

/// `message_code`, `is_ldata`, `additional_info_length` and `service_info`.
fn cemi(code: u8, slice: &[u8]) -> Vec<usize> {
    let additional = cemi_checks(slice).map(|()| vec![slice[1].into()]);
    let info = cemi_checks(slice)
        .and_then(|()| Ok(view(slice, service_start(slice)?, slice.len())));
    let fields = vec![code.into(), is_ldata(code).into()];
    [fields, with_number(additional, 1), with_number(info, 3)].concat()
}

/// The L_Data in the frame, as call 43 has it.
fn as_ldata(code: u8, slice: &[u8]) -> Result<Vec<usize>, u8> {
    cemi_checks(slice)?;
    if !is_ldata(code) {
        return Err(INVALID_MESSAGE_CODE);
    }
    let start = service_start(slice)?;
    let rest = &slice[start..];
    if rest.len() < 9 {
        return Err(TOO_SMALL);
    }
    let kind = rest[7] >> 6;
    let [from, to] = ldata_span(rest.len(), rest[6], kind)?;
    let sequence = if kind % 2 == 1 { rest[7] >> 2 & 15 } else { 0 };
    let code = if is_data(kind) { word(rest[7] & 3, rest[8] & 0xC0) } else { 0 };
    let named = APCI_CODES.iter().position(|&known| is_data(kind) && known == code);
    let addresses = [word(rest[2], rest[3]), word(rest[4], rest[5])].map(usize::from);
    let mut values: Vec<usize> = vec![rest[0].into(), rest[1].into()];
    values.extend(addresses);
    values.extend([rest[6], kind, sequence].map(usize::from));
    values.extend([named.map_or(0, |place| 1 + place), code.into()]);
    values.extend(view(slice, start + from, start + to));
    Ok(values)
}

// L_Data

/// Of the four kinds of TPCI the first two are data packets.
fn is_data(kind: u8) -> bool {
    kind < 2
}

/// Where the data of an L_Data starts and ends, by L and the kind.
fn start_and_end(npdu: u8, kind: u8) -> [usize; 2] {
    [if is_data(kind) { 9 } else { 8 }, 7 + usize::from(npdu)]
}

/// The same for an L_Data of so many bytes, or why it has none.
fn ldata_span(length: usize, npdu: u8, kind: u8) -> Result<[usize; 2], u8> {
    let [start, end] = start_and_end(npdu, kind);
    if length < 9 {
        return Err(TOO_SMALL);
    }
    if length < end || end < start {
        return Err(INVALID_FRAME);
    }
    Ok([start, end])
}

/// `data`, what the frame asks of a group, and the destination as group and as individual: these
/// read the fields alone.
fn ldata(control2: u8, destination: u16, npdu: u8, kind: u8, apci: u8, slice: &[u8]) -> Vec<usize> {
    let data = ldata_span(slice.len(), npdu, kind).map(|[start, end]| view(slice, start, end));
    let asks = match apci {
        WRITE => 1,
        READ => 2,
        RESPONSE => 4,
        _ => 0,
    };
    let address = 1 + usize::from(destination);
    let addresses = if control2 >= 0x80 { [address, 0] } else { [0, address] };
    [with_number(data, 3), vec![asks], addresses.into()].concat()
}

// Records that hold their slice

/// The answer that such a record holds: accepted, or refused by this number.
fn accepted(refused: u8) -> Result<(), u8> {
    if refused == 0 { Ok(()) } else { Err(refused) }
}

/// Of an `LDataFrame` the data is held, not the frame: it has to reach from the start to the end.
fn held_data(npdu: u8, kind: u8, held: &[u8]) -> Result<Vec<usize>, u8> {
    let [start, end] = start_and_end(npdu, kind);
    if end < start || held.len() < end - start {
        return Err(INVALID_FRAME);
    }
    Ok(view(held, 0, end - start))
}
