// Document 02's twisted pair (4/13), which the Rust does not have, written for the comparison
// alone: an L_Data in the standard count as a TP1 standard frame (03_02_02), and back. Number 15 is
// the request's own, the others are 01's.

use crate::made_records::told;
use crate::standard_count;
use std::ops::RangeInclusive;

pub const CALLS: RangeInclusive<u8> = 77..=78;

const TOO_SMALL: u8 = 1;
const INVALID_FRAME: u8 = 2;
const PAYLOAD_TOO_LARGE: u8 = 5;
const INVALID_MESSAGE_CODE: u8 = 6;
const OUT_OF_RANGE: u8 = 13;
const WRONG_CHECK_BYTE: u8 = 15;

const LDATA_CODES: [u8; 3] = [0x11, 0x29, 0x2E];
/// Control 1 up to the TPCI byte of an L_Data; so many bytes are the least TP1 frame too.
const HEAD: usize = 8;
/// What four bits can say of L.
const LONGEST: u8 = 15;
/// The two bits of control 1 that the bus does not carry.
const LOW_BITS: u8 = 0x03;

/// cEMI frames and what knxd, a real gateway, puts on the bus for them: a group write, a connect
/// and an acknowledgement.
pub const KNXD: [(&[u8], &[u8]); 3] = [
    (
        &[0x11, 0x00, 0xBC, 0xD0, 0x11, 0x01, 0x08, 0x03, 0x01, 0x00, 0x81],
        &[0xBC, 0x11, 0x01, 0x08, 0x03, 0xD1, 0x00, 0x81, 0x08],
    ),
    (
        &[0x11, 0x00, 0xBC, 0x50, 0x11, 0x01, 0x11, 0x4D, 0x00, 0x80],
        &[0xBC, 0x11, 0x01, 0x11, 0x4D, 0x50, 0x80, 0xDF],
    ),
    (
        &[0x11, 0x00, 0xBC, 0x50, 0x11, 0x01, 0x11, 0x4D, 0x00, 0xC6],
        &[0xBC, 0x11, 0x01, 0x11, 0x4D, 0x50, 0xC6, 0x99],
    ),
];

/// A call's number and its values; None where the record is none.
pub fn call(number: u8, args: &[u8], buffer: &mut [u8]) -> Option<(u8, Vec<usize>)> {
    let answer = match (number, args) {
        (77, cemi) => export(cemi, buffer),
        (78, &[code, ref tp1 @ ..]) => import(code, tp1, buffer),
        _ => return None,
    };
    Some(told(answer.map(|count| vec![count])))
}

/// Stops the run unless the gateway's frames are read and written as it does.
pub fn confirm() {
    for (cemi, tp1) in KNXD {
        assert_eq!(to_tp1(cemi).as_deref(), Ok(tp1), "knxd's frame, exported");
        assert_eq!(to_cemi(cemi[0], tp1).as_deref(), Ok(cemi), "knxd's frame, imported");
    }
}

// The two calls, each confirmed on the spot by the other

/// What is exported comes back as it was to the frame's end, but for the two low bits.
fn export(cemi: &[u8], buffer: &mut [u8]) -> Result<usize, u8> {
    let tp1 = to_tp1(cemi)?;
    let mut back = cemi[..2 + tp1.len()].to_vec();
    back[2] &= !LOW_BITS;
    assert_eq!(to_cemi(cemi[0], &tp1), Ok(back), "exported, then imported");
    write(&tp1, buffer)
}

/// What is imported is exported to the same bytes, and with any byte changed it is refused.
fn import(code: u8, tp1: &[u8], buffer: &mut [u8]) -> Result<usize, u8> {
    let cemi = to_cemi(code, tp1)?;
    assert_eq!(to_tp1(&cemi).as_deref(), Ok(tp1), "imported, then exported");
    for at in 0..tp1.len() {
        assert!(refuses_changes(code, tp1, at), "imported with byte {at} changed: {tp1:02X?}");
    }
    write(&cemi, buffer)
}

/// Whether every other value at this place is refused.
fn refuses_changes(code: u8, tp1: &[u8], at: usize) -> bool {
    let mut changed = tp1.to_vec();
    (1..=255).all(|bits| {
        changed[at] = tp1[at] ^ bits;
        to_cemi(code, &changed).is_err()
    })
}

/// Writes all bytes at the front of a buffer that holds them, and gives their count.
fn write(bytes: &[u8], buffer: &mut [u8]) -> Result<usize, u8> {
    let part = buffer.get_mut(..bytes.len()).ok_or(TOO_SMALL)?;
    part.copy_from_slice(bytes);
    Ok(part.len())
}

// To the bus

/// The refusals of call 66 come first, and have to be those of its own reference.
fn to_tp1(cemi: &[u8]) -> Result<Vec<u8>, u8> {
    let found = ldata(cemi);
    let told = standard_count::call(66, cemi, &mut []).map(|(number, _)| number);
    assert_eq!(told, Some(found.err().unwrap_or(0)), "the L_Data of {cemi:02X?}");
    let &[control1, control2, s1, s2, d1, d2, length, ref packet @ ..] = found? else {
        unreachable!("an L_Data has {HEAD} bytes at least");
    };
    let additional = cemi[1];
    if additional > 0 || !is_standard(control1) || control2 & 0x0F != 0 {
        return Err(OUT_OF_RANGE);
    }
    if length > LONGEST {
        return Err(PAYLOAD_TOO_LARGE);
    }
    let head = [control1 & !LOW_BITS, s1, s2, d1, d2, control2 | length];
    let mut tp1 = [&head[..], packet].concat();
    tp1.push(check_byte(&tp1));
    Ok(tp1)
}

/// The L_Data of a cEMI frame up to its end. A code that is unknown and one that is not L_Data's
/// have the same number, one behind the other: one check.
fn ldata(cemi: &[u8]) -> Result<&[u8], u8> {
    let &[code, additional, ref behind @ ..] = cemi else {
        return Err(TOO_SMALL);
    };
    if !LDATA_CODES.contains(&code) {
        return Err(INVALID_MESSAGE_CODE);
    }
    let rest = behind.get(usize::from(additional)..).ok_or(INVALID_FRAME)?;
    let &[_, _, _, _, _, _, length, tpci, ..] = rest else {
        return Err(TOO_SMALL);
    };
    packet_may_have(length, tpci)?;
    rest.get(..HEAD + usize::from(length)).ok_or(INVALID_FRAME)
}

// From the bus

fn to_cemi(code: u8, tp1: &[u8]) -> Result<Vec<u8>, u8> {
    if !LDATA_CODES.contains(&code) {
        return Err(INVALID_MESSAGE_CODE);
    }
    let &[control, s1, s2, d1, d2, sixth, tpci, .., check] = tp1 else {
        return Err(TOO_SMALL);
    };
    if !is_standard(control) || control & LOW_BITS != 0 {
        return Err(OUT_OF_RANGE);
    }
    let (control2, length) = (sixth & 0xF0, sixth & 0x0F);
    if tp1.len() != HEAD + usize::from(length) {
        return Err(INVALID_FRAME);
    }
    let before = &tp1[..tp1.len() - 1];
    if check != check_byte(before) {
        return Err(WRONG_CHECK_BYTE);
    }
    packet_may_have(length, tpci)?;
    let head = [code, 0, control, control2, s1, s2, d1, d2, length];
    Ok([&head[..], &before[6..]].concat())
}

// What both ways ask

/// Bits 7 and 4 are set, bit 6 is clear.
fn is_standard(control: u8) -> bool {
    control & 0b1101_0000 == 0b1001_0000
}

/// A data packet has its APCI byte at least, and 255 is no length; a control packet ends with TPCI.
fn packet_may_have(length: u8, tpci: u8) -> Result<(), u8> {
    let allowed = if tpci < 0x80 { 1..=254 } else { 0..=0 };
    if allowed.contains(&length) { Ok(()) } else { Err(INVALID_FRAME) }
}

/// The complement of the exclusive-or of all bytes.
fn check_byte(bytes: &[u8]) -> u8 {
    !bytes.iter().fold(0, |all, byte| all ^ byte)
}
