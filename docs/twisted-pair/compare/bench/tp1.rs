// The twisted pair as one writes it in Rust, over slices and with the published crate's cEMI frame: the
// crate itself has no TP1.

use crate::protocol::cemi::CEMIFrame;

const TOO_SMALL: u8 = 1;
const INVALID_FRAME: u8 = 2;
const PAYLOAD_TOO_LARGE: u8 = 5;
const INVALID_MESSAGE_CODE: u8 = 6;
const OUT_OF_RANGE: u8 = 13;
const WRONG_CHECK_BYTE: u8 = 15;

/// Control 1 up to the TPCI byte of an L_Data, and a TP1 frame without what L counts.
const HEAD: usize = 8;
const LOW_BITS: u8 = 0x03;

#[inline(always)]
pub fn export(cemi: &[u8], out: &mut [u8]) -> Result<usize, u8> {
    let frame = CEMIFrame::parse(cemi).map_err(|error| error.number())?;
    if !frame.is_ldata() {
        return Err(INVALID_MESSAGE_CODE);
    }
    let additional = usize::from(cemi[1]);
    let ldata = cemi.get(2 + additional..).ok_or(INVALID_FRAME)?;
    let &[control_1, control_2, s1, s2, d1, d2, length, tpci, ..] = ldata else {
        return Err(TOO_SMALL);
    };
    packet_may_have(length, tpci)?;
    let end = HEAD + usize::from(length);
    let packet = ldata.get(HEAD - 1..end).ok_or(INVALID_FRAME)?;
    if additional > 0 || !is_standard(control_1) || control_2 & 0x0F != 0 {
        return Err(OUT_OF_RANGE);
    }
    if length > 15 {
        return Err(PAYLOAD_TOO_LARGE);
    }
    let tp1 = out.get_mut(..end).ok_or(TOO_SMALL)?;
    let (before, check) = tp1.split_at_mut(end - 1);
    before[..6].copy_from_slice(&[control_1 & !LOW_BITS, s1, s2, d1, d2, control_2 | length]);
    before[6..].copy_from_slice(packet);
    check[0] = check_byte(before);
    Ok(end)
}

#[inline(always)]
pub fn import(code: u8, tp1: &[u8], out: &mut [u8]) -> Result<usize, u8> {
    if !matches!(code, 0x11 | 0x29 | 0x2E) {
        return Err(INVALID_MESSAGE_CODE);
    }
    let &[control, s1, s2, d1, d2, sixth, tpci, .., check] = tp1 else {
        return Err(TOO_SMALL);
    };
    if !is_standard(control) || control & LOW_BITS != 0 {
        return Err(OUT_OF_RANGE);
    }
    let length = sixth & 0x0F;
    if tp1.len() != HEAD + usize::from(length) {
        return Err(INVALID_FRAME);
    }
    let before = &tp1[..tp1.len() - 1];
    if check != check_byte(before) {
        return Err(WRONG_CHECK_BYTE);
    }
    packet_may_have(length, tpci)?;
    let cemi = out.get_mut(..2 + tp1.len()).ok_or(TOO_SMALL)?;
    cemi[..9].copy_from_slice(&[code, 0, control, sixth & 0xF0, s1, s2, d1, d2, length]);
    cemi[9..].copy_from_slice(&before[6..]);
    Ok(cemi.len())
}

/// Bits 7 and 4 are set, bit 6 is clear.
fn is_standard(control: u8) -> bool {
    control & 0xD0 == 0x90
}

fn packet_may_have(length: u8, tpci: u8) -> Result<(), u8> {
    let allowed = if tpci & 0x80 == 0 { 1..=254 } else { 0..=0 };
    if allowed.contains(&length) {
        Ok(())
    } else {
        Err(INVALID_FRAME)
    }
}

fn check_byte(bytes: &[u8]) -> u8 {
    !bytes.iter().fold(0, |all, byte| all ^ byte)
}
