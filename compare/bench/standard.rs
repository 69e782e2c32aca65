// L_Data in the standard count as one writes it in Rust, over slices and with the published crate's
// types: the crate itself counts another L.

use crate::border::{KnxLData, Lead};
use crate::protocol::cemi::{extract_6bit_value, Apci, CEMIFrame, Tpci};

const TOO_SMALL: u8 = 1;
const INVALID_FRAME: u8 = 2;
const PAYLOAD_TOO_LARGE: u8 = 5;
const INVALID_MESSAGE_CODE: u8 = 6;
const OUT_OF_RANGE: u8 = 13;

/// Control 1 up to the TPCI byte.
const HEAD: usize = 8;

#[inline(always)]
pub fn cemi_ldata(data: &[u8]) -> Result<KnxLData, u8> {
    let cemi = CEMIFrame::parse(data).map_err(|error| error.number())?;
    if !cemi.is_ldata() {
        return Err(INVALID_MESSAGE_CODE);
    }
    let base = 2 + usize::from(data[1]);
    let frame = data.get(base..).ok_or(INVALID_FRAME)?;
    let Some((head, behind)) = frame.split_first_chunk::<HEAD>() else {
        return Err(TOO_SMALL);
    };
    let tpci = Tpci::from_byte(head[7]);
    let allowed = if tpci.is_data() { 1..=254 } else { 0..=0 };
    let length = usize::from(head[6]);
    if !allowed.contains(&head[6]) || behind.len() < length {
        return Err(INVALID_FRAME);
    }
    let (tpci_kind, tpci_sequence) = match tpci {
        Tpci::UnnumberedData => (0, 0),
        Tpci::NumberedData { sequence } => (1, sequence),
        Tpci::UnnumberedControl => (2, 0),
        Tpci::NumberedControl { sequence } => (3, sequence),
    };
    let mut read = KnxLData {
        start: base + HEAD,
        end: base + HEAD + length,
        source: u16::from_be_bytes([head[2], head[3]]),
        destination: u16::from_be_bytes([head[4], head[5]]),
        message_code: cemi.message_code().to_u8(),
        control_1: head[0],
        control_2: head[1],
        npdu_length: head[6],
        tpci_kind,
        tpci_sequence,
        ..KnxLData::default()
    };
    match behind {
        [apci, ..] if tpci.is_data() => {
            let service = Apci::from_bytes(head[7], *apci);
            read.start += 1;
            read.apci_code = service.to_u16();
            read.apci_named = u8::from(!matches!(service, Apci::Unknown(_)));
            read.six_bit = extract_6bit_value(*apci);
        }
        _ => read.control_code = head[7] % 4,
    }
    Ok(read)
}

#[inline(always)]
pub fn build(lead: Lead, data: &[u8], buf: &mut [u8]) -> Result<usize, u8> {
    let tpci = match Tpci::from_byte(lead.tpci) {
        Tpci::UnnumberedData => 0x00,
        Tpci::NumberedData { sequence } => 0x40 | sequence << 2,
        Tpci::UnnumberedControl => 0x80,
        Tpci::NumberedControl { sequence } => 0xC0 | sequence << 2,
    };
    let control = tpci & 0x80 != 0;
    let code = lead.apci_code;
    if control && (!data.is_empty() || code > 3) {
        return Err(OUT_OF_RANGE);
    }
    if !control && (code > 0x3C0 || code % 0x40 != 0 || lead.six_bit > 63) {
        return Err(OUT_OF_RANGE);
    }
    if data.len() > 253 {
        return Err(PAYLOAD_TOO_LARGE);
    }
    let size = if control { HEAD } else { HEAD + 1 + data.len() };
    let frame = buf.get_mut(..size).ok_or(TOO_SMALL)?;
    frame[..2].copy_from_slice(&[lead.control_1, lead.control_2]);
    frame[2..4].copy_from_slice(&lead.source.to_be_bytes());
    frame[4..6].copy_from_slice(&lead.destination.to_be_bytes());
    if control {
        frame[6] = 0;
        frame[7] = tpci | code as u8;
        return Ok(HEAD);
    }
    let [high, low] = code.to_be_bytes();
    frame[6] = data.len() as u8 + 1;
    frame[7] = tpci | high;
    frame[8] = low | lead.six_bit;
    frame[9..].copy_from_slice(data);
    Ok(size)
}
