// Document 02's standard count of L_Data (2/13), written for the comparison alone: L leaves out the
// TPCI byte, which the Rust counts. The end is 8 + L, and control packets are built too. The
// numbers, and the order of checks in a cEMI frame, are 01's.

use crate::made_records::{told, MESSAGE_CODES};
use knx_release::calls::remainder;
use std::ops::{Range, RangeInclusive};

pub const CALLS: RangeInclusive<u8> = 65..=70;

const TOO_SMALL: u8 = 1;
const INVALID_FRAME: u8 = 2;
const PAYLOAD_TOO_LARGE: u8 = 5;
const INVALID_MESSAGE_CODE: u8 = 6;
const OUT_OF_RANGE: u8 = 13;

/// Control 1 up to the TPCI byte: the least frame, and what L does not count.
const HEAD: usize = 8;
/// So many of MESSAGE_CODES, the first ones, are those of L_Data.
const LDATA_CODES: usize = 3;
/// The number of the service that each of the sixteen application codes names; 0 for none.
const SERVICES: [usize; 16] = [1, 2, 3, 4, 5, 6, 7, 8, 9, 10, 11, 0, 12, 13, 0, 0];
/// The number of a control code, which names no service.
const CONTROL: usize = 14;

/// A call's number and its values; None where the record is none.
pub fn call(number: u8, args: &[u8], buffer: &mut [u8]) -> Option<(u8, Vec<usize>)> {
    let answer = match (number, args) {
        (65, input) => read(input).map(|frame| [frame.values(input, 0), frame.asked()].concat()),
        (66, cemi) => as_ldata(None, cemi),
        (67, &[code @ 1..=7, ref cemi @ ..]) => as_ldata(Some(usize::from(code) - 1), cemi),
        (68, _) => Wanted::of(args)?.build(buffer).map(|count| vec![count]),
        (69, _) => Ok(made_fields(args)?),
        (70, &[0, length, kind, _, ref held @ ..]) => held_data(Kind::of(kind)?, length, held),
        (70, &[refused, _, _, _, ..]) => Err(refused),
        _ => return None,
    };
    Some(told(answer))
}

/// Where a part of the whole stands, and its remainder.
fn part(whole: &[u8], place: Range<usize>) -> Vec<usize> {
    vec![place.start, place.end, remainder(&whole[place])]
}

// The count

/// The two top bits of a TPCI byte.
#[derive(Clone, Copy, Debug, PartialEq)]
struct Kind {
    control: bool,
    numbered: bool,
}

impl Kind {
    fn of(number: u8) -> Option<Kind> {
        let kind = Kind { control: number & 2 != 0, numbered: number & 1 != 0 };
        (number < 4).then_some(kind)
    }

    fn number(self) -> u8 {
        u8::from(self.control) << 1 | u8::from(self.numbered)
    }

    /// Data stands behind TPCI, in a data packet behind APCI.
    fn data_start(self) -> usize {
        if self.control { HEAD } else { HEAD + 1 }
    }

    /// From the start of the data to the end of the frame, where such a packet may have this L: 255
    /// is no length, and a data packet has its APCI byte at least.
    fn span(self, length: u8) -> Result<Range<usize>, u8> {
        let allowed = if self.control { 0..=0 } else { 1..=254 };
        if !allowed.contains(&length) {
            return Err(INVALID_FRAME);
        }
        Ok(self.data_start()..HEAD + usize::from(length))
    }
}

/// The last refusal: an end past so many bytes.
fn within(span: Range<usize>, length: usize) -> Result<Range<usize>, u8> {
    if span.end > length { Err(INVALID_FRAME) } else { Ok(span) }
}

// Reading

/// A packet of data has an application code for an APCI, one of control a control code.
#[derive(Debug, PartialEq)]
enum Apci {
    Application(u16),
    Control(u8),
}

impl Apci {
    /// The variant's number, and its code.
    fn values(&self) -> [usize; 2] {
        match *self {
            Apci::Application(code) => [SERVICES[usize::from(code) / 0x40], code.into()],
            Apci::Control(code) => [CONTROL, code.into()],
        }
    }
}

struct Frame {
    controls: [u8; 2],
    source: u16,
    destination: u16,
    length: u8,
    kind: Kind,
    /// 0 where the packet has none.
    sequence: u8,
    apci: Apci,
    /// Where the data stands in the frame.
    data: Range<usize>,
}

fn read(input: &[u8]) -> Result<Frame, u8> {
    let &[control1, control2, s1, s2, d1, d2, length, tpci, ref behind @ ..] = input else {
        return Err(TOO_SMALL);
    };
    let kind = Kind { control: tpci & 0x80 != 0, numbered: tpci & 0x40 != 0 };
    let data = within(kind.span(length)?, input.len())?;
    let low_bits = tpci & 0x03;
    let apci = if kind.control {
        Apci::Control(low_bits)
    } else {
        Apci::Application(u16::from_be_bytes([low_bits, behind[0] & 0xC0]))
    };
    Ok(Frame {
        controls: [control1, control2],
        source: u16::from_be_bytes([s1, s2]),
        destination: u16::from_be_bytes([d1, d2]),
        length,
        kind,
        sequence: if kind.numbered { tpci >> 2 & 0x0F } else { 0 },
        apci,
        data,
    })
}

impl Frame {
    /// The nine values of the fields, then the data, of a frame that starts there in the whole.
    fn values(&self, whole: &[u8], start: usize) -> Vec<usize> {
        let [control1, control2] = self.controls.map(usize::from);
        let [apci, code] = self.apci.values();
        let fields = vec![
            control1,
            control2,
            self.source.into(),
            self.destination.into(),
            self.length.into(),
            self.kind.number().into(),
            self.sequence.into(),
            apci,
            code,
        ];
        [fields, part(whole, start + self.data.start..start + self.data.end)].concat()
    }

    /// The destination as group and as individual, and what the frame asks.
    fn asked(&self) -> Vec<usize> {
        let [_, control2] = self.controls;
        let [group, individual] = addresses(control2, self.destination);
        vec![group, individual, asks(self.apci.values()[0])]
    }
}

/// The destination as group and as individual, 1 + address: control 2 says which of them it is.
fn addresses(control2: u8, destination: u16) -> [usize; 2] {
    let address = 1 + usize::from(destination);
    if control2 & 0x80 != 0 { [address, 0] } else { [0, address] }
}

/// What is asked of a group, by the number of the APCI: of a control code nothing.
fn asks(apci: usize) -> usize {
    match apci {
        1 => 2,
        2 => 4,
        3 => 1,
        _ => 0,
    }
}

/// The L_Data in a cEMI frame. A frame made by hand holds a code, told here by its place, which
/// decides in place of the one that is read; that one has to be known all the same.
fn as_ldata(held: Option<usize>, cemi: &[u8]) -> Result<Vec<usize>, u8> {
    let &[code, additional, ref behind @ ..] = cemi else {
        return Err(TOO_SMALL);
    };
    let known = MESSAGE_CODES.iter().position(|&known| known == code);
    let place = known.ok_or(INVALID_MESSAGE_CODE)?;
    if held.unwrap_or(place) >= LDATA_CODES {
        return Err(INVALID_MESSAGE_CODE);
    }
    let rest = behind.get(usize::from(additional)..).ok_or(INVALID_FRAME)?;
    Ok(read(rest)?.values(cemi, cemi.len() - rest.len()))
}

// Records that no parse made

/// The accessors of fields beside a slice: `data`, what is asked, the destination. All but `data`
/// read the fields alone: a control packet made with the APCI of a group write says that it is one.
fn made_fields(args: &[u8]) -> Option<Vec<usize>> {
    let &[_, control2, _, _, d1, d2, length, kind, _, apci, _, _, ref slice @ ..] = args else {
        return None;
    };
    let (refused, mut data) = told(slice_data(Kind::of(kind)?, length, slice));
    data.resize(3, 0);
    let addresses = addresses(control2, u16::from_be_bytes([d1, d2]));
    let values = [vec![refused.into()], data, vec![asks(apci.into())], addresses.into()].concat();
    (usize::from(apci) <= CONTROL).then_some(values)
}

/// All checks, over the fields and the length of the slice.
fn slice_data(kind: Kind, length: u8, slice: &[u8]) -> Result<Vec<usize>, u8> {
    if slice.len() < HEAD {
        return Err(TOO_SMALL);
    }
    Ok(part(slice, within(kind.span(length)?, slice.len())?))
}

/// The data of a record that holds it and not its frame: the same checks, but for the least size,
/// over the length that the bytes before the data and those held come to.
fn held_data(kind: Kind, length: u8, held: &[u8]) -> Result<Vec<usize>, u8> {
    let data = within(kind.span(length)?, kind.data_start() + held.len())?;
    Ok(part(held, 0..data.len()))
}

// Building

/// What the builder is given. The code is an application code, of a control packet a control code.
struct Wanted<'a> {
    controls: [u8; 2],
    source: u16,
    destination: u16,
    kind: Kind,
    sequence: u8,
    code: u16,
    six_bits: u8,
    data: &'a [u8],
}

/// What a packet's sort decides: L, the two low bits of the TPCI byte, and what stands behind it.
type Packet = (u8, u8, Vec<u8>);

impl Wanted<'_> {
    fn of(args: &[u8]) -> Option<Wanted<'_>> {
        let &[control1, control2, s1, s2, d1, d2, kind, sequence, c1, c2, six_bits, ref data @ ..] =
            args
        else {
            return None;
        };
        Some(Wanted {
            controls: [control1, control2],
            source: u16::from_be_bytes([s1, s2]),
            destination: u16::from_be_bytes([d1, d2]),
            kind: Kind::of(kind)?,
            sequence,
            code: u16::from_be_bytes([c1, c2]),
            six_bits,
            data,
        })
    }

    /// Writes the frame at the front of a buffer that holds it, and gives its length.
    fn build(&self, buffer: &mut [u8]) -> Result<usize, u8> {
        let sequence = self.sequence_bits()?;
        let (length, low_bits, behind) =
            if self.kind.control { self.control_packet()? } else { self.data_packet()? };
        let tpci = self.kind.number() << 6 | sequence << 2 | low_bits;
        let (source, destination) = (self.source.to_be_bytes(), self.destination.to_be_bytes());
        let frame = [&self.controls[..], &source, &destination, &[length, tpci], &behind].concat();
        let place = buffer.get_mut(..frame.len()).ok_or(TOO_SMALL)?;
        place.copy_from_slice(&frame);
        self.confirm(place);
        Ok(frame.len())
    }

    /// An unnumbered packet has no sequence, whatever is given.
    fn sequence_bits(&self) -> Result<u8, u8> {
        match self.kind.numbered {
            true if self.sequence > 15 => Err(OUT_OF_RANGE),
            true => Ok(self.sequence),
            false => Ok(0),
        }
    }

    fn data_packet(&self) -> Result<Packet, u8> {
        if self.code > 0x3C0 || self.code % 0x40 != 0 || self.six_bits > 63 {
            return Err(OUT_OF_RANGE);
        }
        if self.data.len() > 253 {
            return Err(PAYLOAD_TOO_LARGE);
        }
        let [high, low] = self.code.to_be_bytes();
        Ok((self.data.len() as u8 + 1, high, [&[low | self.six_bits], self.data].concat()))
    }

    /// Any data is out of range here, however much of it; the six-bit number is not looked at.
    fn control_packet(&self) -> Result<Packet, u8> {
        if !self.data.is_empty() || self.code > 3 {
            return Err(OUT_OF_RANGE);
        }
        Ok((0, self.code as u8, Vec::new()))
    }

    /// The reader has to hand back from the written frame what was asked for, and the frame whole.
    fn confirm(&self, frame: &[u8]) {
        let read = read(frame).expect("the built frame is refused");
        assert_eq!(read.controls, self.controls, "built control bytes");
        assert_eq!(read.source, self.source, "built source");
        assert_eq!(read.destination, self.destination, "built destination");
        assert_eq!(read.kind, self.kind, "built kind");
        if self.kind.numbered {
            assert_eq!(read.sequence, self.sequence, "built sequence");
        } else {
            assert_eq!(frame[7] & 0x3C, 0, "built sequence bits");
        }
        if self.kind.control {
            assert_eq!(read.apci, Apci::Control(self.code as u8), "built control code");
        } else {
            assert_eq!(read.apci, Apci::Application(self.code), "built APCI");
            assert_eq!(frame[8] & 0x3F, self.six_bits, "built six-bit number");
        }
        assert_eq!(read.data.end, frame.len(), "built end");
        assert_eq!(&frame[read.data], self.data, "built data");
    }
}
