// Document 01's L_Data builder, which the Rust does not have, written for the comparison alone.

use crate::protocol::cemi::{extract_6bit_value, LDataFrame, Tpci};

const BUFFER_TOO_SMALL: u8 = 1;
const PAYLOAD_TOO_LARGE: u8 = 5;
const OUT_OF_RANGE: u8 = 13;

pub struct LDataBuilder<'a> {
    pub ctrl1: u8,
    pub ctrl2: u8,
    pub source: u16,
    pub destination: u16,
    pub tpci: Tpci,
    pub apci: u16,
    pub six_bits: u8,
    pub data: &'a [u8],
}

impl LDataBuilder<'_> {
    /// Writes the frame and gives its length, or gives document 01's number.
    pub fn build(&self, buf: &mut [u8]) -> Result<usize, u8> {
        let tpci = self.tpci_bits()?;
        if self.apci > 0x3C0 || self.apci % 0x40 != 0 || self.six_bits > 63 {
            return Err(OUT_OF_RANGE);
        }
        if self.data.len() > 253 {
            return Err(PAYLOAD_TOO_LARGE);
        }
        let frame = buf.get_mut(..9 + self.data.len()).ok_or(BUFFER_TOO_SMALL)?;
        let [apci_high, apci_low] = self.apci.to_be_bytes();
        frame[..2].copy_from_slice(&[self.ctrl1, self.ctrl2]);
        frame[2..4].copy_from_slice(&self.source.to_be_bytes());
        frame[4..6].copy_from_slice(&self.destination.to_be_bytes());
        frame[6] = self.data.len() as u8 + 2;
        frame[7] = tpci | apci_high;
        frame[8] = apci_low | self.six_bits;
        frame[9..].copy_from_slice(self.data);
        Ok(frame.len())
    }

    /// The six high bits of the TPCI byte: data packets only, four bits of sequence.
    fn tpci_bits(&self) -> Result<u8, u8> {
        match self.tpci {
            Tpci::UnnumberedData => Ok(0),
            Tpci::NumberedData { sequence } if sequence <= 15 => Ok(0x40 | sequence << 2),
            _ => Err(OUT_OF_RANGE),
        }
    }

    /// The Rust has to read from the written frame what was asked for.
    pub fn confirm(&self, frame: &[u8]) {
        let read = LDataFrame::parse(frame).expect("the Rust refuses the built frame");
        assert_eq!(read.ctrl1.raw(), self.ctrl1, "built control 1");
        assert_eq!(read.ctrl2.raw(), self.ctrl2, "built control 2");
        assert_eq!(read.source.raw(), self.source, "built source");
        assert_eq!(read.destination_raw, self.destination, "built destination");
        assert_eq!(read.tpci, self.tpci, "built TPCI");
        assert_eq!(read.apci.to_u16(), self.apci, "built APCI");
        assert_eq!(extract_6bit_value(frame[8]), self.six_bits, "built six-bit number");
        assert_eq!(read.data, self.data, "built data");
    }
}
