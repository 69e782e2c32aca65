// KNX's own forms of acknowledgement (03_08_04), connect response and disconnecting, beside those
// of document 01, written for the comparison alone: its own reading of the bytes. Numbers 1 and 2
// are 01's. The datagram in KNX's form, call 76, is in tunnel_table.rs.

use crate::made_records::told;
use std::ops::RangeInclusive;

pub const CALLS: RangeInclusive<u8> = 71..=75;

const TOO_SMALL: u8 = 1;
const INVALID_FRAME: u8 = 2;

/// A call's number and its values; None where the record is none.
pub fn call(number: u8, args: &[u8], buffer: &mut [u8]) -> Option<(u8, Vec<usize>)> {
    let answer = match (number, args) {
        (71, &[channel, sequence, status]) => {
            Acknowledgement { channel, sequence, status }.build(buffer).map(|count| vec![count])
        }
        (72, body) => Acknowledgement::read(body).map(|read| read.values()),
        (73, body) => ConnectResponse::read(body).map(|read| read.values()),
        (74, body) => disconnect_request(body),
        (75, &[channel, status]) => {
            DisconnectResponse { channel, status }.build(buffer).map(|count| vec![count])
        }
        _ => return None,
    };
    Some(told(answer))
}

// Acknowledgement

#[derive(Debug, PartialEq)]
struct Acknowledgement {
    channel: u8,
    sequence: u8,
    status: u8,
}

impl Acknowledgement {
    /// The length byte is not looked at.
    fn read(body: &[u8]) -> Result<Acknowledgement, u8> {
        match *body {
            [_, channel, sequence, status, ..] => Ok(Acknowledgement { channel, sequence, status }),
            _ => Err(TOO_SMALL),
        }
    }

    fn values(&self) -> Vec<usize> {
        let Acknowledgement { channel, sequence, status } = *self;
        vec![channel.into(), sequence.into(), status.into(), is_ok(status)]
    }

    /// Read on the spot, which has to hand back what was asked for.
    fn build(&self, buffer: &mut [u8]) -> Result<usize, u8> {
        let Acknowledgement { channel, sequence, status } = *self;
        let frame = write([6, 0x10, 0x04, 0x21, 0, 10, 4, channel, sequence, status], buffer)?;
        let body = body_of(frame, 0x0421);
        assert_eq!(body[0], 4, "built length byte");
        assert_eq!(body.len(), 4, "built body");
        assert_eq!(Acknowledgement::read(body).as_ref(), Ok(self), "built acknowledgement");
        Ok(frame.len())
    }
}

// Connect response

struct ConnectResponse {
    channel: u8,
    status: u8,
    hpai: [u8; 8],
    crd: [u8; 4],
}

impl ConnectResponse {
    /// Of a connection that is refused nothing else is read, whatever follows.
    fn read(body: &[u8]) -> Result<ConnectResponse, u8> {
        let &[channel, status, ref behind @ ..] = body else {
            return Err(TOO_SMALL);
        };
        if status != 0 {
            return Ok(ConnectResponse { channel, status, hpai: [0; 8], crd: [0; 4] });
        }
        let (hpai, rest) = behind.split_first_chunk().ok_or(TOO_SMALL)?;
        let crd = *rest.first_chunk().ok_or(TOO_SMALL)?;
        Ok(ConnectResponse { channel, status, hpai: checked(*hpai)?, crd })
    }

    /// The values of call 17, then our own individual address.
    fn values(&self) -> Vec<usize> {
        let [_, _, high, low] = self.crd;
        let mut values = hpai_values(self.hpai);
        values.extend([self.channel, self.status].map(usize::from));
        values.extend(self.crd.map(usize::from));
        values.push(is_ok(self.status));
        values.push(u16::from_be_bytes([high, low]).into());
        values
    }
}

// Disconnect request and response

/// The channel, then the Hpai; the byte between them is not looked at.
fn disconnect_request(body: &[u8]) -> Result<Vec<usize>, u8> {
    let &[channel, _, ref behind @ ..] = body else {
        return Err(TOO_SMALL);
    };
    let hpai = checked(*behind.first_chunk().ok_or(TOO_SMALL)?)?;
    Ok([vec![channel.into()], hpai_values(hpai)].concat())
}

#[derive(Debug, PartialEq)]
struct DisconnectResponse {
    channel: u8,
    status: u8,
}

impl DisconnectResponse {
    /// Of a body that holds nothing else.
    fn read(body: &[u8]) -> Option<DisconnectResponse> {
        match *body {
            [channel, status] => Some(DisconnectResponse { channel, status }),
            _ => None,
        }
    }

    /// Read on the spot, which has to hand back what was asked for.
    fn build(&self, buffer: &mut [u8]) -> Result<usize, u8> {
        let frame = write([6, 0x10, 0x02, 0x0A, 0, 8, self.channel, self.status], buffer)?;
        let read = DisconnectResponse::read(body_of(frame, 0x020A));
        assert_eq!(read.as_ref(), Some(self), "built disconnect response");
        Ok(frame.len())
    }
}

// What they share

fn is_ok(status: u8) -> usize {
    usize::from(status == 0)
}

/// The length byte of an Hpai is 8; its protocol may be any.
fn checked(hpai: [u8; 8]) -> Result<[u8; 8], u8> {
    if hpai[0] == 8 { Ok(hpai) } else { Err(INVALID_FRAME) }
}

/// Length, protocol, address, port.
fn hpai_values([length, protocol, a, b, c, d, high, low]: [u8; 8]) -> Vec<usize> {
    let mut values = [length, protocol, a, b, c, d].map(usize::from).to_vec();
    values.push(u16::from_be_bytes([high, low]).into());
    values
}

/// Writes all bytes at the front of a buffer that holds them, and gives that part.
fn write<const N: usize>(bytes: [u8; N], buffer: &mut [u8]) -> Result<&[u8], u8> {
    let part = buffer.first_chunk_mut().ok_or(TOO_SMALL)?;
    *part = bytes;
    Ok(part)
}

/// The body of a written frame, whose header has to be this service's and to count it whole.
fn body_of(frame: &[u8], service: u16) -> &[u8] {
    let (header, body) = frame.split_at(6);
    assert_eq!(header[..2], [6, 0x10], "built header");
    assert_eq!(header[2..4], service.to_be_bytes(), "built service");
    assert_eq!(header[4..], (frame.len() as u16).to_be_bytes(), "built total length");
    body
}
