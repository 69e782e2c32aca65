// Random inputs of the benchmark: the same on both sides and in every run.

use crate::random::Rng;

/// How many calls a batch makes; 256 for each of eight channels, so that every number comes back.
pub const CALLS: usize = 2048;

const SERVICES: [u16; 8] =
    [0x0205, 0x0206, 0x0207, 0x0208, 0x0209, 0x020A, REQUEST, ACKNOWLEDGEMENT];
const REQUEST: u16 = 0x0420;
const ACKNOWLEDGEMENT: u16 = 0x0421;

/// Byte strings, one behind the other in memory, for as long as the program runs.
pub type Inputs = Vec<&'static [u8]>;

pub fn lay_out(count: usize, one: impl FnMut(usize) -> Vec<u8>) -> Inputs {
    let each: Vec<Vec<u8>> = (0..count).map(one).collect();
    let mut rest: &'static [u8] = each.concat().leak();
    each.iter().map(|input| rest.split_off(..input.len()).unwrap_or_default()).collect()
}

fn frame(service: u16, body: &[u8]) -> Vec<u8> {
    let total = (6 + body.len()) as u16;
    let head = [0x0610_u16, service, total].map(u16::to_be_bytes);
    [head.as_flattened(), body].concat()
}

/// A frame of any service, with up to 54 bytes of body.
pub fn good_frame(rng: &mut Rng) -> Vec<u8> {
    let length = rng.below(55);
    let body = rng.bytes(length);
    frame(SERVICES[rng.below(8)], &body)
}

/// A frame that fails one of the five checks that the original has.
pub fn refused_frame(rng: &mut Rng) -> Vec<u8> {
    let mut frame = good_frame(rng);
    match rng.below(5) {
        0 => frame.truncate(rng.below(6)),
        1 => frame[0] = 5,
        2 => frame[1] = 0x20,
        3 => frame[2] = 0xFF,
        _ => frame[4] = 1,
    }
    frame
}

/// One in two is refused.
pub fn mixed_frame(rng: &mut Rng) -> Vec<u8> {
    if rng.below(2) == 0 {
        good_frame(rng)
    } else {
        refused_frame(rng)
    }
}

pub fn hpai(rng: &mut Rng) -> Vec<u8> {
    [&[8, 1], &rng.bytes(6)[..]].concat()
}

pub fn connect_response(rng: &mut Rng) -> Vec<u8> {
    [&rng.bytes(2)[..], &hpai(rng), &[4, 4], &rng.bytes(2)].concat()
}

/// One that opens a channel, with status 0.
pub fn opening_response(rng: &mut Rng) -> Vec<u8> {
    [&rng.bytes(1)[..], &[0], &hpai(rng), &[4, 4], &rng.bytes(2)].concat()
}

/// L_Data in cEMI: one in eight with additional information, one in eight a control packet.
pub fn cemi(rng: &mut Rng) -> Vec<u8> {
    let data = rng.below(15);
    let tpci = [0x00, 0x00, 0x00, 0x00, 0x00, 0x00, 0x44, 0x80][rng.below(8)];
    ldata_in_cemi(rng, data as u8 + 2, tpci, 1 + data)
}

/// The same in the standard count: a control packet has nothing behind its TPCI byte.
pub fn cemi_standard(rng: &mut Rng) -> Vec<u8> {
    let data = rng.below(15);
    match rng.below(8) {
        0 => ldata_in_cemi(rng, 0, 0x80, 0),
        1 => ldata_in_cemi(rng, data as u8 + 1, 0x44, 1 + data),
        _ => ldata_in_cemi(rng, data as u8 + 1, 0x00, 1 + data),
    }
}

/// Of this L and TPCI byte, with so many bytes behind it.
fn ldata_in_cemi(rng: &mut Rng, length: u8, tpci: u8, behind: usize) -> Vec<u8> {
    let additional = if rng.below(8) == 0 { 4 } else { 0 };
    let mut cemi = vec![[0x11, 0x29, 0x2E][rng.below(3)], additional];
    cemi.extend(rng.bytes(additional.into()));
    cemi.extend(rng.bytes(6));
    cemi.extend([length, tpci | rng.below(4) as u8]);
    cemi.extend(rng.bytes(behind));
    cemi
}

/// A record of additional information.
fn info(kind: u8, data: &[u8]) -> Vec<u8> {
    [&[kind, data.len() as u8], data].concat()
}

/// What a gateway puts before an L_Data.
pub fn timestamp(rng: &mut Rng) -> Vec<u8> {
    info(4, &rng.bytes(2))
}

/// One in two a relative timestamp, one in four an extended one, else any type with up to 8 bytes.
fn mixed_info(rng: &mut Rng) -> Vec<u8> {
    match rng.below(4) {
        0 => info(6, &rng.bytes(4)),
        1 => {
            let length = rng.below(9);
            info(rng.byte(), &rng.bytes(length))
        }
        _ => timestamp(rng),
    }
}

/// An area of so many mixed records.
pub fn area(rng: &mut Rng, first: usize, last: usize) -> Vec<u8> {
    let records = rng.between(first, last);
    (0..records).flat_map(|_| mixed_info(rng)).collect()
}

/// One or two records; one area in sixteen is cut within the first.
pub fn gateway_area(rng: &mut Rng) -> Vec<u8> {
    let mut area = area(rng, 1, 2);
    if rng.below(16) == 0 {
        let data = usize::from(area[1]);
        area.truncate(rng.between(1, 1 + data));
    }
    area
}

pub fn tunnel_request(rng: &mut Rng, id: u8, number: u8) -> Vec<u8> {
    frame(REQUEST, &[&[4, id, number, 0], &cemi(rng)[..]].concat())
}

pub fn acknowledgement(id: u8, number: u8) -> Vec<u8> {
    frame(ACKNOWLEDGEMENT, &[4, id, number, 0, 0])
}

/// In KNX's own form.
pub fn acknowledgement_standard(id: u8, number: u8) -> Vec<u8> {
    frame(ACKNOWLEDGEMENT, &[4, id, number, 0])
}

/// Each of eight places 256 times, in random order.
pub fn places(rng: &mut Rng) -> Vec<usize> {
    let mut places: Vec<usize> = (0..CALLS).map(|i| i % 8).collect();
    (1..CALLS).rev().for_each(|i| places.swap(i, rng.below(i + 1)));
    places
}
