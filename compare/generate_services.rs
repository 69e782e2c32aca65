// The input records of the calls of services.rs; the helpers are in generate.rs.

use crate::generate::{
    buffer_near, each_byte, each_length, filler, near_good, short_body, Emit, Rng, Size, HPAI,
};

/// A second Hpai, no byte of it (but the first two) as in HPAI.
const DATA: [u8; 8] = [8, 1, 10, 20, 30, 40, 0x12, 0x34];
/// Two fields of one byte each: the good ones, the same swapped, the ends, any others.
pub const PAIRS: [[u8; 2]; 7] = [[4, 2], [2, 4], [0, 0], [255, 255], [0, 255], [255, 0], [0x15, 0x7F]];
const CHANNELS: [u8; 3] = [0x15, 0, 255];
/// Length bytes of an Hpai: the good one, its neighbours and the ends.
const LENGTHS: [u8; 5] = [8, 7, 9, 0, 255];
const STATUSES: [u8; 6] = [0, 1, 0x21, 0x29, 0x80, 255];

// Systematic records

pub fn systematic(size: Size, emit: Emit) {
    emit(12, &[], 0);
    encode_pairs(size, 13, emit);
    cri_decode(size, emit);
    connect_build(size, emit);
    connect_response(size, emit);
    channel_and_hpai(size, 18, emit);
    status_response(size, 19, emit);
    channel_and_hpai(size, 20, emit);
    status_response(size, 21, emit);
    encode_pairs(size, 22, emit);
    connection_header_decode(size, emit);
    tunneling_request_build(size, emit);
    tunneling_request_parse(size, emit);
    tunneling_ack_build(size, emit);
    tunneling_ack_parse(size, emit);
}

/// Buffer lengths up to the last; the sample keeps those around what is needed and some others.
fn buffers(size: Size, need: usize, last: usize) -> Vec<usize> {
    let kept = |&buffer: &usize| {
        size.full() || buffer.abs_diff(need) <= 2 || buffer % 6 == 0 || buffer == last
    };
    (0..=last).filter(kept).collect()
}

fn encode_pairs(size: Size, number: u8, emit: Emit) {
    for pair in PAIRS {
        for buffer in buffers(size, 4, 12) {
            emit(number, &pair, buffer);
        }
    }
}

fn cri_decode(size: Size, emit: Emit) {
    let input = &mut |input: &[u8]| emit(14, input, 0);
    for good in [[4, 4, 2, 0], [4, 255, 0, 255]] {
        each_length(&good, 8, input);
        for at in 0..4 {
            each_byte(size, &good, at, input);
        }
    }
}

pub fn with_length(mut hpai: [u8; 8], length: u8) -> [u8; 8] {
    hpai[0] = length;
    hpai
}

/// The fields of two Hpai: all pairs of length bytes, in the sample each byte once on each side;
/// then zeros, 255s, and sixteen different bytes.
fn endpoints(size: Size) -> Vec<Vec<u8>> {
    let mut endpoints = Vec::new();
    for (i, control) in LENGTHS.into_iter().enumerate() {
        for (j, data) in LENGTHS.into_iter().enumerate() {
            if size.full() || (i + j) % LENGTHS.len() == 0 {
                endpoints.push([with_length(HPAI, control), with_length(DATA, data)].concat());
            }
        }
    }
    endpoints.extend([vec![0; 16], vec![255; 16], (0xA1..=0xB0).collect()]);
    endpoints
}

fn connect_build(size: Size, emit: Emit) {
    for (i, endpoints) in endpoints(size).iter().enumerate() {
        let with_cri = [&endpoints[..], &PAIRS[i % PAIRS.len()]].concat();
        for buffer in buffers(size, 26, 40) {
            emit(15, endpoints, buffer);
            emit(16, &with_cri, buffer);
        }
    }
    for pair in PAIRS {
        emit(16, &[&HPAI[..], &DATA, &pair].concat(), 30);
    }
}

/// The four bytes of the response data are different ones.
fn response(status: u8, hpai_length: u8) -> Vec<u8> {
    [&[0x15, status][..], &with_length(HPAI, hpai_length), &[4, 0x21, 0x43, 0x65]].concat()
}

fn connect_response(size: Size, emit: Emit) {
    let input = &mut |input: &[u8]| emit(17, input, 0);
    for (status, hpai_length) in [(0, 8), (0x24, 8), (0, 7), (0x24, 9)] {
        each_length(&response(status, hpai_length), 20, input);
    }
    // Status, Hpai length and protocol, first byte of the data; in the full set every place.
    for at in (0..14).filter(|at| size.full() || matches!(at, 1..=3 | 10)) {
        each_byte(size, &response(0, 8), at, input);
    }
    for hpai_length in LENGTHS {
        each_byte(size, &response(0, hpai_length), 1, input);
    }
}

fn channel_and_hpai(size: Size, number: u8, emit: Emit) {
    let mut fields = vec![[0; 9], [255; 9]];
    for channel in CHANNELS {
        for length in LENGTHS {
            let mut args = [channel; 9];
            args[1..].copy_from_slice(&with_length(HPAI, length));
            fields.push(args);
        }
    }
    for args in fields {
        for buffer in buffers(size, 16, 30) {
            emit(number, &args, buffer);
        }
    }
}

fn status_response(size: Size, number: u8, emit: Emit) {
    let input = &mut |input: &[u8]| emit(number, input, 0);
    for good in [[0x15, 0], [0x15, 0x21], [0, 0], [0, 255]] {
        each_length(&good, 6, input);
    }
    for at in 0..2 {
        each_byte(size, &[0x15, 0], at, input);
        each_byte(size, &[0xFE, 0x26, 0, 0], at, input);
    }
}

fn connection_header_decode(size: Size, emit: Emit) {
    let input = &mut |input: &[u8]| emit(23, input, 0);
    for good in [[4, 0x15, 7, 0], [4, 0, 255, 255]] {
        each_length(&good, 8, input);
        for at in 0..4 {
            each_byte(size, &good, at, input);
        }
    }
}

fn tunneling_request_build(size: Size, emit: Emit) {
    let request = |pair: [u8; 2], cemi: usize| [&pair[..], &filler(cemi)].concat();
    for cemi in 0..=20 {
        for buffer in buffers(size, 10 + cemi, 10 + cemi + 4) {
            emit(24, &request([0x15, 7], cemi), buffer);
        }
    }
    for pair in PAIRS {
        emit(24, &request(pair, 11), 32);
    }
    // The total length takes a second byte.
    for cemi in 244..=247 {
        for buffer in [cemi + 9, cemi + 10, cemi + 11] {
            emit(24, &request([0x15, 7], cemi), buffer);
        }
    }
    if size.full() {
        for cemi in 65_524..=65_536 {
            for buffer in [0, cemi + 9, cemi + 10, cemi + 11] {
                emit(24, &request([0x15, 7], cemi), buffer);
            }
        }
    }
}

fn tunneling_request_parse(size: Size, emit: Emit) {
    let input = &mut |input: &[u8]| emit(25, input, 0);
    let good = [&[4, 0x15, 7, 0][..], &filler(11)].concat();
    each_length(&good, 20, input);
    for at in 0..5 {
        each_byte(size, &good, at, input);
    }
    for length in 254..=257 {
        input(&filler(length));
    }
}

fn tunneling_ack_build(size: Size, emit: Emit) {
    for (i, status) in STATUSES.into_iter().enumerate() {
        let [channel, sequence] = PAIRS[i];
        for buffer in buffers(size, 11, 20) {
            emit(26, &[channel, sequence, status], buffer);
            emit(26, &[0x15, 7, status], buffer);
        }
    }
}

fn tunneling_ack_parse(size: Size, emit: Emit) {
    let input = &mut |input: &[u8]| emit(27, input, 0);
    for good in [[4, 0x15, 7, 0, 0], [4, 0, 255, 255, 0x29]] {
        each_length(&good, 10, input);
        for at in 0..5 {
            each_byte(size, &good, at, input);
        }
    }
}

// Random records

pub fn random_record(rng: &mut Rng, number: u8, size: Size) -> (Vec<u8>, usize) {
    match number {
        12 => (Vec::new(), 0),
        13 | 22 => (rng.bytes(2), buffer_near(rng, 4)),
        15 | 16 => {
            let mut args = [random_fields(rng), random_fields(rng)].concat();
            if number == 16 {
                args.extend(rng.bytes(2));
            }
            (args, buffer_near(rng, 26))
        }
        18 | 20 => ([vec![rng.byte()], random_fields(rng)].concat(), buffer_near(rng, 16)),
        24 => {
            let cemi = short_body(rng, size);
            ([rng.bytes(2), cemi.clone()].concat(), buffer_near(rng, 10 + cemi.len()))
        }
        26 => (rng.bytes(3), buffer_near(rng, 11)),
        _ => (random_input(rng, number, size), 0),
    }
}

/// A nearly good input of a parse or decode.
fn random_input(rng: &mut Rng, number: u8, size: Size) -> Vec<u8> {
    let (good, among) = match number {
        14 | 23 => (random_structure(rng), 4),
        17 => {
            let start = [rng.byte(), random_status(rng)];
            ([&start[..], &random_fields(rng), &rng.bytes(4)].concat(), 4)
        }
        19 | 21 => (vec![rng.byte(), random_status(rng)], 2),
        25 => ([random_structure(rng), short_body(rng, size)].concat(), 5),
        27 => ([random_structure(rng), vec![random_status(rng)]].concat(), 5),
        _ => panic!("generate_services.rs makes no random record for call {number}"),
    };
    near_good(rng, good, among)
}

/// The fields of an Hpai, one in eight with any two first bytes.
pub fn random_fields(rng: &mut Rng) -> Vec<u8> {
    let start = if rng.below(8) == 0 { rng.bytes(2) } else { HPAI[..2].into() };
    [start, rng.bytes(6)].concat()
}

/// Four bytes: the length 4, two fields, the reserved byte.
fn random_structure(rng: &mut Rng) -> Vec<u8> {
    vec![4, rng.byte(), rng.byte(), 0]
}

pub fn random_status(rng: &mut Rng) -> u8 {
    if rng.below(2) == 0 {
        0
    } else {
        rng.byte()
    }
}
