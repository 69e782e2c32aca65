// The input records of KNX's own forms but for the datagram, which is in generate_tables.rs. The
// helpers of all calls are in generate.rs.

use crate::generate::{
    buffer_near, each_byte, each_length, filler, near_good, Emit, Rng, Size, HPAI,
};
use crate::generate_services::{random_fields, random_status, with_length, PAIRS};

/// Accepted, refused, refused as a gateway without a free channel does, the last one.
const STATUSES: [u8; 4] = [0, 1, 0x24, 255];
/// Length bytes of an Hpai: the good one and its neighbours.
const LENGTHS: [u8; 3] = [8, 7, 9];

/// As gateways answer: one without a free channel, the same with an Hpai behind, one of knxd.
const NO_MORE_CONNECTIONS: [u8; 2] = [0x00, 0x24];
const REFUSED_WITH_HPAI: [u8; 10] = [0x00, 0x24, 0x08, 0x01, 0x7F, 0x00, 0x00, 0x01, 0x0E, 0x57];
const ACCEPTED: [u8; 14] =
    [0x01, 0x00, 0x08, 0x01, 0x7F, 0x00, 0x00, 0x01, 0x0E, 0x57, 0x04, 0x04, 0x11, 0x05];
/// As gateways disconnect: with their endpoint, and with none, behind a translated address.
const DISCONNECTS: [[u8; 10]; 2] = [
    [0x01, 0x00, 0x08, 0x01, 0x7F, 0x00, 0x00, 0x01, 0x0E, 0x57],
    [0x01, 0x00, 0x08, 0x01, 0x00, 0x00, 0x00, 0x00, 0x00, 0x00],
];

// Systematic records

pub fn systematic(size: Size, emit: Emit) {
    acknowledgement_build(size, emit);
    acknowledgement_parse(size, &mut |body| emit(72, body, 0));
    connect_response(size, &mut |body| emit(73, body, 0));
    disconnect_request(size, &mut |body| emit(74, body, 0));
    disconnect_response(size, emit);
}

/// Every buffer up to twice of what is needed; the sample keeps those around it and none.
fn buffers(size: Size, need: usize) -> Vec<usize> {
    let kept = |&n: &usize| size.full() || n == 0 || n.abs_diff(need) <= 1;
    (0..=2 * need).filter(kept).collect()
}

/// A body of this length: the good one, cut or with a tail.
fn of_length(good: &[u8], length: usize) -> Vec<u8> {
    [good, &filler(length)].concat()[..length].into()
}

fn long_bodies(size: Size, good: &[u8], body: &mut dyn FnMut(&[u8])) {
    let lengths = if size.full() { &[255, 256, 257, 512, 65_535, 65_536][..] } else { &[257] };
    lengths.iter().for_each(|&length| body(&of_length(good, length)));
}

/// The lengths of bodies up to 16; the sample keeps those around some.
fn lengths(size: Size, around: &[usize]) -> Vec<usize> {
    let kept = |n: &usize| size.full() || around.iter().any(|middle| middle.abs_diff(*n) <= 1);
    (0..=16).filter(kept).collect()
}

fn acknowledgement_build(size: Size, emit: Emit) {
    for (i, [channel, sequence]) in PAIRS.into_iter().enumerate() {
        for buffer in buffers(size, 10) {
            emit(71, &[channel, sequence, STATUSES[i % STATUSES.len()]], buffer);
        }
    }
    if size.full() {
        (0..3).for_each(|at| each_byte(size, &[0x15, 7, 0], at, &mut |args| emit(71, args, 12)));
    }
}

/// Every length of the good body below what is needed.
fn too_short(good: &[u8], body: &mut dyn FnMut(&[u8])) {
    (0..good.len()).for_each(|length| body(&good[..length]));
}

/// Its length byte is not looked at, nor what stands behind the status.
fn acknowledgement_parse(size: Size, body: &mut dyn FnMut(&[u8])) {
    too_short(&[4, 0x15, 7, 0], body);
    for length in lengths(size, &[4]) {
        for status in STATUSES {
            body(&of_length(&[4, 0x15, 7, status], length));
        }
    }
    // In 01's form the status is the fifth byte.
    for status in STATUSES {
        body(&[4, 0x15, 7, 0, status]);
        body(&[4, 0x15, 7, status, 0]);
    }
    for length_byte in [0, 3, 5, 10, 255] {
        body(&[length_byte, 0x15, 7, 0]);
    }
    if size.full() {
        (0..4).for_each(|at| each_byte(size, &[4, 0x15, 7, 0x29], at, body));
        each_length(&[4, 0, 255, 0x29], 16, body);
    }
    long_bodies(size, &[4, 0x15, 7, 0], body);
}

/// A body with the second byte and an Hpai; the four bytes behind are different ones.
fn with_hpai(second: u8, hpai_length: u8) -> Vec<u8> {
    [&[0x15, second][..], &with_length(HPAI, hpai_length), &[4, 0x21, 0x43, 0x65]].concat()
}

/// Every length with every status and length byte, where the refusals meet; the sample keeps all
/// length bytes with status 0.
fn short_bodies(size: Size, around: &[usize], body: &mut dyn FnMut(&[u8])) {
    for length in lengths(size, around) {
        for second in STATUSES {
            for hpai_length in LENGTHS {
                if size.full() || second == 0 || second == 0x24 && hpai_length == 7 {
                    body(&of_length(&with_hpai(second, hpai_length), length));
                }
            }
        }
    }
}

fn connect_response(size: Size, body: &mut dyn FnMut(&[u8])) {
    [&NO_MORE_CONNECTIONS[..], &REFUSED_WITH_HPAI, &ACCEPTED].into_iter().for_each(&mut *body);
    too_short(&ACCEPTED, body);
    short_bodies(size, &[1, 14], body);
    if size.full() {
        each_length(&ACCEPTED, 20, body);
        each_length(&NO_MORE_CONNECTIONS, 20, body);
        (0..14).for_each(|at| each_byte(size, &with_hpai(0, 8), at, body));
        // What a refused connection's bytes hold does not matter.
        (0..14).for_each(|at| each_byte(size, &with_hpai(0x24, 8), at, body));
        LENGTHS.into_iter().for_each(|n| each_byte(size, &with_hpai(0, n), 1, body));
        each_byte(size, &NO_MORE_CONNECTIONS, 1, body);
    }
    long_bodies(size, &ACCEPTED, body);
    long_bodies(size, &REFUSED_WITH_HPAI, body);
    long_bodies(size, &with_hpai(0, 7), body);
}

fn disconnect_request(size: Size, body: &mut dyn FnMut(&[u8])) {
    DISCONNECTS.iter().for_each(|known| body(known));
    too_short(&DISCONNECTS[0], body);
    short_bodies(size, &[1, 10], body);
    if size.full() {
        each_length(&DISCONNECTS[0], 16, body);
        (0..10).for_each(|at| each_byte(size, &with_hpai(0, 8)[..10], at, body));
    }
    for protocol in [0, 2, 255] {
        body(&[0xFE, 1, 8, protocol, 10, 20, 30, 40, 0x12, 0x34]);
    }
    long_bodies(size, &DISCONNECTS[0], body);
    long_bodies(size, &with_hpai(0, 9), body);
}

fn disconnect_response(size: Size, emit: Emit) {
    for pair in PAIRS {
        for buffer in buffers(size, 8) {
            emit(75, &pair, buffer);
        }
    }
    if size.full() {
        (0..2).for_each(|at| each_byte(size, &[0x15, 0], at, &mut |args| emit(75, args, 10)));
    }
}

// Random records

pub fn random_record(rng: &mut Rng, number: u8) -> (Vec<u8>, usize) {
    match number {
        71 => (rng.bytes(3), buffer_near(rng, 10)),
        72 => (random_acknowledgement(rng), 0),
        73 => (random_response(rng), 0),
        74 => (random_request(rng), 0),
        75 => (rng.bytes(2), buffer_near(rng, 8)),
        _ => panic!("generate_standard_form.rs makes no random record for call {number}"),
    }
}

fn random_acknowledgement(rng: &mut Rng) -> Vec<u8> {
    let good = vec![4, rng.byte(), rng.byte(), random_status(rng)];
    near_good(rng, good, 4)
}

/// Of one that is refused now and then only the start.
fn random_response(rng: &mut Rng) -> Vec<u8> {
    let start = [rng.byte(), random_status(rng)];
    if start[1] != 0 && rng.below(3) == 0 {
        return near_good(rng, start.into(), 2);
    }
    let good = [&start[..], &random_fields(rng), &rng.bytes(4)].concat();
    near_good(rng, good, 4)
}

/// The reserved byte is mostly 0.
fn random_request(rng: &mut Rng) -> Vec<u8> {
    let start = [rng.byte(), if rng.below(4) == 0 { rng.byte() } else { 0 }];
    let good = [&start[..], &random_fields(rng)].concat();
    near_good(rng, good, 4)
}
