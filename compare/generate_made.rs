// The input records of accessors on records that no parse made; the helpers are in generate.rs.

use crate::generate::{filler, header, near_good, Emit, Rng, Size};
use crate::generate_ldata::{cemi_inputs, random_cemi, LDATA};

/// The values of a field: the good one first.
const LENGTHS: [u8; 3] = [6, 5, 0];
const VERSIONS: [u8; 3] = [0x10, 0x20, 0x11];
const TOTALS: [u16; 8] = [9, 6, 5, 0, 7, 11, 12, 13];

const APCI_CODES: [u16; 4] = [0x080, 0x000, 0x040, 0x2C0];

// Systematic records

pub fn systematic(size: Size, emit: Emit) {
    frames(size, emit);
    cemi(size, emit);
    ldata(size, emit);
    ldata_services(emit);
    held_frames(emit);
    held_data(size, emit);
}

/// Every length of the slice, and every check broken, alone and with others.
fn each_frame(size: Size, record: &mut dyn FnMut(&[u8], &[u8])) {
    let kept = |place: usize| size.full() || place < 2;
    for (i, length) in LENGTHS.into_iter().enumerate().filter(|&(i, _)| kept(i)) {
        for (j, version) in VERSIONS.into_iter().enumerate().filter(|&(j, _)| kept(j)) {
            for (k, total) in TOTALS.into_iter().enumerate() {
                for n in 0..=12 {
                    let [high, low] = total.to_be_bytes();
                    let service = 1 + ((i + j + k + n) % 8) as u8;
                    record(&[length, version, service, high, low], &filler(n));
                }
            }
        }
    }
}

/// The slice's own bytes decide nothing: a good frame in it under bad fields, and the other way.
fn frames(size: Size, emit: Emit) {
    each_frame(size, &mut |fields, slice| emit(52, &[fields, slice].concat(), 0));
    let good = [header(0x0420, 9), filler(3)].concat();
    for fields in [[6, 0x10, 7, 0, 9], [5, 0x10, 7, 0, 9], [6, 0x20, 8, 0, 9], [6, 0x10, 1, 0, 5]] {
        emit(52, &[&fields[..], &good].concat(), 0);
        emit(52, &[&fields[..], &[0xFF; 9]].concat(), 0);
    }
}

/// Every message code, by its number, over the slices of calls 41 to 44, and over short ones; in the
/// sample two codes over all of them.
fn cemi(size: Size, emit: Emit) {
    for code in 1..=7 {
        let both = &mut |slice: &[u8]| {
            emit(53, &[&[code], slice].concat(), 0);
            emit(54, &[&[code], slice].concat(), 0);
        };
        both(&[0x13, 5]);
        both(&[&[0x29, 1, 0xAA][..], &LDATA].concat());
        if !size.full() && !(3..=4).contains(&code) {
            continue;
        }
        cemi_inputs(size, both);
        for first in [0x11, 0x2B, 0x13] {
            for additional in [0, 1, 5, 10, 11, 255] {
                let long = [&[first, additional][..], &filler(10)].concat();
                (0..=12).for_each(|n| both(&long[..n]));
            }
        }
    }
}

/// Control 2, destination, L, kind, sequence, APCI by its number and `Unknown`'s code, the slice.
pub fn ldata_args(control2: u8, npdu: u8, kind: u8, apci: u8, code: u16, slice: &[u8]) -> Vec<u8> {
    let [high, low] = code.to_be_bytes();
    let fields = [0x94, control2, 0x11, 0x05, 0x08, 0x03, npdu, kind, 5, apci, high, low];
    [&fields[..], slice].concat()
}

fn ldata(size: Size, emit: Emit) {
    for npdu in 0..=12 {
        for kind in 0..4 {
            for n in (0..=20).filter(|n| size.full() || (7..=12).contains(n) || n % 4 == 0) {
                emit(55, &ldata_args(0xE0, npdu, kind, 3, 0, &filler(n)), 0);
            }
        }
    }
}

/// Every service by its name, and `Unknown` with the codes of named ones.
fn ldata_services(emit: Emit) {
    for control2 in [0xE0, 0x60] {
        for apci in 0..=13 {
            emit(55, &ldata_args(control2, 3, 0, apci, 0x080, &filler(10)), 0);
        }
        for code in APCI_CODES {
            emit(55, &ldata_args(control2, 3, 0, 0, code, &filler(10)), 0);
        }
    }
}

/// A record that holds its slice: every answer that it may hold, then every check.
fn held_frames(emit: Emit) {
    for refused in 1..=14 {
        emit(56, &[refused, 6, 0x10, 7, 0, 9, 1, 2, 3, 4, 5, 6, 7, 8, 9], 0);
        emit(57, &[refused, 3, 0, 0, 0x2A], 0);
    }
    // It comes first where the fields are broken too.
    for refused in [1, 2, 14] {
        emit(56, &[refused, 5, 0x20, 7, 0, 5, 1, 2, 3], 0);
        emit(57, &[refused, 1, 0, 0], 0);
    }
    each_frame(Size::Sample, &mut |fields, held| emit(56, &[&[0], fields, held].concat(), 0));
}

fn held_data(size: Size, emit: Emit) {
    for npdu in (0..=12).chain([255]) {
        for kind in 0..4 {
            for n in (0..=12).filter(|n| size.full() || n % 3 != 2) {
                emit(57, &[&[0, npdu, kind, 9][..], &filler(n)].concat(), 0);
            }
        }
    }
}

// Random records

pub fn random_record(rng: &mut Rng, number: u8) -> (Vec<u8>, usize) {
    let args = match number {
        52 => random_frame(rng),
        53 | 54 => [vec![1 + rng.below(7) as u8], random_cemi(rng)].concat(),
        55 => random_ldata(rng),
        56 => [vec![random_refusal(rng)], random_frame(rng)].concat(),
        57 => random_held(rng),
        _ => panic!("generate_made.rs makes no random record for call {number}"),
    };
    (args, 0)
}

/// Mostly a record whose total length is near that of the slice.
fn random_frame(rng: &mut Rng) -> Vec<u8> {
    let count = rng.below(24);
    let slice = rng.bytes(count);
    let total = (slice.len() + rng.below(5)).saturating_sub(2) as u16;
    let [high, low] = total.to_be_bytes();
    let service = 1 + rng.below(8) as u8;
    let fields = near_good(rng, vec![6, 0x10], 2);
    let [length, version] = [0, 1].map(|at| fields.get(at).copied().unwrap_or(0));
    [&[length, version, service, high, low][..], &slice].concat()
}

fn random_ldata(rng: &mut Rng) -> Vec<u8> {
    let count = rng.below(24);
    let slice = rng.bytes(count);
    let npdu = (slice.len() + rng.below(4)).saturating_sub(9) as u8;
    let mut args = rng.bytes(12);
    args[6] = if rng.below(8) == 0 { rng.byte() } else { npdu };
    args[7] = rng.below(4) as u8;
    args[9] = rng.below(14) as u8;
    [args, slice].concat()
}

pub fn random_refusal(rng: &mut Rng) -> u8 {
    if rng.below(8) == 0 { 1 + rng.below(14) as u8 } else { 0 }
}

fn random_held(rng: &mut Rng) -> Vec<u8> {
    let count = rng.below(24);
    let held = rng.bytes(count);
    let npdu = (held.len() + rng.below(5)) as u8;
    let fields = [random_refusal(rng), npdu, rng.below(4) as u8, rng.byte()];
    [&fields[..], &held].concat()
}
