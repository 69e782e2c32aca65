// The input records of the standard count: L_Data, cEMI frames that hold it, its builder, and
// records that no parse made. The helpers of all calls are in generate.rs.

use crate::generate::{buffer_near, each_byte, each_length, filler, near_good, Emit, Rng, Size};
use crate::generate_ldata::{
    builder_args, cemi, cemi_inputs, choices, mostly, random_code, random_data, CODES,
};
use crate::generate_made::{ldata_args, random_refusal};

/// A group write of one bit, one of two bytes, and a control packet that opens a connection.
const BIT: [u8; 9] = [0xBC, 0xE0, 0x11, 0x05, 0x08, 0x03, 0x01, 0x00, 0x81];
const TWO_BYTES: [u8; 11] = [0xBC, 0xE0, 0x11, 0x05, 0x08, 0x03, 0x03, 0x00, 0x80, 0x0C, 0x1A];
const CONNECT: [u8; 8] = [0xB0, 0x60, 0x11, 0x05, 0x11, 0x0A, 0x00, 0x80];
/// The heads of two cEMI frames, one without additional information and one with a timestamp.
const HEADS: [&[u8]; 2] = [&[0x29, 0], &[0x11, 4, 4, 2, 0x12, 0x34]];
const UNKNOWN_CODE: u8 = 0x13;

/// Two bytes of each kind, the unnumbered ones with sequence bits too.
const TPCIS: [u8; 8] = [0x00, 0x80, 0x43, 0xC2, 0x3C, 0xBF, 0x7E, 0xFD];
/// The last L of a TP1 standard frame and the last of a data packet are among them.
const LONG_LENGTHS: [u8; 6] = [14, 15, 16, 253, 254, 255];

// The builder's fields: the first value is good, of the codes for one of the two sorts of packets.
const SEQUENCES: [u8; 4] = [15, 0, 16, 255];
const APPLICATION_CODES: [u16; 14] =
    [0x3C0, 0x000, 0x040, 0x080, 0x3C1, 0x400, 0x020, 0xFFC0, 1, 2, 3, 4, 5, 0xFFFF];
const CONTROL_CODES: [u16; 14] =
    [3, 2, 1, 0, 4, 5, 0x40, 0x80, 0x100, 0x103, 0x3C0, 0x3C3, 0xFFC0, 0xFFFF];
const SIX_BITS: [u8; 4] = [63, 0, 64, 255];
const DATA: [usize; 4] = [0, 1, 253, 254];

// Systematic records

pub fn systematic(size: Size, emit: Emit) {
    frames(size, &mut |input| emit(65, input, 0));
    message_codes(size, emit);
    cemi_lengths(size, &mut |input| {
        emit(66, input, 0);
        emit(67, &[&[2], input].concat(), 0);
    });
    builder(size, emit);
    broken_checks(emit);
    control_in_the_old_count(emit);
    made_fields(size, emit);
    made_services(emit);
    held_data(size, emit);
}

/// As gateways send them: BIT, TWO_BYTES, then connect, disconnect and the two acknowledgements.
fn known_frames() -> Vec<Vec<u8>> {
    let control = [0x80, 0x81, 0xC2, 0xC3].map(|tpci| [&CONNECT[..7], &[tpci]].concat());
    [&[BIT.into(), TWO_BYTES.into()], &control[..]].concat()
}

/// An L_Data with this length byte and TPCI byte, in an input of this length.
fn frame(length_byte: u8, tpci: u8, length: usize) -> Vec<u8> {
    let start = [&BIT[..6], &[length_byte, tpci, 0x81]].concat();
    let mut input = [start, filler(length.saturating_sub(9))].concat();
    input.truncate(length);
    input
}

fn each_cut(whole: &[u8], input: &mut dyn FnMut(&[u8])) {
    (0..=whole.len()).for_each(|length| input(&whole[..length]));
}

fn frames(size: Size, input: &mut dyn FnMut(&[u8])) {
    for frame in known_frames() {
        each_cut(&frame, input);
        input(&[&frame[..], &[0x2A]].concat());
    }
    short_inputs(size, input);
    around_the_end(size, input);
    tpci_bytes(size, input);
    application_codes(size, input);
    each_byte(size, &TWO_BYTES, 6, input);
    if size.full() {
        for good in [&TWO_BYTES[..], &CONNECT] {
            each_length(good, 14, input);
            (0..good.len()).for_each(|at| each_byte(size, good, at, input));
        }
    }
}

/// Every short length with every small L, where the refusals meet.
fn short_inputs(size: Size, input: &mut dyn FnMut(&[u8])) {
    for length in (0..=12).filter(|&length| size.full() || matches!(length, 0 | 7..=11)) {
        for length_byte in 0..=if size.full() { 6 } else { 4 } {
            let tpcis = if size.full() { &TPCIS[..] } else { &TPCIS[..2] };
            tpcis.iter().for_each(|&tpci| input(&frame(length_byte, tpci, length)));
        }
    }
}

/// Inputs from a byte before the end to two behind it, also where L is forbidden.
fn around_the_end(size: Size, input: &mut dyn FnMut(&[u8])) {
    for length_byte in (0..=255).filter(|byte| size.full() || LONG_LENGTHS.contains(byte)) {
        let end = 8 + usize::from(length_byte);
        for length in end - 1..=if size.full() { end + 2 } else { end + 1 } {
            let tpcis = if size.full() { &TPCIS[..] } else { &TPCIS[..2] };
            tpcis.iter().for_each(|&tpci| input(&frame(length_byte, tpci, length)));
        }
    }
}

/// Every byte in a frame of each sort, one of them its own, with and without bytes behind; in the
/// sample those with no sequence bit or all of them.
fn tpci_bytes(size: Size, input: &mut dyn FnMut(&[u8])) {
    for tpci in (0..=255u8).filter(|tpci| size.full() || matches!(tpci & 0x3C, 0 | 0x3C)) {
        let own = if tpci < 0x80 { [3, 11] } else { [0, 8] };
        for [length_byte, length] in [[3, 11], [0, 8]] {
            input(&frame(length_byte, tpci, length.into()));
            if size.full() || own == [length_byte, length] {
                input(&frame(length_byte, tpci, usize::from(length) + 3));
            }
        }
    }
}

/// All sixteen codes with all six bits below set; in the full set with all other bits of the first
/// byte and some below.
fn application_codes(size: Size, input: &mut dyn FnMut(&[u8])) {
    for first in 0..=if size.full() { 0x7F } else { 0x03 } {
        for second in [0x3F, 0x7F, 0xBF, 0xFF] {
            input(&[&BIT[..6], &[3, first, second, 0x2A, 0x2B]].concat());
            if size.full() {
                input(&[&BIT[..6], &[3, first, second ^ first >> 2, 0x2A, 0x2B]].concat());
            }
        }
    }
}

/// In the sample one of each sort.
fn some_frames(size: Size) -> Vec<Vec<u8>> {
    if size.full() { known_frames() } else { vec![TWO_BYTES.into(), CONNECT.into()] }
}

/// Every message code and an unknown one, under every code that a record made by hand may hold.
fn message_codes(size: Size, emit: Emit) {
    for frame in some_frames(size) {
        for head in HEADS {
            for code in CODES.into_iter().chain([UNKNOWN_CODE]) {
                let read = [&[code], &head[1..], &frame].concat();
                emit(66, &read, 0);
                if size.full() || head.len() == 2 && frame == TWO_BYTES {
                    (1..=7).for_each(|held| emit(67, &[&[held], &read[..]].concat(), 0));
                }
            }
        }
    }
    for held in 1..=7 {
        emit(67, &[held, 0x29], 0);
        emit(67, &[held, 0x29, 0xFF], 0);
        emit(67, &[held, UNKNOWN_CODE, 5], 0);
    }
}

/// Frames cut at every length, and inputs that end around a long area and around the L_Data behind.
fn cemi_lengths(size: Size, input: &mut dyn FnMut(&[u8])) {
    for frame in some_frames(size) {
        HEADS.iter().for_each(|head| each_cut(&[head, &frame[..]].concat(), input));
    }
    for additional in if size.full() { vec![0, 1, 2, 254, 255] } else { vec![255] } {
        for frame in [&BIT[..], &CONNECT] {
            let whole = cemi(0x2E, additional, &[frame, &[0x2B]].concat());
            let start = 2 + usize::from(additional);
            let ends = (start - 1..=start + 1).chain(start + 7..=whole.len());
            ends.for_each(|end| input(&whole[..end]));
        }
    }
    input(&[0x2D, 0xFF]);
    forbidden_lengths(input);
    if size.full() {
        cemi_inputs(size, input);
    }
}

/// An L that no such packet may have, behind areas of several lengths.
fn forbidden_lengths(input: &mut dyn FnMut(&[u8])) {
    for additional in [0, 1, 4, 255] {
        for (length_byte, tpci) in [(0, 0x00), (255, 0x43), (1, 0x80)] {
            input(&cemi(0x29, additional, &frame(length_byte, tpci, 10)));
        }
    }
}

/// What is needed first, then a byte too few, more, and lengths around the least frame.
fn buffers(need: usize) -> Vec<usize> {
    let others = [0, 7, 8, 9].into_iter().filter(|other| ![need, need - 1].contains(other));
    [need, need - 1, need + 7].into_iter().chain(others).collect()
}

/// Every length of data with every buffer; a control packet has no APCI byte.
fn rooms(kind: u8) -> Vec<(usize, usize)> {
    let head = if kind < 2 { 9 } else { 8 };
    let each = |data: usize| buffers(head + data).into_iter().map(move |buffer| (data, buffer));
    DATA.into_iter().flat_map(each).collect()
}

/// All values of all fields; in the sample one at a time, data and buffer together.
fn builder(size: Size, emit: Emit) {
    for kind in 0..4 {
        let codes = if kind < 2 { APPLICATION_CODES } else { CONTROL_CODES };
        let rooms = rooms(kind);
        let counts = [SEQUENCES.len(), codes.len(), SIX_BITS.len(), rooms.len()];
        for choice in choices(Size::Full, &counts) {
            let others = choice.iter().filter(|&&place| place != 0).count();
            if size.full() || others <= 1 {
                let (sequence, code) = (SEQUENCES[choice[0]], codes[choice[1]]);
                let (six_bits, (data, buffer)) = (SIX_BITS[choice[2]], rooms[choice[3]]);
                let args = builder_args(kind, sequence, code, six_bits, &filler(data));
                emit(68, &args, buffer);
            }
        }
    }
}

/// Every set of checks broken at once: which refusal comes first, and what is not looked at.
fn broken_checks(emit: Emit) {
    for kind in 0..4 {
        for broken in 0..32 {
            let bit = |check: u8| broken >> check & 1;
            let (sequence, six_bits) = (15 + bit(0), 63 + bit(2));
            let (code, data, need) = if kind < 2 {
                let data = [2, 254][usize::from(bit(3))];
                (0x3C0 + u16::from(bit(1)), data, 9 + data)
            } else {
                (3 + u16::from(bit(1)), [0, 254][usize::from(bit(3))], 8)
            };
            let args = builder_args(kind, sequence, code, six_bits, &filler(data));
            emit(68, &args, need - usize::from(bit(4)));
        }
    }
}

/// What this count builds and 01's does not: 01's builder refuses it all the same.
fn control_in_the_old_count(emit: Emit) {
    for kind in 2..4 {
        for code in 0..4 {
            emit(45, &builder_args(kind, 5, code, 0, &[]), 12);
        }
    }
}

/// Around the least and the greatest; in the full set every one up to 12.
fn some_lengths(size: Size) -> Vec<u8> {
    let small = (0..=12).filter(|byte| size.full() || matches!(byte, 0..=2 | 12));
    small.chain([254, 255]).collect()
}

/// Every L for every kind, over slices around the least frame and around the end; every slice that
/// is too short.
fn made_fields(size: Size, emit: Emit) {
    (0..8).for_each(|n| emit(69, &ldata_args(0xE0, 1, 0, 3, 0, &filler(n)), 0));
    for length_byte in some_lengths(size) {
        let end = 8 + usize::from(length_byte);
        let short = (0..=20).filter(|n| size.full() || matches!(n, 7..=10 | 20));
        let long = (end - 1..=end + 1).filter(|&n| n > 20);
        for n in short.chain(long) {
            for kind in 0..4 {
                emit(69, &ldata_args(0xE0, length_byte, kind, 3, 0, &filler(n)), 0);
            }
        }
    }
}

/// Every service by its name and a control code, in packets of both sorts; `Unknown` and a control
/// code with codes of named services too.
fn made_services(emit: Emit) {
    for control2 in [0xE0, 0x60] {
        for (length_byte, kind) in [(3, 0), (0, 2)] {
            let mut each = |apci: u8, code: u16| {
                emit(69, &ldata_args(control2, length_byte, kind, apci, code, &filler(12)), 0);
            };
            (0..=14).for_each(|apci| each(apci, 0x080));
            [0x000, 0x040].into_iter().for_each(|code| each(0, code));
            (0..=3).for_each(|code| each(14, code));
        }
    }
}

/// A record that holds its data: every answer that it may hold, then every L for every kind.
fn held_data(size: Size, emit: Emit) {
    for refused in 1..=14 {
        emit(70, &[refused, 3, 0, 0, 0x0C, 0x1A], 0);
        emit(70, &[refused, 0, 2, 0], 0);
    }
    // It comes first where the fields are broken too.
    [1, 2, 14].into_iter().for_each(|refused| emit(70, &[refused, 0, 0, 0], 0));
    for length_byte in some_lengths(size) {
        let least = usize::from(length_byte).saturating_sub(1);
        let short = (0..=12).filter(|n| size.full() || matches!(n, 0..=2 | 11));
        let long = (least.saturating_sub(1)..=least + 1).filter(|&n| n > 12);
        for n in short.chain(long) {
            for kind in 0..4 {
                emit(70, &[&[0, length_byte, kind, 9][..], &filler(n)].concat(), 0);
            }
        }
    }
}

// Random records

pub fn random_record(rng: &mut Rng, number: u8) -> (Vec<u8>, usize) {
    match number {
        65 => (random_frame(rng), 0),
        66 => (random_cemi(rng), 0),
        67 => ([vec![1 + mostly(rng, 3, CODES.len()) as u8], random_cemi(rng)].concat(), 0),
        68 => random_builder(rng),
        69 => (random_fields(rng), 0),
        70 => (random_held(rng), 0),
        _ => panic!("generate_standard.rs makes no random record for call {number}"),
    }
}

/// Any fields of either sort; the end is mostly that of the input, now and then near the least.
fn random_frame(rng: &mut Rng) -> Vec<u8> {
    let mut input = rng.bytes(8);
    if rng.below(3) == 0 {
        input[7] |= 0x80;
    } else {
        input[7] &= 0x7F;
        input.push(rng.byte());
        input.extend(random_data(rng));
    }
    let length = if rng.below(8) == 0 { rng.below(4) } else { input.len() - 8 };
    input[6] = length.min(255) as u8;
    near_good(rng, input, 9)
}

fn random_cemi(rng: &mut Rng) -> Vec<u8> {
    let additional = [0, 0, 0, 1, 2, 4, 9, 255][rng.below(8)];
    let good = cemi(random_code(rng), additional, &random_frame(rng));
    near_good(rng, good, 2)
}

/// Mostly fields that the builder takes.
fn random_builder(rng: &mut Rng) -> (Vec<u8>, usize) {
    let (kind, sequence) = (rng.below(4) as u8, mostly(rng, 16, 256) as u8);
    let six_bits = mostly(rng, 64, 256) as u8;
    let (head, code, data) = if kind < 2 {
        (9, mostly(rng, 16, 1_024) << 6 | mostly(rng, 1, 64), random_data(rng))
    } else {
        let data = if rng.below(8) == 0 { random_data(rng) } else { Vec::new() };
        (8, mostly(rng, 4, 65_536), data)
    };
    let mut args = builder_args(kind, sequence, code as u16, six_bits, &data);
    args[..6].copy_from_slice(&rng.bytes(6));
    (args, buffer_near(rng, head + data.len()))
}

/// An L for this kind, mostly near the one with this end; mostly 0 for a control packet.
fn random_length(rng: &mut Rng, kind: u8, end: usize) -> u8 {
    if rng.below(8) == 0 {
        rng.byte()
    } else if kind < 2 {
        (end + rng.below(4)).saturating_sub(10) as u8
    } else {
        mostly(rng, 1, 3) as u8
    }
}

fn random_fields(rng: &mut Rng) -> Vec<u8> {
    let count = rng.below(24);
    let slice = rng.bytes(count);
    let mut args = rng.bytes(12);
    args[7] = rng.below(4) as u8;
    args[6] = random_length(rng, args[7], slice.len());
    args[9] = rng.below(15) as u8;
    [args, slice].concat()
}

fn random_held(rng: &mut Rng) -> Vec<u8> {
    let count = rng.below(24);
    let held = rng.bytes(count);
    let kind = rng.below(4) as u8;
    let length_byte = random_length(rng, kind, 9 + held.len());
    let fields = [random_refusal(rng), length_byte, kind, rng.byte()];
    [&fields[..], &held].concat()
}
