// The input records of the twisted pair: cEMI frames to export, TP1 frames to import. The helpers
// of all calls are in generate.rs.

use crate::generate::{buffer_near, filler, near_good, Emit, Rng, Size};
use crate::generate_ldata::{cemi, mostly, random_code, CODES};
use crate::tp1::KNXD;

/// The last L that a TP1 frame can say.
const LAST: u8 = 15;
/// A buffer that holds every frame of either side.
const ROOM: usize = 30;

/// The TPCI bytes of both sorts of packets, the unnumbered ones with sequence bits too.
const DATA: [u8; 5] = [0x00, 0x04, 0x3F, 0x43, 0x7E];
const CONTROL: [u8; 5] = [0x80, 0x84, 0xBF, 0xC6, 0xFD];

/// Message codes of the sample: the known ones, then neighbours and ends.
const SOME_CODES: [u8; 11] = [0x11, 0x29, 0x2E, 0x10, 0x2D, 0x2F, 0x2B, 0x12, 0x28, 0x00, 0xFF];

/// Takes a cEMI frame and the length of the lent buffer.
type Export<'a> = &'a mut dyn FnMut(&[u8], usize);
/// Takes a message code, a TP1 frame and the length of the lent buffer.
type Import<'a> = &'a mut dyn FnMut(u8, &[u8], usize);

// Frames

/// Of this L and TPCI byte, good where they go together and L is not above the last.
fn cemi_frame(length: u8, tpci: u8) -> Vec<u8> {
    let start = [0x29, 0, 0xBF, 0xE0, 0x11, 0x05, 0x08, 0x03, length, tpci];
    [&start[..], &filler(length.into())].concat()
}

fn tp1_frame(length: u8, tpci: u8) -> Vec<u8> {
    let start = [0xBC, 0x11, 0x05, 0x08, 0x03, 0xE0 | length, tpci];
    checked([&start[..], &filler(length.into())].concat())
}

/// With the check byte of these bytes behind them.
fn checked(mut bytes: Vec<u8>) -> Vec<u8> {
    bytes.push(bytes.iter().fold(0xFF, |rest, byte| rest ^ byte));
    bytes
}

/// The frame with another byte at a place before the check byte, which is right all the same.
fn with(good: &[u8], at: usize, byte: u8) -> Vec<u8> {
    let mut bytes = good[..good.len() - 1].to_vec();
    bytes[at] = byte;
    checked(bytes)
}

/// The check byte is another one.
fn unchecked(mut frame: Vec<u8>) -> Vec<u8> {
    *frame.last_mut().expect("a frame with a check byte") ^= 0x40;
    frame
}

/// A TPCI byte that a packet with this L may have, and one that it may not.
fn own_and_other(length: u8) -> [u8; 2] {
    let (data, control) = (DATA[usize::from(length) % 5], CONTROL[usize::from(length) % 5]);
    if length == 0 { [control, data] } else { [data, control] }
}

fn own(length: u8) -> u8 {
    own_and_other(length)[0]
}

// What is tried

/// Every L with every TPCI byte of the lists; in the sample with one of each sort.
fn packets(size: Size, lengths: impl Iterator<Item = u8>) -> Vec<(u8, u8)> {
    let tpcis = |length| match size {
        Size::Full => [DATA, CONTROL].concat(),
        Size::Sample => own_and_other(length).into(),
    };
    lengths.flat_map(|length| tpcis(length).into_iter().map(move |tpci| (length, tpci))).collect()
}

/// What is needed, a byte too few, one more and none. The sample has all of them for the first L
/// and around the last, two for the others, and one for a packet of the other sort.
fn buffers(size: Size, length: u8, tpci: u8, need: usize) -> Vec<usize> {
    let kept = match length {
        _ if size.full() => 4,
        _ if tpci != own(length) => 1,
        0 | LAST | 16 => 4,
        _ => 2,
    };
    [need, need - 1, need + 1, 0][..kept].into()
}

/// Lengths that would be too short in eight bits, or in sixteen.
fn far_buffers(size: Size) -> &'static [usize] {
    if size.full() { &[260, 65_540] } else { &[260] }
}

/// All values of a byte; in the sample those with one bit changed.
fn values(size: Size, good: u8) -> Vec<u8> {
    match size {
        Size::Full => (0..=255).collect(),
        Size::Sample => (0..8).map(|bit| good ^ 1 << bit).collect(),
    }
}

fn codes(size: Size) -> Vec<u8> {
    if size.full() { (0..=255).collect() } else { SOME_CODES.into() }
}

/// Every set of so many checks, as bits; in the sample those of at most two.
fn sets(size: Size, checks: u32) -> Vec<u16> {
    (0..1 << checks).filter(|set: &u16| size.full() || set.count_ones() <= 2).collect()
}

// Systematic records

pub fn systematic(size: Size, emit: Emit) {
    known_frames(emit);
    export(size, &mut |cemi, buffer| emit(77, cemi, buffer));
    import(size, &mut |code, tp1, buffer| emit(78, &[&[code], tp1].concat(), buffer));
    held_refusals(emit);
}

/// Those of a real gateway, in buffers that just hold them.
fn known_frames(emit: Emit) {
    for (cemi, tp1) in KNXD {
        emit(77, cemi, tp1.len());
        for &code in &CODES[..3] {
            emit(78, &[&[code], tp1].concat(), cemi.len());
        }
    }
}

/// A record made by hand may hold the new number too, over good fields and over broken ones. The
/// records that hold another one come with their calls, and stay as they are.
fn held_refusals(emit: Emit) {
    const WRONG_CHECK_BYTE: u8 = 15;
    emit(56, &[WRONG_CHECK_BYTE, 6, 0x10, 7, 0, 9, 1, 2, 3, 4, 5, 6, 7, 8, 9], 0);
    emit(56, &[WRONG_CHECK_BYTE, 5, 0x20, 7, 0, 5, 1, 2, 3], 0);
    emit(57, &[WRONG_CHECK_BYTE, 3, 0, 0, 0x2A], 0);
    emit(57, &[WRONG_CHECK_BYTE, 1, 0, 0], 0);
    emit(70, &[WRONG_CHECK_BYTE, 3, 0, 0, 0x0C, 0x1A], 0);
    emit(70, &[WRONG_CHECK_BYTE, 0, 0, 0], 0);
}

// Export

fn export(size: Size, record: Export) {
    export_lengths(size, record);
    export_bytes(size, record);
    export_codes(size, record);
    export_areas(size, record);
    export_cuts_and_tails(size, record);
    export_orders(size, record);
}

/// An L above the last is refused before the buffer is asked.
fn export_lengths(size: Size, record: Export) {
    for (length, tpci) in packets(size, (0..=LAST + 2).chain([254, 255])) {
        for buffer in buffers(size, length, tpci, 8 + usize::from(length)) {
            record(&cemi_frame(length, tpci), buffer);
        }
    }
    far_buffers(size).iter().for_each(|&buffer| record(&cemi_frame(1, 0x00), buffer));
}

/// Every byte of a data packet and of a control packet; in the sample the control bytes and L of
/// the first, L and TPCI of the second.
fn export_bytes(size: Size, record: Export) {
    for (length, some) in [(1, &[2, 3, 8][..]), (0, &[8, 9])] {
        let good = cemi_frame(length, own(length));
        for at in (0..good.len()).filter(|at| size.full() || some.contains(at)) {
            for byte in values(size, good[at]) {
                let mut changed = good.clone();
                changed[at] = byte;
                record(&changed, ROOM);
            }
        }
    }
}

/// A code without a byte behind it is too short; else it decides before an area past the end.
fn export_codes(size: Size, record: Export) {
    for code in codes(size) {
        record(&[&[code], &cemi_frame(LAST, 0x00)[1..]].concat(), ROOM);
        if size.full() || code == 0x2D {
            record(&[code], ROOM);
            record(&[code, 255], ROOM);
        }
    }
}

/// A lone type byte, a timestamp and a long area that is not readable; in the full set others too.
fn areas(size: Size) -> Vec<Vec<u8>> {
    let longest = [&[5, 253][..], &filler(253)].concat();
    let some = vec![vec![5], vec![4, 2, 0x12, 0x34], filler(255)];
    let others = vec![vec![], vec![4, 0], filler(4), longest];
    if size.full() { [some, others].concat() } else { some }
}

/// Refused, readable or not; and inputs that end around the area and around the L_Data behind it,
/// whose own refusals come first.
fn export_areas(size: Size, record: Export) {
    for area in areas(size) {
        for length in if size.full() { vec![2, 0, 16] } else { vec![2] } {
            let ldata = &cemi_frame(length, own(length))[2..];
            let whole = [&[0x29, area.len() as u8], &area[..], ldata, &[0x2B]].concat();
            let start = 2 + area.len();
            let ends = (start - 1..=start + 1).chain(start + 7..=whole.len());
            ends.for_each(|end| record(&whole[..end], ROOM));
        }
    }
}

/// Every L in inputs of every length up to its end, and with bytes behind it, which are dropped.
fn export_cuts_and_tails(size: Size, record: Export) {
    for length in (0..=LAST + 1).filter(|length| size.full() || matches!(length, 0 | 2 | 15)) {
        let good = cemi_frame(length, own(length));
        if size.full() || length == 2 {
            (0..good.len()).for_each(|end| record(&good[..end], ROOM));
        }
        let tails = if size.full() { &[1, 2, 30, 250, 65_536][..] } else { &[3] };
        for &tail in tails {
            record(&[&good[..], &filler(tail)].concat(), ROOM);
        }
    }
}

/// Several checks broken at once: which refusal comes first.
fn export_orders(size: Size, record: Export) {
    for set in sets(size, 8) {
        let broken = |check: u8| usize::from(set >> check & 1);
        let tpci = [0x00, 0x80][broken(0)];
        let length = [3, 16][broken(1)];
        let mut ldata = cemi_frame(length, tpci).split_off(2);
        ldata[0] ^= [0, 0x40][broken(2)];
        ldata[1] |= [0, 0x04][broken(3)];
        let mut input = cemi([0x29, 0x2B][broken(4)], broken(5) as u8, &ldata);
        input.truncate(input.len() - broken(6));
        record(&input, [8 + usize::from(length), 7][broken(7)]);
    }
}

// Import

fn import(size: Size, record: Import) {
    import_lengths(size, record);
    import_codes(size, record);
    control_bytes(size, record);
    sixth_bytes(size, record);
    tpci_bytes(size, record);
    lengths_and_ends(size, record);
    long_inputs(size, record);
    damaged(size, record);
    exchanged(size, record);
    import_orders(size, record);
}

/// Every L, the check byte right: also a data packet without its APCI byte, and a control packet
/// with bytes behind TPCI.
fn import_lengths(size: Size, record: Import) {
    for (length, tpci) in packets(size, 0..=LAST) {
        let code = CODES[usize::from(length) % 3];
        for buffer in buffers(size, length, tpci, 10 + usize::from(length)) {
            record(code, &tp1_frame(length, tpci), buffer);
        }
    }
    far_buffers(size).iter().for_each(|&buffer| record(0x29, &tp1_frame(1, 0x00), buffer));
}

/// A message code decides before the frame, which is good or empty.
fn import_codes(size: Size, record: Import) {
    for code in codes(size) {
        record(code, &tp1_frame(LAST, 0x00), ROOM);
        if size.full() || code == 0x2D {
            record(code, &[], ROOM);
        }
    }
}

/// With a right check byte and with a wrong one, in packets of both sorts; in the sample right, in
/// a data packet.
fn control_bytes(size: Size, record: Import) {
    for length in if size.full() { vec![1, 0] } else { vec![1] } {
        let good = tp1_frame(length, own(length));
        for control in values(size, good[0]) {
            let frame = with(&good, 0, control);
            record(0x29, &frame, ROOM);
            if size.full() {
                record(0x29, &unchecked(frame), ROOM);
            }
        }
    }
}

/// Destination type, hop count and L, with a right check byte: in the sample all of the first two,
/// and the neighbours of L.
fn sixth_bytes(size: Size, record: Import) {
    for length in if size.full() { vec![0, 1, 3, LAST] } else { vec![3] } {
        let good = tp1_frame(length, own(length));
        for byte in 0..=255u8 {
            if size.full() || matches!((byte >> 4, byte & 0x0F), (_, 3) | (0x0E, 2 | 4)) {
                record(0x11, &with(&good, 5, byte), ROOM);
            }
        }
    }
}

/// In a frame that only a control packet may have, in the full set also in one that only a data
/// packet may.
fn tpci_bytes(size: Size, record: Import) {
    for length in if size.full() { vec![0, 2] } else { vec![0] } {
        let good = tp1_frame(length, own(length));
        for tpci in values(size, good[6]) {
            record(0x2E, &with(&good, 6, tpci), ROOM);
        }
    }
}

/// A frame of so many bytes, the last of them a right check byte, that says this L.
fn of_length(length: usize, says: u8) -> Vec<u8> {
    let long = [&tp1_frame(says, own(says))[..7], &filler(length)].concat();
    checked(long[..length - 1].into())
}

/// Whether the sample keeps an input of this length that says this L: where they agree, some where
/// they differ by one, and those that are too short.
fn kept(length: usize, says: u8) -> bool {
    let difference = length.abs_diff(8 + usize::from(says));
    difference == 0 || difference == 1 && matches!(length, 9 | 23 | 24) || length < 8 && says == 0
}

/// Inputs of every length with every L that a frame can say, the check byte right, then wrong; in
/// the sample wrong where length and L agree.
fn lengths_and_ends(size: Size, record: Import) {
    record(0x29, &[], ROOM);
    for length in 1..=25 {
        for says in (0..=LAST).filter(|&says| size.full() || kept(length, says)) {
            let frame = of_length(length, says);
            record(0x29, &frame, ROOM);
            if size.full() || length == 8 + usize::from(says) {
                record(0x29, &unchecked(frame), ROOM);
            }
        }
    }
    one_byte_behind(size, record);
}

/// Behind a good frame 0 is the check byte of all bytes before it.
fn one_byte_behind(size: Size, record: Import) {
    for length in (0..=LAST).filter(|length| size.full() || matches!(length, 0 | 15)) {
        for behind in [0x00, 0x2A] {
            record(0x11, &[&tp1_frame(length, own(length))[..], &[behind]].concat(), ROOM);
        }
    }
}

/// Lengths that agree with L in eight bits, or in sixteen, but not whole.
fn long_inputs(size: Size, record: Import) {
    for surplus in if size.full() { vec![16, 256, 512, 65_536] } else { vec![256] } {
        for says in [0, 1, LAST] {
            let length = 8 + usize::from(says) + surplus;
            record(0x29, &of_length(length, says), ROOM);
        }
    }
}

/// The bits that are changed at a place: in the sample one, going round, and all of them.
fn changes(size: Size, at: usize) -> Vec<u8> {
    match size {
        Size::Full => vec![1, 2, 4, 8, 16, 32, 64, 128, 0x03, 0x90, 0xFF],
        Size::Sample if at % 8 == 7 => vec![1 << at % 8, 0xFF],
        Size::Sample => vec![1 << at % 8],
    }
}

fn each_change(good: &[u8], at: usize, changes: Vec<u8>, record: Import) {
    for bits in changes {
        let mut damaged = good.to_vec();
        damaged[at] ^= bits;
        record(0x29, &damaged, ROOM);
    }
}

/// One byte changed, at every place of good frames; in the full set two frames of a real gateway to
/// every other value.
fn damaged(size: Size, record: Import) {
    for length in (0..=LAST).filter(|length| size.full() || matches!(length, 0 | 1 | 15)) {
        let good = tp1_frame(length, own(length));
        (0..good.len()).for_each(|at| each_change(&good, at, changes(size, at), record));
    }
    if size.full() {
        for (_, tp1) in &KNXD[..2] {
            (0..tp1.len()).for_each(|at| each_change(tp1, at, (1..=255).collect(), record));
        }
    }
}

/// Two neighbours in each other's place: the check byte stays right, unless it is one of them.
fn exchanged(size: Size, record: Import) {
    for length in (0..=LAST).filter(|&length| size.full() || length == 3) {
        let good = tp1_frame(length, own(length));
        for at in 1..good.len() {
            let mut other = good.clone();
            other.swap(at - 1, at);
            record(0x29, &other, ROOM);
        }
    }
}

/// Several checks broken at once: which refusal comes first.
fn import_orders(size: Size, record: Import) {
    for set in sets(size, 7) {
        let broken = |check: u8| usize::from(set >> check & 1);
        let (length, tpci) = (3, [0x00, 0x80][broken(0)]);
        let mut frame = with(&tp1_frame(length, tpci), 0, [0xBC, 0xBD][broken(1)]);
        frame = with(&frame, 5, 0xE0 | length + broken(2) as u8);
        if broken(3) == 1 {
            frame = checked(frame[..6].into());
        }
        if broken(4) == 1 {
            frame = unchecked(frame);
        }
        record([0x11, 0x10][broken(5)], &frame, [13, 12][broken(6)]);
    }
}

// Random records

pub fn random_record(rng: &mut Rng, number: u8) -> (Vec<u8>, usize) {
    match number {
        77 => random_export(rng),
        78 => random_import(rng),
        _ => panic!("generate_tp1.rs makes no random record for call {number}"),
    }
}

/// Any byte, one time in eight; else one with bits 7 and 4 set and bit 6 clear.
fn random_control(rng: &mut Rng) -> u8 {
    let byte = rng.byte();
    if rng.below(8) == 0 { byte } else { byte & 0x2F | 0x90 }
}

/// TPCI on to the end of data: a control packet one time in five, else with an L up to the last.
fn random_packet(rng: &mut Rng, last: usize) -> Vec<u8> {
    if rng.below(5) == 0 {
        return vec![rng.byte() | 0x80];
    }
    let length = rng.between(1, last);
    [vec![rng.byte() & 0x7F], rng.bytes(length)].concat()
}

/// As it is one time in two.
fn often_good(rng: &mut Rng, input: Vec<u8>, among: usize) -> Vec<u8> {
    if rng.below(2) == 0 { input } else { near_good(rng, input, among) }
}

/// Mostly what a TP1 frame can say, without additional information.
fn random_export(rng: &mut Rng) -> (Vec<u8>, usize) {
    let last = if rng.below(8) == 0 { 254 } else { LAST.into() };
    let packet = random_packet(rng, last);
    let length = packet.len() - 1;
    let control2 = rng.below(16) << 4 | mostly(rng, 1, 16);
    let addresses = rng.bytes(4);
    let head = [&[random_control(rng), control2 as u8], &addresses[..], &[length as u8]].concat();
    let additional = if rng.below(16) == 0 { rng.below(9) } else { 0 };
    let good = cemi(random_code(rng), additional as u8, &[head, packet].concat());
    (often_good(rng, good, 10), buffer_near(rng, 8 + length))
}

/// Damaged before it has its check byte, or behind; or good.
fn random_import(rng: &mut Rng) -> (Vec<u8>, usize) {
    let packet = random_packet(rng, LAST.into());
    let length = packet.len() - 1;
    let control = if rng.below(8) == 0 { rng.byte() } else { random_control(rng) & 0xFC };
    let addresses = rng.bytes(4);
    let sixth = rng.below(16) << 4 | length;
    let good = [&[control], &addresses[..], &[sixth as u8], &packet].concat();
    let frame = if rng.below(4) == 0 {
        checked(near_good(rng, good, 7))
    } else {
        often_good(rng, checked(good), usize::MAX)
    };
    let code = if rng.below(8) == 0 { rng.byte() } else { CODES[rng.below(3)] };
    ([vec![code], frame].concat(), buffer_near(rng, 10 + length))
}
