// The input records of additional information: areas, their readers and writers, and the cEMI frames
// that hold one. The helpers of all calls are in generate.rs.

use crate::generate::{buffer_near, each_byte, filler, near_good, Emit, Rng, Size};
use crate::generate_ldata::{random_cemi, random_code, CODES, LDATA};

const RELATIVE: u8 = 4;
const EXTENDED: u8 = 6;

/// Every named type, then some without a name.
const TYPES: [u8; 10] = [1, 2, 3, RELATIVE, 5, EXTENDED, 7, 8, 0x99, 0x00];
const LENGTHS: [usize; 7] = [0, 1, 2, 3, 4, 5, 253];
/// The last n that an argument can name.
const LAST: usize = 0xFF_FFFF;
/// How an area may end: readable, by a lone type byte, by a record past the end.
const ENDS: [&[u8]; 3] = [&[], &[5], &[5, 1]];

// Areas

fn record(kind: u8, data: &[u8]) -> Vec<u8> {
    [&[kind, data.len() as u8], data].concat()
}

fn timestamp() -> Vec<u8> {
    record(RELATIVE, &[0x12, 0x34])
}

/// Records that fill exactly so many bytes, but for 1; no lone byte is left for the last.
fn row_of(length: usize) -> Vec<Vec<u8>> {
    let mut row = Vec::new();
    let mut left = length;
    while left > 0 {
        let taken = if left <= 64 { left } else { 62 };
        row.push(record(TYPES[row.len() % TYPES.len()], &filler(taken - 2)));
        left -= taken;
    }
    row
}

/// A readable area with each of the ends.
fn each_end(good: &[u8]) -> [Vec<u8>; 3] {
    ENDS.map(|end| [good, end].concat())
}

/// Three areas of so many bytes, one for each of the ends.
fn of_length(length: usize) -> [Vec<u8>; 3] {
    ENDS.map(|end| [&row_of(length - end.len()).concat(), end].concat())
}

/// Far more than a length byte can say; the sample has at most 600 bytes of arguments.
fn far_length(size: Size) -> usize {
    if size.full() { 600 } else { 588 }
}

/// Short areas, three of them readable.
fn small_areas() -> Vec<Vec<u8>> {
    let two = [timestamp(), record(0x99, &[])].concat();
    let broken = [vec![RELATIVE], vec![RELATIVE, 1], vec![0, 3, 0, 0]];
    [&[vec![], timestamp()][..], &each_end(&two), &broken].concat()
}

// Arguments

fn three_bytes(number: usize) -> [u8; 3] {
    let [_, high, middle, low] = (number as u32).to_be_bytes();
    [high, middle, low]
}

fn nth_args(n: usize, area: &[u8]) -> Vec<u8> {
    [&three_bytes(n), area].concat()
}

/// The type of a record to append or the number of a message code, an area, and what comes behind it.
fn writer_args(first: u8, area: &[u8], behind: &[u8]) -> Vec<u8> {
    [&[first], &three_bytes(area.len())[..], area, behind].concat()
}

// Systematic records

pub fn systematic(size: Size, emit: Emit) {
    size.bytes().into_iter().for_each(|byte| emit(58, &[byte], 0));
    short_areas(size, emit);
    single_records(size, emit);
    damaged_rows(size, emit);
    broken_records(size, emit);
    timestamps(size, emit);
    long_areas(size, emit);
    empty_records(size, emit);
    append_to_areas(size, emit);
    append_data(size, emit);
    append_to_limit(size, emit);
    frames_read(size, emit);
    frames_built(size, emit);
}

/// The record at the front, the count, and the n-th records.
fn read(area: &[u8], places: &[usize], emit: Emit) {
    emit(59, area, 0);
    emit(60, area, 0);
    nth(area, places, emit);
}

fn nth(area: &[u8], places: &[usize], emit: Emit) {
    places.iter().for_each(|&n| emit(61, &nth_args(n, area), 0));
}

/// Places at both ends of a row of so many records and behind it, one of them 0 in sixteen bits.
fn around(count: usize) -> Vec<usize> {
    let mut places = vec![0, 1, count.saturating_sub(1), count, count + 1, 0x1_0000, LAST];
    places.sort();
    places.dedup();
    places
}

/// Every area of so many bytes, all of them among the values.
fn each_area(values: &[u8], length: usize, area: &mut dyn FnMut(&[u8])) {
    let mut areas = vec![Vec::new()];
    for _ in 0..length {
        let longer = |start: &Vec<u8>| {
            values.iter().map(|&byte| [&start[..], &[byte]].concat()).collect::<Vec<_>>()
        };
        areas = areas.iter().flat_map(longer).collect();
    }
    areas.iter().for_each(|bytes| area(bytes));
}

/// All of up to two bytes, and some longer ones; in the sample only such.
fn short_areas(size: Size, emit: Emit) {
    if size.full() {
        for length in 0..=2 {
            each_area(&size.bytes(), length, &mut |area| read(area, &[], emit));
        }
        for length in 0..=4 {
            let values = [0, 1, 2, RELATIVE, EXTENDED, 0x99, 0xFF];
            each_area(&values, length, &mut |area| read(area, &[0, 1, 2], emit));
        }
    } else {
        for length in 0..=3 {
            each_area(&[0, 1, RELATIVE], length, &mut |area| read(area, &[1], emit));
        }
    }
    nth(&[], &around(0), emit);
}

/// The row cut at every length, then with every tried value in each length byte.
fn damaged(size: Size, row: &[Vec<u8>], area: &mut dyn FnMut(&[u8])) {
    let whole = row.concat();
    (0..=whole.len()).for_each(|end| area(&whole[..end]));
    let mut start = 0;
    for record in row {
        each_byte(size, &whole, start + 1, area);
        start += record.len();
    }
}

/// Every type with every count of data bytes; in the full set damaged too.
fn single_records(size: Size, emit: Emit) {
    for kind in TYPES {
        for length in LENGTHS {
            let row = [record(kind, &filler(length))];
            emit(59, &row[0], 0);
            if size.full() {
                nth(&row[0], &around(1), emit);
                damaged(size, &row, &mut |area| read(area, &[0], emit));
            }
        }
    }
}

fn rows(size: Size) -> Vec<Vec<Vec<u8>>> {
    let extended = record(EXTENDED, &[0x80, 1, 2, 3]);
    let unknown = record(0x99, &[]);
    let mut rows = vec![vec![timestamp(), extended.clone()]];
    if size.full() {
        rows.push(vec![timestamp(), unknown.clone(), extended.clone()]);
        rows.push(vec![unknown.clone(), unknown, timestamp()]);
        rows.push(vec![record(7, &filler(9)), extended.clone(), record(0, &[0])]);
        rows.push(vec![extended, record(1, &filler(253)), timestamp()]);
    }
    rows
}

fn damaged_rows(size: Size, emit: Emit) {
    for row in rows(size) {
        let (whole, places) = (row.concat(), around(row.len()));
        (0..=whole.len()).for_each(|end| emit(59, &whole[..end], 0));
        nth(&whole, &places, emit);
        damaged(size, &row, &mut |area| match size {
            Size::Full => read(area, &places, emit),
            Size::Sample => {
                emit(60, area, 0);
                nth(area, &[1], emit);
            }
        });
    }
}

/// Behind up to twenty records of several lengths one that is broken, so at as many places; the sample
/// has some of them.
fn broken_records(size: Size, emit: Emit) {
    let kept = |count: &usize| size.full() || matches!(count, 1 | 3 | 7..=9 | 16 | 17);
    for count in (1..=20).filter(kept) {
        let good = |i: usize| record(TYPES[i % TYPES.len()], &filler(i % 4));
        let row: Vec<u8> = (0..count).flat_map(good).collect();
        for area in &each_end(&row)[1..] {
            match size {
                Size::Full => read(area, &around(count), emit),
                Size::Sample => {
                    emit(60, area, 0);
                    nth(area, &[0], emit);
                }
            }
        }
    }
}

/// Every length around those that have a value, at the front and behind another record.
fn timestamps(size: Size, emit: Emit) {
    for kind in 3..=7 {
        for length in 0..=6 {
            for data in timestamp_data(size, length) {
                let area = [record(kind, &data), record(0x99, &[0xAB])].concat();
                emit(59, &area, 0);
                if size.full() || matches!(kind, RELATIVE | EXTENDED) {
                    nth(&[record(5, &[1]), area].concat(), &[1], emit);
                }
            }
        }
    }
}

fn timestamp_data(size: Size, length: usize) -> Vec<Vec<u8>> {
    let mut data = vec![(0..length).map(|i| 0x91 + 0x11 * i as u8).collect()];
    if size.full() {
        data.extend([vec![0; length], vec![0xFF; length], filler(length)]);
    }
    data
}

/// Around 255 bytes, and far above; one record alone reaches up to 257.
fn long_areas(size: Size, emit: Emit) {
    for length in (254..=258).chain([far_length(size)]) {
        let count = row_of(length).len();
        let places = if size.full() { around(count) } else { vec![count - 1] };
        of_length(length).iter().for_each(|area| read(area, &places, emit));
        if length <= 257 {
            let alone = record(RELATIVE, &filler(length - 2));
            read(&alone, &[0], emit);
            read(&alone[..length - 1], &[0], emit);
        }
    }
}

/// Long rows; in the sample the n-th record mostly at the end alone.
fn empty_records(size: Size, emit: Emit) {
    let longest: &[usize] = if size.full() { &[383, 384, 385, 1_000, 1_001, 20_000] } else { &[] };
    for &count in [126, 127, 128, 129, 130, 254, 255, 256, 257, 258].iter().chain(longest) {
        let good: Vec<u8> = (0..count).flat_map(|i| record((i % 251) as u8, &[])).collect();
        for (i, area) in each_end(&good).iter().enumerate() {
            if size.full() || count == 258 {
                emit(59, area, 0);
            }
            emit(60, area, 0);
            if size.full() || i == 0 && matches!(count, 130 | 258) {
                nth(area, &[around(count), vec![127, 128, 129, 255, 256, 257]].concat(), emit);
            } else {
                nth(area, &[count - 1], emit);
            }
        }
    }
}

/// None, one byte too few, just enough, and more.
fn buffers(need: usize) -> [usize; 5] {
    [0, need - 1, need, need + 1, need + 7]
}

/// In the sample the buffers of 0 and just enough.
fn some_buffers(size: Size, need: usize) -> Vec<usize> {
    if size.full() { buffers(need).into() } else { vec![0, need] }
}

fn append(kind: u8, area: &[u8], data: usize, buffers: &[usize], emit: Emit) {
    let args = writer_args(kind, area, &filler(data));
    buffers.iter().for_each(|&buffer| emit(62, &args, buffer));
}

fn data_counts() -> Vec<usize> {
    [0, 1, 2, 4].into_iter().chain(251..=256).chain([300]).collect()
}

/// Every kind of old area: those that are unreadable, too long and without a buffer, one or more at
/// once, show which refusal comes first.
fn append_to_areas(size: Size, emit: Emit) {
    let mut areas = small_areas();
    (251..=257).chain([far_length(size)]).for_each(|length| areas.extend(of_length(length)));
    for (i, area) in areas.iter().enumerate() {
        for data in if size.full() { data_counts() } else { vec![1] } {
            let buffers = some_buffers(size, area.len() + 2 + data);
            append(TYPES[i % TYPES.len()], area, data, &buffers, emit);
        }
    }
}

/// Every count of data bytes; in the full set every type.
fn append_data(size: Size, emit: Emit) {
    for (i, data) in data_counts().into_iter().enumerate() {
        let area = timestamp();
        append(TYPES[i % TYPES.len()], &area, data, &buffers(area.len() + 2 + data), emit);
    }
    if size.full() {
        (0..=255).for_each(|kind| append(kind, &timestamp(), 3, &[9], emit));
    }
}

/// New areas around 255 bytes: of an old one and no data, of an old one and some, of data alone.
fn append_to_limit(size: Size, emit: Emit) {
    for new in 253..=257 {
        let middle: &[usize] = if size.full() { &[1, 2, 4, 100, 200, 249] } else { &[4] };
        for data in [0, new - 2].iter().chain(middle) {
            let area = row_of(new - 2 - data).concat();
            let buffers = if size.full() { buffers(new).into() } else { vec![new - 1, new, 0] };
            append(EXTENDED, &area, *data, &buffers, emit);
        }
    }
}

/// The head of a cEMI frame and any bytes behind it, cut at this length.
fn head(code: u8, additional: u8, length: usize) -> Vec<u8> {
    let mut input = [vec![code, additional], filler(length)].concat();
    input.truncate(length);
    input
}

/// Every tried value of each head byte, every length, and lengths around the longest area's end.
fn frames_read(size: Size, emit: Emit) {
    let input = &mut |input: &[u8]| emit(63, input, 0);
    let (codes, additionals, lengths) = if size.full() {
        (&CODES[..], &[0, 5, 11][..], 2..=12)
    } else {
        (&CODES[..1], &[5][..], 12..=12)
    };
    for byte in size.bytes() {
        for length in lengths.clone() {
            additionals.iter().for_each(|&additional| input(&head(byte, additional, length)));
            codes.iter().for_each(|&code| input(&head(code, byte, length)));
        }
        if size.full() {
            input(&[byte]);
        }
    }
    CODES.iter().for_each(|&code| input(&head(code, 3, 9)));
    for additional in [0, 5, 10] {
        (0..=12).for_each(|length| input(&head(0x29, additional, length)));
    }
    for additional in 253..=255 {
        (255..=260).for_each(|length| input(&head(0x2E, additional, length)));
    }
    input(&[&[0x29, 4][..], &timestamp(), &LDATA].concat());
}

fn build(code: u8, area: &[u8], rest: usize, buffers: &[usize], emit: Emit) {
    let args = writer_args(code, area, &filler(rest));
    buffers.iter().for_each(|&buffer| emit(64, &args, buffer));
}

/// Every message code, by its number, and every kind of area; in the sample the codes by turns.
fn frames_built(size: Size, emit: Emit) {
    let mut areas = small_areas();
    (254..=258).for_each(|length| areas.extend(of_length(length)));
    for (i, area) in areas.iter().enumerate() {
        let turn = 1 + (i % CODES.len()) as u8;
        for code in if size.full() { 1..=7 } else { turn..=turn } {
            for rest in if size.full() { vec![0, 1, 9, 300] } else { vec![1] } {
                build(code, area, rest, &some_buffers(size, 2 + area.len() + rest), emit);
            }
        }
    }
    (1..=7).for_each(|code| build(code, &timestamp(), 9, &[15], emit));
    for rest in [0, 1, 9, 300] {
        for area in [vec![], timestamp()] {
            build(2, &area, rest, &buffers(2 + area.len() + rest), emit);
        }
    }
}

// Random records

pub fn random_record(rng: &mut Rng, number: u8, size: Size) -> (Vec<u8>, usize) {
    match number {
        58 => (rng.bytes(1), 0),
        59 | 60 => (random_area(rng, size), 0),
        61 => (nth_args(random_n(rng), &random_area(rng, size)), 0),
        62 => random_append(rng, size),
        63 => (random_frame(rng, size), 0),
        64 => random_build(rng, size),
        _ => panic!("generate_info.rs makes no random record for call {number}"),
    }
}

/// Mostly a readable area, or one with a change, a cut or a tail; sometimes any bytes.
fn random_area(rng: &mut Rng, size: Size) -> Vec<u8> {
    let row = random_row(rng, size);
    if row.is_empty() { row } else { near_good(rng, row, usize::MAX) }
}

/// Mostly short; now and then around 255 bytes, in the full set rarely far above.
fn random_row(rng: &mut Rng, size: Size) -> Vec<u8> {
    let length = if size.full() && rng.below(200) == 0 {
        rng.below(3_000)
    } else if rng.below(5) == 0 {
        rng.between(245, 260)
    } else {
        rng.below(30)
    };
    let mut row = Vec::new();
    while row.len() + 2 <= length {
        let most = length - row.len() - 2;
        row.extend(random_info(rng, most.min(255)));
    }
    row
}

/// A record with at most so many data bytes, often a timestamp.
fn random_info(rng: &mut Rng, most: usize) -> Vec<u8> {
    let (kind, length) = match rng.below(5) {
        0 => (RELATIVE, 2),
        1 => (EXTENDED, 4),
        2 => (rng.below(9) as u8, rng.below(7)),
        3 => (rng.byte(), 0),
        _ => (rng.byte(), rng.below(most + 1)),
    };
    record(kind, &rng.bytes(length.min(most)))
}

fn random_n(rng: &mut Rng) -> usize {
    if rng.below(12) == 0 { rng.below(LAST + 1) } else { rng.below(5) }
}

/// Data that is short, or brings the new area near 255 bytes.
fn random_append(rng: &mut Rng, size: Size) -> (Vec<u8>, usize) {
    let area = random_area(rng, size);
    let length = if rng.below(3) == 0 {
        rng.between(251, 258).saturating_sub(2 + area.len())
    } else {
        rng.below(8)
    };
    let args = writer_args(rng.byte(), &area, &rng.bytes(length));
    (args, buffer_near(rng, area.len() + 2 + length))
}

/// Mostly a frame with a readable area, its length byte often near the area's length.
fn random_frame(rng: &mut Rng, size: Size) -> Vec<u8> {
    if rng.below(4) == 0 {
        return random_cemi(rng);
    }
    let area = random_area(rng, size);
    let additional = area.len().min(255) as u8;
    let rest = rng.below(12);
    let good = [vec![random_code(rng), additional], area, rng.bytes(rest)].concat();
    near_good(rng, good, 2)
}

fn random_build(rng: &mut Rng, size: Size) -> (Vec<u8>, usize) {
    let code = 1 + rng.below(CODES.len()) as u8;
    let area = random_area(rng, size);
    let length = if rng.below(12) == 0 { rng.below(280) } else { rng.below(16) };
    let args = writer_args(code, &area, &rng.bytes(length));
    (args, buffer_near(rng, 2 + area.len() + length))
}
