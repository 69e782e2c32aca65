// The cases of the benchmark: what is called on both sides, and on which inputs.

use crate::inputs::{self, lay_out, Inputs, CALLS};
use crate::random::Rng;
use original::border::declared::*;
use original::border::{
    KnxAdditionalInfo, KnxCalled, KnxConnectResponse, KnxCount, KnxFrame, KnxHpai, KnxLData, KnxPart,
    KnxWritten,
};
use original::tunnel_table::Table;
use original::*;
use std::fmt::Debug;
use std::hint::black_box;

/// What is measured; side 0 is the Rust, side 1 the port.
pub struct Case {
    pub name: String,
    pub goal: &'static str,
    /// The name of the function on both sides, behind rust_ and knx_.
    pub function: &'static str,
    pub work: Box<dyn Work>,
}

pub trait Work {
    /// How many calls a batch makes.
    fn calls(&self) -> usize;
    /// What a batch needs before it, not measured.
    fn reset(&mut self, _side: usize) {}
    fn batch(&mut self, side: usize);
    /// Stops where the two sides do not answer the same.
    fn compare(&mut self);
}

fn case(
    name: impl Into<String>,
    goal: &'static str,
    function: &'static str,
    work: impl Work + 'static,
) -> Case {
    Case { name: name.into(), goal, function, work: Box::new(work) }
}

/// An answer of both sides, without the offset of a refusal: only the port says one.
trait Shared: Debug + PartialEq {
    fn shared(self) -> Self;
}

macro_rules! shared {
    ($($answer:ty),*) => {$(
        impl Shared for $answer {
            fn shared(self) -> Self {
                Self { offset: 0, ..self }
            }
        }
    )*};
}

shared!(KnxFrame, KnxHpai, KnxConnectResponse, KnxLData);
shared!(KnxPart, KnxAdditionalInfo, KnxCount, KnxCalled);

// Reading

/// Of bytes and their length.
type Read<R> = unsafe extern "C" fn(*const u8, usize) -> R;

struct Reads<R> {
    sides: [Read<R>; 2],
    inputs: Inputs,
}

impl<R: Shared> Work for Reads<R> {
    fn calls(&self) -> usize {
        self.inputs.len()
    }

    fn batch(&mut self, side: usize) {
        let read = black_box(self.sides[side]);
        for input in &self.inputs {
            black_box(&unsafe { read(input.as_ptr(), input.len()) });
        }
    }

    fn compare(&mut self) {
        for input in &self.inputs {
            let [a, b] = self.sides.map(|read| unsafe { read(input.as_ptr(), input.len()) });
            assert_eq!(a.shared(), b.shared(), "{input:02x?}");
        }
    }
}

/// Of an area and how many records stand before the one asked for.
type Nth = unsafe extern "C" fn(*const u8, usize, usize) -> KnxAdditionalInfo;

const NTH: [Nth; 2] = [rust_additional_info_nth, knx_additional_info_nth];

struct Nths {
    asked: Vec<(&'static [u8], usize)>,
}

impl Work for Nths {
    fn calls(&self) -> usize {
        self.asked.len()
    }

    fn batch(&mut self, side: usize) {
        let nth = black_box(NTH[side]);
        for &(area, n) in &self.asked {
            black_box(&unsafe { nth(area.as_ptr(), area.len(), n) });
        }
    }

    fn compare(&mut self) {
        for &(area, n) in &self.asked {
            let [a, b] = NTH.map(|nth| unsafe { nth(area.as_ptr(), area.len(), n) });
            assert_eq!(a.shared(), b.shared(), "{n} of {area:02x?}");
        }
    }
}

// Building

/// Of channel, sequence, cEMI, buffer
type Request = unsafe extern "C" fn(u8, u8, *const u8, usize, *mut u8, usize) -> KnxWritten;

/// Of control 1, control 2, source, destination, TPCI byte, APCI code, six-bit number, data, buffer
#[rustfmt::skip]
type LDataBuild =
    unsafe extern "C" fn(u8, u8, u16, u16, u8, u16, u8, *const u8, usize, *mut u8, usize) -> KnxWritten;

/// Of an area, type, data, buffer
type Append =
    unsafe extern "C" fn(*const u8, usize, u8, *const u8, usize, *mut u8, usize) -> KnxWritten;

/// Of message code, area, service information, buffer
type CemiBuild =
    unsafe extern "C" fn(u8, *const u8, usize, *const u8, usize, *mut u8, usize) -> KnxWritten;

const ROOM: usize = 600;

struct Builds<B> {
    sides: [B; 2],
    bodies: Inputs,
    out: [u8; ROOM],
}

trait Build: Copy {
    fn build(self, body: &[u8], out: &mut [u8]) -> KnxWritten;
}

impl Build for Request {
    fn build(self, cemi: &[u8], out: &mut [u8]) -> KnxWritten {
        unsafe { self(7, 3, cemi.as_ptr(), cemi.len(), out.as_mut_ptr(), out.len()) }
    }
}

impl Build for LDataBuild {
    fn build(self, data: &[u8], out: &mut [u8]) -> KnxWritten {
        let (data, length, out, room) = (data.as_ptr(), data.len(), out.as_mut_ptr(), out.len());
        unsafe { self(0x94, 0xE0, 0x1105, 0x0803, 0, 0x080, 1, data, length, out, room) }
    }
}

/// A relative timestamp as an area of its own: type, length, value.
static TIMESTAMP: [u8; 4] = [4, 2, 0x12, 0x34];

impl Build for Append {
    fn build(self, area: &[u8], out: &mut [u8]) -> KnxWritten {
        let (area, length, out, room) = (area.as_ptr(), area.len(), out.as_mut_ptr(), out.len());
        unsafe { self(area, length, TIMESTAMP[0], TIMESTAMP[2..].as_ptr(), 2, out, room) }
    }
}

impl Build for CemiBuild {
    fn build(self, rest: &[u8], out: &mut [u8]) -> KnxWritten {
        let (rest, length, out, room) = (rest.as_ptr(), rest.len(), out.as_mut_ptr(), out.len());
        unsafe { self(0x29, TIMESTAMP.as_ptr(), TIMESTAMP.len(), rest, length, out, room) }
    }
}

impl<B: Build> Work for Builds<B> {
    fn calls(&self) -> usize {
        self.bodies.len()
    }

    fn batch(&mut self, side: usize) {
        let side = black_box(self.sides[side]);
        for body in &self.bodies {
            black_box(&side.build(body, &mut self.out));
        }
    }

    fn compare(&mut self) {
        for body in &self.bodies {
            let [a, b] = self.sides.map(|side| {
                let mut out = [0xA5; ROOM];
                (side.build(body, &mut out), out)
            });
            assert_eq!(a, b, "{body:02x?}");
        }
    }
}

// The tunnel table

/// Of a table's memory and an id.
type Open = unsafe extern "C" fn(*mut u8, usize, u8) -> KnxCalled;

/// Of a table's memory, id, cEMI, output
type Send = unsafe extern "C" fn(*mut u8, usize, u8, *const u8, usize, *mut u8, usize) -> KnxCalled;

/// Of a table's memory, datagram, output
type Datagram = unsafe extern "C" fn(*mut u8, usize, *const u8, usize, *mut u8, usize) -> KnxCalled;

/// The memory of a table, on both sides.
type Memory = [u8; 40];

#[derive(Clone)]
struct Datagrams {
    sides: [Datagram; 2],
    /// Memories before a batch, and as they are; the calls go round them.
    before: [Vec<Memory>; 2],
    now: [Vec<Memory>; 2],
    inputs: Inputs,
    /// Whether all of them are refused; else none is.
    refused: bool,
    out: [u8; 64],
}

const BY_01: [Datagram; 2] = [rust_table_datagram, knx_table_datagram];
const STANDARD: [Datagram; 2] = [rust_table_datagram_standard, knx_table_datagram_standard];

fn call(datagram: Datagram, memory: &mut Memory, input: &[u8], out: &mut [u8]) -> KnxCalled {
    let (input, length, out, room) = (input.as_ptr(), input.len(), out.as_mut_ptr(), out.len());
    unsafe { datagram(memory.as_mut_ptr(), memory.len(), input, length, out, room) }
}

impl Work for Datagrams {
    fn calls(&self) -> usize {
        self.inputs.len()
    }

    fn reset(&mut self, side: usize) {
        self.now[side].copy_from_slice(&self.before[side]);
    }

    fn batch(&mut self, side: usize) {
        let (datagram, memories) = (black_box(self.sides[side]), &mut self.now[side]);
        let mask = memories.len() - 1;
        for (i, input) in self.inputs.iter().enumerate() {
            black_box(&call(datagram, &mut memories[i & mask], input, &mut self.out));
        }
    }

    fn compare(&mut self) {
        let mask = self.now[0].len() - 1;
        for (i, input) in self.inputs.iter().enumerate() {
            let [a, b] = [0, 1].map(|side| {
                let (memory, mut out) = (&mut self.now[side][i & mask], [0xA5; 64]);
                (call(self.sides[side], memory, input, &mut out).shared(), out)
            });
            assert_eq!(a, b, "{input:02x?}");
            assert_eq!(a.0.number != 0, self.refused, "{input:02x?}");
        }
    }
}

const IDS: [u8; 8] = [11, 7, 200, 42, 3, 99, 250, 128];

/// A full table on each side, all channels idle.
fn full_tables() -> [Memory; 2] {
    const OPEN: [Open; 2] = [rust_table_open, knx_table_open];
    let mut tables = [[0; 40]; 2];
    unsafe { tables[0].as_mut_ptr().cast::<Table>().write(Table::default()) };
    unsafe { knx_table_empty(tables[1].as_mut_ptr(), 40) };
    for (table, open) in tables.iter_mut().zip(OPEN) {
        for id in IDS {
            let opened = unsafe { open(table.as_mut_ptr(), 40, id) };
            assert_eq!(opened, KnxCalled::default());
        }
    }
    tables
}

/// The same, all channels waiting for their first acknowledgement.
fn waiting_tables() -> [Memory; 2] {
    const SEND: [Send; 2] = [rust_table_send, knx_table_send];
    let (mut tables, cemi, mut out) = (full_tables(), [0x29, 0], [0; 64]);
    for (table, send) in tables.iter_mut().zip(SEND) {
        for id in IDS {
            let (table, out) = (table.as_mut_ptr(), out.as_mut_ptr());
            let sent = unsafe { send(table, 40, id, cemi.as_ptr(), cemi.len(), out, 64) };
            assert_eq!(sent, KnxCalled { written: 12, ..KnxCalled::default() });
        }
    }
    tables
}

fn datagrams(tables: [Memory; 2], memories: usize, inputs: Inputs, refused: bool) -> Datagrams {
    let before = tables.map(|table| vec![table; memories]);
    Datagrams { sides: BY_01, now: before.clone(), before, inputs, refused, out: [0; 64] }
}

/// The same in KNX's own form.
fn standard(work: &Datagrams) -> Datagrams {
    Datagrams { sides: STANDARD, ..work.clone() }
}

// All of them

pub fn all() -> Vec<Case> {
    let mut cases = reading();
    cases.extend(building());
    cases.extend(tunnelling());
    cases.extend(reading_areas());
    cases.extend(building_areas());
    cases
}

fn reading() -> Vec<Case> {
    let rng = &mut Rng::new(1);
    let mut random = |one: fn(&mut Rng) -> Vec<u8>| lay_out(CALLS, |_| one(rng));
    let frame = |inputs| Reads { sides: [rust_frame_parse, knx_frame_parse], inputs };
    let good = frame(random(inputs::good_frame));
    let mixed = frame(random(inputs::mixed_frame));
    let refused = frame(random(inputs::refused_frame));
    let hpai = Reads { sides: [rust_hpai_parse, knx_hpai_parse], inputs: random(inputs::hpai) };
    let sides = [rust_connect_response, knx_connect_response];
    let response = Reads { sides, inputs: random(inputs::connect_response) };
    let sides = [rust_connect_response_standard, knx_connect_response_standard];
    let response_standard = Reads { sides, inputs: random(inputs::opening_response) };
    let cemi = Reads { sides: [rust_cemi_ldata, knx_cemi_ldata], inputs: random(inputs::cemi) };
    let sides = [rust_cemi_ldata_standard, knx_cemi_ldata_standard];
    let standard = Reads { sides, inputs: random(inputs::cemi_standard) };
    vec![
        case("frame parse, good", "0.7", "frame_parse", good),
        case("frame parse, mixed", "0.7", "frame_parse", mixed),
        case("frame parse, refused", "1.2 or 1 ns", "frame_parse", refused),
        case("Hpai parse", "", "hpai_parse", hpai),
        case("connect response", "", "connect_response", response),
        case("connect response, standard", "", "connect_response_standard", response_standard),
        case("cEMI to L_Data", "0.7", "cemi_ldata", cemi),
        case("cEMI to L_Data, standard", "as above", "cemi_ldata_standard", standard),
    ]
}

fn building() -> Vec<Case> {
    let rng = &mut Rng::new(2);
    let mut bodies = |first, last| {
        lay_out(CALLS, |_| {
            let length = rng.between(first, last);
            rng.bytes(length)
        })
    };
    let mut cases = Vec::new();
    for (first, last) in [(0, 14), (0, 60)] {
        let sides: [LDataBuild; 2] = [rust_ldata_build, knx_ldata_build];
        let work = Builds { sides, bodies: bodies(first, last), out: [0; ROOM] };
        cases.push(case(format!("L_Data build, {first} to {last}"), "0.9", "ldata_build", work));
        let sides: [LDataBuild; 2] = [rust_ldata_build_standard, knx_ldata_build_standard];
        let work = Builds { sides, bodies: bodies(first, last), out: [0; ROOM] };
        let name = format!("L_Data build, {first} to {last}, standard");
        cases.push(case(name, "as above", "ldata_build_standard", work));
    }
    for (first, last) in [(0, 0), (14, 14), (54, 54), (0, 60), (250, 250), (500, 500)] {
        let sides: [Request; 2] = [rust_tunneling_request, knx_tunneling_request];
        let work = Builds { sides, bodies: bodies(first, last), out: [0; ROOM] };
        let name = match last - first {
            0 => format!("tunnel request, {last}"),
            _ => format!("tunnel request, {first} to {last}"),
        };
        let goal = if last > 60 { "1.5" } else { "0.9" };
        cases.push(case(name, goal, "tunneling_request", work));
    }
    cases
}

fn tunnelling() -> Vec<Case> {
    let rng = &mut Rng::new(3);
    let mut next = [0_u8; 8];
    let order = inputs::places(rng);
    let deliver = lay_out(CALLS, |i| {
        let (id, number) = (IDS[order[i]], next[order[i]]);
        next[order[i]] = number.wrapping_add(1);
        inputs::tunnel_request(rng, id, number)
    });
    let duplicate = lay_out(CALLS, |_| {
        let id = IDS[rng.below(8)];
        inputs::tunnel_request(rng, id, 255)
    });
    let refused = lay_out(CALLS, |_| inputs::refused_frame(rng));
    // Each ends its channel's waiting: a table for each call, and few enough to stay near.
    let calls = CALLS / 8;
    let sent_by = |one: fn(u8, u8) -> Vec<u8>, rng: &mut Rng| {
        let inputs = lay_out(calls, |_| one(IDS[rng.below(8)], 0));
        datagrams(waiting_tables(), calls, inputs, false)
    };
    let idle = full_tables();
    let deliver = datagrams(idle, 1, deliver, false);
    let duplicate = datagrams(idle, 1, duplicate, false);
    let refused = datagrams(idle, 1, refused, true);
    let sent = sent_by(inputs::acknowledgement, rng);
    let sent_standard = standard(&sent_by(inputs::acknowledgement_standard, rng));
    let (by_01, knx) = ("table_datagram", "table_datagram_standard");
    vec![
        case("datagram, deliver, standard", "as by 01", knx, standard(&deliver)),
        case("datagram, deliver", "60 ns", by_01, deliver),
        case("datagram, duplicate, standard", "as by 01", knx, standard(&duplicate)),
        case("datagram, duplicate", "60 ns", by_01, duplicate),
        case("datagram, sent, standard", "as by 01", knx, sent_standard),
        case("datagram, sent", "60 ns", by_01, sent),
        case("datagram, refused, standard", "as by 01", knx, standard(&refused)),
        case("datagram, refused", "10 ns", by_01, refused),
    ]
}

fn reading_areas() -> Vec<Case> {
    let rng = &mut Rng::new(4);
    let frames = lay_out(CALLS, |_| inputs::cemi(rng));
    let timestamps = lay_out(CALLS, |_| inputs::timestamp(rng));
    let mixed = lay_out(CALLS, |_| inputs::gateway_area(rng));
    let few = lay_out(CALLS, |_| inputs::area(rng, 1, 4));
    let asked = few.iter().map(|&area| (area, rng.below(4))).collect();
    let many = lay_out(CALLS / 8, |_| (0..127).flat_map(|_| [rng.byte(), 0]).collect());
    let sides = [rust_cemi_additional_info, knx_cemi_additional_info];
    let area = Reads { sides, inputs: frames };
    let record = |inputs| Reads { sides: [rust_additional_info, knx_additional_info], inputs };
    let sides = [rust_additional_info_count, knx_additional_info_count];
    let count = |inputs| Reads { sides, inputs };
    vec![
        case("area of a cEMI frame", "", "cemi_additional_info", area),
        case("info record, timestamp", "", "additional_info", record(timestamps)),
        case("info record, mixed", "", "additional_info", record(mixed)),
        case("info count, 1 to 4", "", "additional_info_count", count(few)),
        case("info count, 127 empty", "", "additional_info_count", count(many)),
        case("info n-th, of 1 to 4", "", "additional_info_nth", Nths { asked }),
    ]
}

fn building_areas() -> Vec<Case> {
    let rng = &mut Rng::new(5);
    let areas = lay_out(CALLS, |_| inputs::area(rng, 0, 2));
    // A frame has two bytes and a timestamp before its rest.
    let rests = lay_out(CALLS, |_| {
        let length = rng.between(11, 30) - 2 - TIMESTAMP.len();
        rng.bytes(length)
    });
    let sides: [Append; 2] = [rust_additional_info_append, knx_additional_info_append];
    let append = Builds { sides, bodies: areas, out: [0; ROOM] };
    let sides: [CemiBuild; 2] = [rust_cemi_build, knx_cemi_build];
    let build = Builds { sides, bodies: rests, out: [0; ROOM] };
    vec![
        case("info append, to 0 to 2", "", "additional_info_append", append),
        case("cEMI build, 11 to 30", "", "cemi_build", build),
    ]
}
