// The input records of the tunnel table, in sequences: each but the first starts by setting the
// table, so none depends on the records before it. The helpers of all calls are in generate.rs.

use crate::generate::{damage, filler, header, inputs_as_frames, Emit, Rng, Size};
use crate::tunnel_table::Table;

const REQUEST: u16 = 0x0420;
const ACKNOWLEDGEMENT: u16 = 0x0421;
const OTHER_SERVICES: [u16; 6] = [0x0205, 0x0206, 0x0207, 0x0208, 0x0209, 0x020A];

const IDLE: u8 = 0;
const FIRST: u8 = 1;
const SECOND: u8 = 2;

/// Eight ids for a full table, a ninth, and the one that most sequences are about.
const IDS: [u8; 8] = [20, 0, 255, 1, 128, 22, 127, 254];
const NINTH: u8 = 9;
const ID: u8 = 21;

/// A place in the record of call 46: open, id, r, s, waiting.
type Place = [u8; 5];
const FREE: Place = [0; 5];

fn channel(id: u8, r: u8, s: u8, wait: u8) -> Place {
    [1, id, r, s, wait]
}

// The calls, each with its number, its arguments and the length of the lent buffer

type Step = (u8, Vec<u8>, usize);

fn set(places: &[Place]) -> Step {
    let mut args = places.concat();
    args.resize(40, 0);
    (46, args, 0)
}

fn open(id: u8) -> Step {
    (47, vec![id], 0)
}

fn close(id: u8) -> Step {
    (48, vec![id], 0)
}

fn timeout(id: u8) -> Step {
    (49, vec![id], 0)
}

fn send(id: u8, cemi: &[u8], buffer: usize) -> Step {
    (50, [&[id], cemi].concat(), buffer)
}

fn frame(service: u16, body: &[u8]) -> Vec<u8> {
    [&header(service, 6 + body.len() as u16)[..], body].concat()
}

fn request_input(id: u8, number: u8, cemi: &[u8]) -> Vec<u8> {
    frame(REQUEST, &[&[4, id, number, 0], cemi].concat())
}

/// The two forms of an acknowledgement, and of the datagram call with them.
#[derive(Clone, Copy)]
enum Form {
    Of01,
    Knx,
}

use Form::{Knx, Of01};

const FORMS: [Form; 2] = [Of01, Knx];

impl Form {
    fn datagram(self, input: Vec<u8>, buffer: usize) -> Step {
        match self {
            Of01 => (51, input, buffer),
            Knx => (76, input, buffer),
        }
    }

    fn datagrams(self, inputs: Vec<Vec<u8>>, buffer: usize) -> Vec<Step> {
        inputs.into_iter().map(|input| self.datagram(input, buffer)).collect()
    }

    fn ack_input(self, id: u8, number: u8, status: u8) -> Vec<u8> {
        match self {
            Of01 => frame(ACKNOWLEDGEMENT, &[4, id, number, 0, status]),
            Knx => frame(ACKNOWLEDGEMENT, &[4, id, number, status]),
        }
    }

    /// The length of an acknowledgement.
    fn ack_length(self) -> usize {
        match self {
            Of01 => 11,
            Knx => 10,
        }
    }

    /// A request with three bytes of cEMI; the buffer holds an acknowledgement.
    fn request(self, id: u8, number: u8) -> Step {
        self.request_into(id, number, self.ack_length())
    }

    fn request_into(self, id: u8, number: u8, buffer: usize) -> Step {
        self.datagram(request_input(id, number, &filler(3)), buffer)
    }

    /// An acknowledgement; the buffer has no bytes.
    fn ack(self, id: u8, number: u8, status: u8) -> Step {
        self.datagram(self.ack_input(id, number, status), 0)
    }
}

fn emit_step((number, args, buffer): &Step, emit: Emit) {
    emit(*number, args, *buffer);
}

/// Sets the table, then makes the calls.
fn sequence(places: &[Place], steps: &[Step], emit: Emit) {
    emit_step(&set(places), emit);
    steps.iter().for_each(|step| emit_step(step, emit));
}

/// Each call alone, on the same table.
fn each_alone(places: &[Place], steps: &[Step], emit: Emit) {
    steps.iter().for_each(|step| sequence(places, std::slice::from_ref(step), emit));
}

// Systematic sequences

pub fn systematic(size: Size, emit: Emit) {
    from_the_start(emit);
    opening(emit);
    reopening(Of01, emit);
    timeouts(Of01, emit);
    sends(size, emit);
    requests(Of01, size, emit);
    acknowledgements(Of01, size, emit);
    steps_from_255(Of01, emit);
    refused_datagrams(Of01, emit);
    short_bodies(Of01, emit);
    odd_datagrams(Of01, emit);
    every_place(Of01, emit);
    doubled_ids(Of01, emit);
    full_of_doubled_ids(emit);
    if size.full() {
        every_id(Of01, emit);
        every_expected_number(Of01, emit);
        long_sends(emit);
        all_frames(Of01, size, emit);
    }
    in_knx_form(size, emit);
    FORMS.into_iter().for_each(|form| refused_with_tails(form, emit));
    mixed_requests(emit);
    mixed_acknowledgements(size, emit);
}

/// Every sequence with a datagram once more; the sample keeps few, where the forms differ.
fn in_knx_form(size: Size, emit: Emit) {
    timeouts(Knx, emit);
    steps_from_255(Knx, emit);
    short_bodies(Knx, emit);
    if size.full() {
        sequence(&[], &on_an_empty_table(Knx), emit);
        reopening(Knx, emit);
        requests(Knx, size, emit);
        acknowledgements(Knx, size, emit);
        refused_datagrams(Knx, emit);
        odd_datagrams(Knx, emit);
        every_place(Knx, emit);
        doubled_ids(Knx, emit);
        every_id(Knx, emit);
        every_expected_number(Knx, emit);
        all_frames(Knx, size, emit);
    }
}

/// No channel is open, eight ids open, a ninth does not.
fn on_an_empty_table(form: Form) -> Vec<Step> {
    let calls = [close(0), timeout(ID), send(ID, &filler(3), 13)];
    let datagrams = [form.request(0, 0), form.ack(0, 0, 0)];
    [&calls[..], &datagrams, &IDS.map(open), &[open(NINTH)]].concat()
}

/// The first calls of all find the table empty.
fn from_the_start(emit: Emit) {
    on_an_empty_table(Of01).iter().for_each(|step| emit_step(step, emit));
}

/// Eight channels with different numbers, some at the ends, and all ways of waiting.
fn full_table() -> [Place; 8] {
    [0, 1, 2, 3, 4, 5, 6, 7].map(|i: u8| {
        channel(IDS[usize::from(i)], i.wrapping_sub(3), 255 - 30 * i, i % 3)
    })
}

fn opening(emit: Emit) {
    // Eight, a ninth, an open one; the third place is used again, then the first and the last.
    let mut steps = IDS.map(open).to_vec();
    steps.extend([open(NINTH), open(IDS[5]), close(IDS[2]), open(NINTH), open(IDS[2])]);
    steps.extend([close(IDS[7]), close(IDS[0]), open(IDS[2]), open(IDS[7]), open(IDS[0])]);
    sequence(&[], &steps, emit);
    sequence(&[], &[close(ID), open(ID), open(ID), close(ID), close(ID), open(ID)], emit);
    let full = full_table();
    each_alone(&full, &[open(NINTH), close(NINTH), timeout(NINTH), send(NINTH, &[], 0)], emit);
    // Free places between open ones; a free place has no id, 0 neither.
    let between = [FREE, full[4], FREE, full[5]];
    sequence(&between, &[close(0), open(0), open(ID), open(NINTH), close(0), open(ID)], emit);
}

/// A channel that is opened again starts at 0, 0, idle.
fn reopening(form: Form, emit: Emit) {
    let places = [channel(IDS[0], 5, 6, FIRST), channel(ID, 7, 8, SECOND)];
    for last in [timeout(ID), form.request(ID, 255), form.request(ID, 0), form.request(ID, 7)] {
        let steps = [close(ID), open(ID), last, send(ID, &[], 10), form.ack(ID, 0, 0)];
        sequence(&places, &steps, emit);
    }
    sequence(&places, &[close(ID), form.request(ID, 7), form.ack(ID, 8, 0), timeout(ID)], emit);
    sequence(&places, &[timeout(ID), open(ID), timeout(ID), send(ID, &[], 10)], emit);
}

fn timeouts(form: Form, emit: Emit) {
    let send = || send(ID, &filler(2), 12);
    sequence(&[], &[timeout(ID), open(ID), timeout(ID)], emit);
    sequence(&[], &[open(ID), send(), timeout(ID), timeout(ID), timeout(ID)], emit);
    let places = [channel(IDS[0], 1, 2, FIRST), channel(ID, 3, 7, FIRST)];
    sequence(&places, &[timeout(ID), form.ack(ID, 7, 0), timeout(ID), send(), timeout(ID)], emit);
    sequence(&places, &[form.ack(ID, 7, 1), timeout(ID), form.ack(ID, 7, 0), open(ID)], emit);
}

fn sends(size: Size, emit: Emit) {
    let places = |wait| [channel(IDS[0], 1, 2, wait), channel(ID, 3, 7, wait)];
    for wait in [FIRST, SECOND] {
        each_alone(&places(wait), &[send(ID, &filler(2), 0), send(ID, &[], 12)], emit);
    }
    each_alone(&places(IDLE), &[send(NINTH, &[], 0), send(NINTH, &[1], 12)], emit);
    // At 246 the total length takes a second byte.
    let cemis = if size.full() { 0..=260 } else { 0..=5 };
    for cemi in cemis.chain([245, 246]).map(filler) {
        let need = 10 + cemi.len();
        let sends = |buffers: &[usize]| -> Vec<Step> {
            buffers.iter().map(|&buffer| send(ID, &cemi, buffer)).collect()
        };
        sequence(&places(IDLE), &sends(&[0, 9, need - 1, need, need]), emit);
        each_alone(&places(IDLE), &sends(&[need + 1, need + 7]), emit);
    }
}

/// The number tried and some others: all, or its neighbours and one far away.
fn numbers(size: Size, middle: u8) -> Vec<u8> {
    match size {
        Size::Full => (0..=255).collect(),
        Size::Sample => [0, 1, 2, 128, 254, 255].map(|step| middle.wrapping_add(step)).into(),
    }
}

fn requests(form: Form, size: Size, emit: Emit) {
    let need = form.ack_length();
    for (r, wait) in [(0, IDLE), (1, FIRST), (7, SECOND), (255, IDLE), (254, FIRST), (128, IDLE)] {
        let places = [channel(IDS[0], 100, 2, wait), channel(ID, r, 50, wait)];
        for number in numbers(size, r) {
            let buffers = [0, need - 1, need, need + 1];
            let steps = buffers.map(|buffer| form.request_into(ID, number, buffer));
            sequence(&places, &steps, emit);
        }
    }
}

fn acknowledgements(form: Form, size: Size, emit: Emit) {
    let statuses = if size.full() { &[0, 1, 0x21, 0x80, 255][..] } else { &[0, 1] };
    for s in [0, 7, 255] {
        for wait in [IDLE, FIRST, SECOND] {
            let places = [channel(IDS[0], 1, 60, wait), channel(ID, 50, s, wait)];
            for number in numbers(size, s) {
                let steps = statuses.iter().map(|&status| form.ack(ID, number, status));
                each_alone(&places, &steps.collect::<Vec<_>>(), emit);
            }
        }
    }
    // Nothing is written, whatever the output holds.
    for wait in [IDLE, FIRST, SECOND] {
        let inputs = [0, 1].map(|status| form.ack_input(ID, 7, status));
        let steps = form.datagrams(inputs.into(), form.ack_length());
        each_alone(&[channel(ID, 7, 7, wait)], &steps, emit);
    }
}

fn steps_from_255(form: Form, emit: Emit) {
    let numbers = [254, 255, 255, 254, 0, 255, 0, 1];
    sequence(&[channel(ID, 254, 9, IDLE)], &numbers.map(|number| form.request(ID, number)), emit);
    let send = || send(ID, &filler(1), 11);
    let [first, second] = [255, 0].map(|number| form.ack(ID, number, 0));
    let steps = [send(), second.clone(), first.clone(), send(), first, second];
    sequence(&[channel(ID, 9, 255, IDLE)], &[&steps[..], &[send()]].concat(), emit);
}

/// The good input with other bytes from a place on.
fn changed(good: &[u8], at: usize, bytes: &[u8]) -> Vec<u8> {
    [&good[..at], bytes, &good[at + bytes.len()..]].concat()
}

fn refused_datagrams(form: Form, emit: Emit) {
    let places = [channel(ID, 7, 7, FIRST)];
    for good in [request_input(ID, 7, &filler(2)), form.ack_input(ID, 7, 0)] {
        let length = good.len();
        let ends = (0..6).chain([length - 1]);
        let mut inputs: Vec<Vec<u8>> = ends.map(|end| good[..end].to_vec()).collect();
        inputs.extend([5, 7].map(|byte| changed(&good, 0, &[byte])));
        inputs.extend([0x0F, 0x11].map(|byte| changed(&good, 1, &[byte])));
        inputs.extend([[4, 0x22], [5, good[3]]].map(|unknown| changed(&good, 2, &unknown)));
        inputs.extend([0, 5, length as u8 + 1].map(|total| changed(&good, 5, &[total])));
        inputs.extend(OTHER_SERVICES.map(|other| changed(&good, 2, &other.to_be_bytes())));
        sequence(&places, &form.datagrams(inputs, form.ack_length()), emit);
    }
    // Several things wrong at once: which refusal comes first.
    let mut inputs = vec![vec![5, 0x11, 4, 0x22, 0, 5], vec![6, 0x11, 4, 0x22, 0, 5]];
    inputs.extend([vec![6, 0x10, 4, 0x22, 0, 5], vec![6, 0x10, 2, 6, 0, 5]]);
    inputs.extend(OTHER_SERVICES.map(|other| frame(other, &[])));
    inputs.push(request_input(NINTH, 7, &[]));
    inputs.extend([0, 1].map(|status| form.ack_input(NINTH, 7, status)));
    for buffer in [0, form.ack_length()] {
        sequence(&places, &form.datagrams(inputs.clone(), buffer), emit);
    }
}

/// Bodies up to one byte more than needed, of an open channel and of a closed one; the bytes
/// that the total length leaves out may be there.
fn short_bodies(form: Form, emit: Emit) {
    let output = form.ack_length();
    for id in [ID, NINTH] {
        for (service, need) in [(REQUEST, 4), (ACKNOWLEDGEMENT, output - 6)] {
            for length in 0..=need + 1 {
                let body = [4, id, 7, 0, 0, 0];
                let exact = frame(service, &body[..length]);
                let longer = [&exact[..], &body[length..]].concat();
                let steps = form.datagrams(vec![exact, longer], output);
                each_alone(&[channel(ID, 7, 7, FIRST)], &steps, emit);
            }
        }
    }
}

/// Every refusal, with bytes behind the total length where there can be some: whatever is too short
/// ends before them, and no other place moves.
fn refused_with_tails(form: Form, emit: Emit) {
    let good = request_input(ID, 7, &filler(2));
    let length = good.len() as u8;
    let mut steps = form.datagrams((0..6).map(|end| good[..end].to_vec()).collect(), 20);
    steps.push(form.datagram(changed(&good, 5, &[length + 1]), 20));
    let mut inputs = vec![changed(&good, 0, &[5]), changed(&good, 1, &[0x11])];
    inputs.extend([[4, 0x22], [2, 5], [2, 0x0A]].map(|service| changed(&good, 2, &service)));
    inputs.extend([5, 9].map(|total| changed(&good, 5, &[total])));
    inputs.extend([REQUEST, ACKNOWLEDGEMENT].map(|service| header(service, 6)));
    inputs.extend([request_input(NINTH, 7, &filler(2)), form.ack_input(NINTH, 7, 0)]);
    inputs.iter_mut().for_each(|input| input.push(0xFF));
    steps.extend(form.datagrams(inputs, 20));
    // The output decides, not the datagram.
    for number in [7, 6] {
        let input = [request_input(ID, number, &[]), filler(3)].concat();
        steps.push(form.datagram(input, form.ack_length() - 1));
    }
    sequence(&[channel(ID, 7, 7, FIRST)], &steps, emit);
}

/// What is not looked at: bytes behind the total length, the connection header's length byte and
/// its last byte (in KNX's form it is an acknowledgement's status), the end of a long
/// acknowledgement. Views of several lengths.
fn odd_datagrams(form: Form, emit: Emit) {
    let places = [channel(ID, 7, 7, FIRST)];
    let [sent, refused] = [0, 1].map(|status| form.ack_input(ID, 7, status));
    for good in [request_input(ID, 7, &filler(2)), sent, refused] {
        let mut inputs = vec![[&good[..], &[0xAA]].concat(), [&good[..], &filler(9)].concat()];
        inputs.extend([0, 3, 5, 255].map(|byte| changed(&good, 6, &[byte])));
        inputs.extend([1, 255].map(|byte| changed(&good, 9, &[byte])));
        each_alone(&places, &form.datagrams(inputs, 12), emit);
    }
    for tail in [&[0][..], &[1], &filler(20)] {
        let whole = form.ack_input(ID, 7, 0);
        let long = frame(ACKNOWLEDGEMENT, &[&whole[6..], tail].concat());
        sequence(&places, &[form.datagram(long, 0)], emit);
    }
    for cemi in [0, 1, 2, 11, 245, 246, 300] {
        let input = request_input(ID, 7, &filler(cemi));
        sequence(&places, &[form.datagram(input.clone(), 20), form.datagram(input, 20)], emit);
    }
}

/// All calls on each channel of a full table.
fn every_place(form: Form, emit: Emit) {
    let full = full_table();
    for [_, id, r, s, _] in full {
        let datagrams = [form.request(id, r), form.request(id, r), form.ack(id, s, 0), timeout(id)];
        let ends = [send(id, &filler(1), 11), timeout(id), timeout(id), open(NINTH), open(id)];
        sequence(&full, &[&datagrams[..], &ends].concat(), emit);
        each_alone(&full, &[open(id), close(id), timeout(id), send(id, &[], 10)], emit);
    }
}

/// Every call on an id that stands twice; a closed one stands once more.
fn doubled_ids(form: Form, emit: Emit) {
    for (first, second) in [(IDLE, FIRST), (FIRST, IDLE), (SECOND, FIRST)] {
        let other = channel(IDS[0], 1, 2, FIRST);
        let places = [other, channel(ID, 7, 9, first), other, FREE, channel(ID, 100, 200, second)];
        let mut steps = vec![open(ID), close(ID), timeout(ID), send(ID, &filler(1), 11)];
        steps.extend([7, 6, 100, 99].map(|number| form.request(ID, number)));
        let acks = [(9, 0), (9, 1), (200, 0), (200, 1)];
        steps.extend(acks.map(|(number, status)| form.ack(ID, number, status)));
        each_alone(&places, &steps, emit);
        let left = [close(ID), open(ID), form.request(ID, 100), form.ack(ID, 200, 0), timeout(ID)];
        let ends = [send(ID, &[], 10), close(ID), close(ID), open(ID), close(IDS[0]), open(IDS[0])];
        sequence(&places, &[&left[..], &ends].concat(), emit);
        sequence(&places, &[timeout(ID), timeout(ID), timeout(ID), timeout(ID), open(ID)], emit);
    }
}

/// No place is free, though fewer than eight ids are open.
fn full_of_doubled_ids(emit: Emit) {
    for ids in [[20, 21, 22, 23, 20, 21, 22, 23], [20, 20, 21, 21, 22, 22, 23, 23], [21; 8]] {
        let places = ids.map(|id| channel(id, 1, 2, IDLE));
        let steps = [open(NINTH), open(ID), close(ID), open(ID), open(NINTH), open(0), close(ID)];
        sequence(&places, &steps, emit);
    }
}

fn every_id(form: Form, emit: Emit) {
    for id in 0..=255 {
        let calls = [open(id), form.request(id, 0), send(id, &filler(2), 12), form.ack(id, 0, 0)];
        sequence(&[channel(!id, 9, 9, IDLE)], &[&calls[..], &[close(id)]].concat(), emit);
    }
}

fn every_expected_number(form: Form, emit: Emit) {
    for r in 0..=255u8 {
        let numbers = [r.wrapping_sub(2), r.wrapping_add(1), r.wrapping_sub(1), r, r];
        let steps = numbers.map(|number| form.request(ID, number));
        sequence(&[channel(ID, r, 9, IDLE)], &steps, emit);
        sequence(&[channel(ID, 9, r, IDLE)], &[send(ID, &[], 10), form.ack(ID, r, 0)], emit);
    }
}

/// Around the longest cEMI that a frame holds.
fn long_sends(emit: Emit) {
    for (cemi, buffers) in [
        (65_525, [65_534, 65_535, 65_536]),
        (65_526, [65_535, 65_536, 65_540]),
        (65_536, [65_535, 65_545, 65_546]),
    ] {
        let steps = buffers.map(|buffer| send(ID, &filler(cemi), buffer));
        each_alone(&[channel(ID, 3, 7, IDLE)], &steps, emit);
        each_alone(&[channel(ID, 3, 7, FIRST)], &steps[1..], emit);
        each_alone(&[], &steps[1..], emit);
    }
}

/// The inputs of calls 3 and 6; the bodies have channel 10 and number 17 where they are long
/// enough.
fn all_frames(form: Form, size: Size, emit: Emit) {
    inputs_as_frames(size, &mut |input| {
        let step = form.datagram(input.to_vec(), form.ack_length());
        sequence(&[channel(10, 17, 17, FIRST)], &[step], emit);
    });
}

// Both forms on one table

/// Delivered in one form and a duplicate in the other, past 255, then the same with too small an
/// output between; outputs around what the two forms need.
fn mixed_requests(emit: Emit) {
    let places = [channel(IDS[0], 1, 2, FIRST), channel(ID, 254, 9, IDLE)];
    for [one, other] in [[Of01, Knx], [Knx, Of01]] {
        let both = |number| [one.request(ID, number), other.request(ID, number)];
        sequence(&places, &[both(254), both(255), both(0)].concat(), emit);
    }
    let steps = [(Of01, 10), (Knx, 10), (Of01, 10), (Knx, 9), (Of01, 11), (Knx, 11)];
    sequence(&places, &steps.map(|(form, buffer)| form.request_into(ID, 254, buffer)), emit);
    for form in FORMS {
        for number in [254, 253, 0] {
            let steps = [9, 10, 11].map(|buffer| form.request_into(ID, number, buffer));
            each_alone(&places, &steps, emit);
        }
    }
}

/// Acknowledgements of each form put to both calls: one reads the status where the other has its
/// zero, and one refuses what is long enough for the other.
fn mixed_acknowledgements(size: Size, emit: Emit) {
    let send = || send(ID, &filler(2), 12);
    let body = |ends: &[u8]| frame(ACKNOWLEDGEMENT, &[&[4, ID, 7], ends].concat());
    let [short, late, early] = [body(&[0]), body(&[0, 0x29]), body(&[0x29, 0])];
    for steps in [
        [send(), Of01.datagram(short.clone(), 0), Knx.datagram(short, 0), send()],
        [send(), Of01.datagram(late.clone(), 0), Knx.datagram(late, 0), send()],
        [send(), Knx.datagram(early.clone(), 0), Of01.datagram(early.clone(), 0), send()],
        [send(), Knx.datagram(early.clone(), 0), Knx.datagram(early, 0), Of01.ack(ID, 7, 0)],
        [send(), Of01.ack(ID, 7, 1), Knx.ack(ID, 7, 1), Knx.ack(ID, 7, 0)],
        [send(), Knx.ack(ID, 7, 1), Of01.ack(ID, 7, 1), open(ID)],
    ] {
        sequence(&[channel(IDS[0], 1, 7, FIRST), channel(ID, 3, 7, IDLE)], &steps, emit);
    }
    if size.full() {
        every_status(emit);
    }
}

/// Every status at either place, with some bytes at the other, and alone.
fn every_status(emit: Emit) {
    for status in 0..=255 {
        let mut ends = vec![vec![status]];
        for other in [0, 1, 0x29, 255] {
            ends.extend([vec![status, other], vec![other, status]]);
        }
        for wait in [IDLE, FIRST, SECOND] {
            for form in FORMS {
                let inputs = ends.iter().map(|ends| [&[4, ID, 7], &ends[..]].concat());
                let inputs = inputs.map(|body| frame(ACKNOWLEDGEMENT, &body)).collect();
                each_alone(&[channel(ID, 3, 7, wait)], &form.datagrams(inputs, 0), emit);
            }
        }
    }
}

// Random sequences

/// Up to sixty calls, most of them on a few ids; the generator's own table tells what to aim at.
/// The datagrams are in 01's form, or each in either one.
pub fn random_sequence(rng: &mut Rng, mixed: bool, emit: Emit) {
    let ids = random_ids(rng);
    let known = rng.between(3, 5);
    let mut table = Table::default();
    let mut step = set(&random_places(rng, &ids, known));
    for _ in 0..rng.between(5, 60) {
        perform(&mut table, &step, emit);
        step = random_step(rng, &ids, known, mixed, &table);
    }
    perform(&mut table, &step, emit);
}

fn perform(table: &mut Table, step: &Step, emit: Emit) {
    let (number, args, buffer) = step;
    table.call(*number, args, &mut vec![0; *buffer]).expect("a call on the table");
    emit_step(step, emit);
}

/// Nine different ids, the last for strays.
fn random_ids(rng: &mut Rng) -> [u8; 9] {
    let (first, step) = (rng.byte(), rng.byte() | 1);
    [0, 1, 2, 3, 4, 5, 6, 7, 8].map(|i: u8| first.wrapping_add(step.wrapping_mul(i)))
}

/// Empty, full, with numbers around 255, or with ids that stand twice and free places.
fn random_places(rng: &mut Rng, ids: &[u8; 9], known: usize) -> Vec<Place> {
    match rng.below(4) {
        0 => Vec::new(),
        1 => ids[..8].iter().map(|&id| random_channel(rng, id, 256)).collect(),
        2 => ids[..known].iter().map(|&id| random_channel(rng, id, 8)).collect(),
        _ => (0..8).map(|_| random_place(rng, &ids[..known])).collect(),
    }
}

/// With numbers from 252 on, so many of them.
fn random_channel(rng: &mut Rng, id: u8, numbers: usize) -> Place {
    let mut number = || (252 + rng.below(numbers)) as u8;
    let (r, s) = (number(), number());
    channel(id, r, s, rng.below(3) as u8)
}

fn random_place(rng: &mut Rng, ids: &[u8]) -> Place {
    match rng.below(4) {
        0 => FREE,
        _ => {
            let id = ids[rng.below(ids.len())];
            random_channel(rng, id, 8)
        }
    }
}

/// A call on a known id or on the stray one; a closed channel is mostly opened.
fn random_step(rng: &mut Rng, ids: &[u8; 9], known: usize, mixed: bool, table: &Table) -> Step {
    let id = if rng.below(12) == 0 { ids[8] } else { ids[rng.below(known)] };
    let (r, s) = match table.numbers(id) {
        None if rng.below(4) > 0 => return open(id),
        numbers => numbers.unwrap_or((0, 0)),
    };
    match rng.below(24) {
        0 => open(id),
        1 => close(id),
        2..=4 => timeout(id),
        5..=9 => random_send(rng, id),
        10..=15 => {
            let form = random_form(rng, mixed);
            // Now and then in the other call's form.
            let laid_out = if mixed && rng.below(6) == 0 { random_form(rng, mixed) } else { form };
            let input = random_ack(rng, laid_out, id, s);
            random_datagram(rng, form, input)
        }
        _ => {
            let form = random_form(rng, mixed);
            let input = random_request(rng, id, r);
            random_datagram(rng, form, input)
        }
    }
}

/// Draws a number only where the forms are mixed.
fn random_form(rng: &mut Rng, mixed: bool) -> Form {
    if mixed { FORMS[rng.below(2)] } else { Of01 }
}

fn random_cemi(rng: &mut Rng) -> Vec<u8> {
    let length = rng.below(13);
    rng.bytes(length)
}

/// Mostly a buffer that holds the request.
fn random_send(rng: &mut Rng, id: u8) -> Step {
    let cemi = random_cemi(rng);
    let buffer = if rng.below(4) == 0 { rng.below(21) } else { 10 + cemi.len() + rng.below(4) };
    send(id, &cemi, buffer)
}

/// Mostly the number itself or the one before it.
fn number_near(rng: &mut Rng, number: u8) -> u8 {
    match rng.below(10) {
        0..=4 => number,
        5..=6 => number.wrapping_sub(1),
        7 => number.wrapping_add(1),
        8 => number.wrapping_sub(2),
        _ => rng.byte(),
    }
}

fn random_request(rng: &mut Rng, id: u8, r: u8) -> Vec<u8> {
    let number = number_near(rng, r);
    request_input(id, number, &random_cemi(rng))
}

fn random_ack(rng: &mut Rng, form: Form, id: u8, s: u8) -> Vec<u8> {
    let number = if rng.below(3) == 0 { number_near(rng, s) } else { s };
    let status = [0, 0, 0, 0, 1, rng.byte()][rng.below(6)];
    form.ack_input(id, number, status)
}

/// Mostly a good datagram and an output that holds an acknowledgement.
fn random_datagram(rng: &mut Rng, form: Form, mut input: Vec<u8>) -> Step {
    match rng.below(16) {
        0 | 1 => damage(rng, &mut input),
        2 => input[2..4].copy_from_slice(&rng.service().to_be_bytes()),
        3 => input[6] = rng.byte(),
        4 => input[9] = rng.byte(),
        _ => {}
    }
    let enough = form.ack_length();
    let buffer = if rng.below(3) == 0 { rng.below(21) } else { rng.between(enough, 20) };
    form.datagram(input, buffer)
}
