// The compared calls of cemi.rs, of the stand-in's codes and of 01's L_Data builder; their rows
// are in calls.rs.

use crate::calls::{handed_out, place, said, u16_at, Said};
use crate::error::KnxError;
use crate::ldata_builder::LDataBuilder;
use crate::protocol::cemi::{
    extract_6bit_value, AdditionalInfoType, Apci, CEMIFrame, ControlField1, ControlField2, LDataFrame,
    Tpci,
};
use crate::protocol::constants::{CEMIMessageCode, Priority};
use crate::variants::{
    apci_number, info_type_number, message_code_number, message_code_of, priority_number, priority_of,
    tpci_numbers, tpci_of,
};

fn only(value: u8) -> Said {
    Some(Ok(vec![value.into()]))
}

// Codes

pub fn message_code_from(args: &[u8], _: &mut [u8]) -> Said {
    let code = CEMIMessageCode::from_u8(*args.first()?);
    let known = code.ok_or_else(KnxError::invalid_message_code);
    said(known.map(|code| message_code_values(code).into()))
}

/// The variant's number, and its code.
fn message_code_values(code: CEMIMessageCode) -> [usize; 2] {
    [message_code_number(code), code.to_u8().into()]
}

pub fn priority_from(args: &[u8], _: &mut [u8]) -> Said {
    Some(Ok(priority_values(Priority::from_u8(*args.first()?)).into()))
}

/// The variant's number, and its two bits.
fn priority_values(priority: Priority) -> [usize; 2] {
    [priority_number(priority), priority.to_u8().into()]
}

const INFO_TYPES: [AdditionalInfoType; 7] = [
    AdditionalInfoType::PlMediumInfo,
    AdditionalInfoType::RfMediumInfo,
    AdditionalInfoType::BusmonitorErrorFlags,
    AdditionalInfoType::RelativeTimestamp,
    AdditionalInfoType::TimeDelay,
    AdditionalInfoType::ExtendedRelativeTimestamp,
    AdditionalInfoType::BiBatInfo,
];

/// The Rust has no conversion: a number's variant is the one that has it as its discriminant.
pub fn info_type_from(args: &[u8], _: &mut [u8]) -> Said {
    let number = *args.first()?;
    let named = INFO_TYPES.into_iter().find(|&kind| kind as u8 == number);
    Some(Ok(named.map_or([0, number.into()], info_type_values).into()))
}

/// The variant's number, and its own.
fn info_type_values(kind: AdditionalInfoType) -> [usize; 2] {
    [info_type_number(kind), usize::from(kind as u8)]
}

// Control fields

pub fn control1_read(args: &[u8], _: &mut [u8]) -> Said {
    let field = ControlField1::from(*args.first()?);
    let [priority, bits] = priority_values(field.priority());
    Some(Ok(vec![
        field.raw().into(),
        field.is_standard_frame().into(),
        field.do_not_repeat().into(),
        field.is_broadcast().into(),
        priority,
        bits,
        field.ack_requested().into(),
        field.has_error().into(),
    ]))
}

pub fn control1_new(args: &[u8], _: &mut [u8]) -> Said {
    let flag = |at: usize| args.get(at).map(|&byte| byte != 0);
    let priority = priority_of(*args.get(3)?)?;
    let field = ControlField1::new(flag(0)?, flag(1)?, flag(2)?, priority, flag(4)?, flag(5)?);
    only(field.into())
}

pub fn control1_default(_: &[u8], _: &mut [u8]) -> Said {
    only(ControlField1::default().raw())
}

pub fn control2_read(args: &[u8], _: &mut [u8]) -> Said {
    let field = ControlField2::from(*args.first()?);
    Some(Ok(vec![
        field.raw().into(),
        field.is_group_address().into(),
        field.hop_count().into(),
        field.extended_format().into(),
    ]))
}

pub fn control2_new(args: &[u8], _: &mut [u8]) -> Said {
    only(ControlField2::new(*args.first()? != 0, *args.get(1)?, *args.get(2)?).into())
}

pub fn control2_default(_: &[u8], _: &mut [u8]) -> Said {
    only(ControlField2::default().raw())
}

// TPCI and APCI

pub fn tpci_from(args: &[u8], _: &mut [u8]) -> Said {
    let tpci = Tpci::from_byte(*args.first()?);
    let [kind, sequence] = tpci_numbers(tpci);
    Some(Ok(vec![kind, sequence, tpci.is_data().into()]))
}

/// The variant's number, and its code.
fn apci_values(apci: Apci) -> [usize; 2] {
    [apci_number(apci), apci.to_u16().into()]
}

pub fn apci_from(args: &[u8], _: &mut [u8]) -> Said {
    Some(Ok(apci_values(Apci::from_bytes(*args.first()?, *args.get(1)?)).into()))
}

pub fn apci_unknown(args: &[u8], _: &mut [u8]) -> Said {
    Some(Ok(apci_values(Apci::Unknown(u16_at(args, 0)?)).into()))
}

pub fn six_bits(args: &[u8], _: &mut [u8]) -> Said {
    only(extract_6bit_value(*args.first()?))
}

// LDataFrame

/// The nine values of the fields, then where the data stands in the whole input, and its remainder.
fn ldata_values(frame: &LDataFrame, whole: &[u8]) -> Vec<usize> {
    let mut values = vec![
        frame.ctrl1.raw().into(),
        frame.ctrl2.raw().into(),
        frame.source.raw().into(),
        frame.destination_raw.into(),
        frame.npdu_length.into(),
    ];
    values.extend(tpci_numbers(frame.tpci));
    values.extend(apci_values(frame.apci));
    values.extend(handed_out(frame.data, whole));
    values
}

/// 0 where there is no such address, else 1 + address.
fn address_value(address: Option<u16>) -> usize {
    address.map_or(0, |address| 1 + usize::from(address))
}

pub fn ldata_parse(args: &[u8], _: &mut [u8]) -> Said {
    said(LDataFrame::parse(args).map(|frame| {
        let mut values = ldata_values(&frame, args);
        values.push(address_value(frame.destination_group().map(|group| group.raw())));
        values.push(address_value(frame.destination_individual().map(|device| device.raw())));
        values.push(asks(&frame));
        values
    }))
}

/// What a frame asks of a group: 1 for a write, 2 for a read, 4 for a response, added up.
fn asks(frame: &LDataFrame) -> usize {
    let flags = [frame.is_group_write(), frame.is_group_read(), frame.is_group_response()];
    flags.iter().rev().fold(0, |sum, &flag| 2 * sum + usize::from(flag))
}

/// The builder's answer; what it wrote is confirmed by the Rust's parse.
pub fn ldata_build(args: &[u8], buf: &mut [u8]) -> Said {
    let builder = LDataBuilder {
        ctrl1: *args.first()?,
        ctrl2: *args.get(1)?,
        source: u16_at(args, 2)?,
        destination: u16_at(args, 4)?,
        tpci: tpci_of(*args.get(6)?, *args.get(7)?)?,
        apci: u16_at(args, 8)?,
        six_bits: *args.get(10)?,
        data: &args[11..],
    };
    Some(builder.build(buf).map(|count| {
        builder.confirm(&buf[..count]);
        vec![count]
    }))
}

// CEMIFrame

pub fn frame_parse(args: &[u8], _: &mut [u8]) -> Said {
    said(CEMIFrame::parse(args).map(|frame| {
        let [number, code] = message_code_values(frame.message_code());
        vec![number, code, frame.additional_info_length().into(), frame.is_ldata().into()]
    }))
}

pub fn frame_service_info(args: &[u8], _: &mut [u8]) -> Said {
    said(CEMIFrame::parse(args).and_then(|frame| Ok(handed_out(frame.service_info()?, args).into())))
}

/// The area lies between the two head bytes and the service information.
pub fn frame_additional_info(args: &[u8], _: &mut [u8]) -> Said {
    said(CEMIFrame::parse(args).and_then(|frame| {
        let [end, _] = place(frame.service_info()?, args);
        Ok(handed_out(&args[2..end], args).into())
    }))
}

pub fn frame_as_ldata(args: &[u8], _: &mut [u8]) -> Said {
    said(CEMIFrame::parse(args).and_then(|frame| Ok(ldata_values(&frame.as_ldata()?, args))))
}

/// The frame's public code is set by hand before it is read.
pub fn frame_as_ldata_by(args: &[u8], _: &mut [u8]) -> Said {
    let (&code, input) = args.split_first()?;
    let code = message_code_of(code)?;
    said(CEMIFrame::parse(input).and_then(|mut frame| {
        frame.message_code = code;
        let mut values = ldata_values(&frame.as_ldata()?, input);
        values.push(frame.is_ldata().into());
        Ok(values)
    }))
}
