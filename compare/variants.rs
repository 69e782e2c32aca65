// The numbers of variants, 1 and up in the order of document 01, for APCI and the types of additional
// information in that of cemi.rs; they are no codes of KNX. A record and a line name a variant by its
// number, each side of the comparison by a match of its own: two variants in each other's place are
// then seen, whatever their codes say.

use crate::protocol::cemi::{AdditionalInfoType, Apci, Tpci};
use crate::protocol::constants::{CEMIMessageCode, Priority, ServiceType};

pub fn service_number(service: ServiceType) -> usize {
    match service {
        ServiceType::ConnectRequest => 1,
        ServiceType::ConnectResponse => 2,
        ServiceType::ConnectionstateRequest => 3,
        ServiceType::ConnectionstateResponse => 4,
        ServiceType::DisconnectRequest => 5,
        ServiceType::DisconnectResponse => 6,
        ServiceType::TunnellingRequest => 7,
        ServiceType::TunnellingAck => 8,
    }
}

pub fn service_of(number: u8) -> Option<ServiceType> {
    Some(match number {
        1 => ServiceType::ConnectRequest,
        2 => ServiceType::ConnectResponse,
        3 => ServiceType::ConnectionstateRequest,
        4 => ServiceType::ConnectionstateResponse,
        5 => ServiceType::DisconnectRequest,
        6 => ServiceType::DisconnectResponse,
        7 => ServiceType::TunnellingRequest,
        8 => ServiceType::TunnellingAck,
        _ => return None,
    })
}

pub fn message_code_number(code: CEMIMessageCode) -> usize {
    match code {
        CEMIMessageCode::LDataReq => 1,
        CEMIMessageCode::LDataInd => 2,
        CEMIMessageCode::LDataCon => 3,
        CEMIMessageCode::LRawReq => 4,
        CEMIMessageCode::LRawInd => 5,
        CEMIMessageCode::LRawCon => 6,
        CEMIMessageCode::LBusmonInd => 7,
    }
}

pub fn message_code_of(number: u8) -> Option<CEMIMessageCode> {
    Some(match number {
        1 => CEMIMessageCode::LDataReq,
        2 => CEMIMessageCode::LDataInd,
        3 => CEMIMessageCode::LDataCon,
        4 => CEMIMessageCode::LRawReq,
        5 => CEMIMessageCode::LRawInd,
        6 => CEMIMessageCode::LRawCon,
        7 => CEMIMessageCode::LBusmonInd,
        _ => return None,
    })
}

pub fn priority_number(priority: Priority) -> usize {
    match priority {
        Priority::System => 1,
        Priority::Normal => 2,
        Priority::Urgent => 3,
        Priority::Low => 4,
    }
}

pub fn priority_of(number: u8) -> Option<Priority> {
    Some(match number {
        1 => Priority::System,
        2 => Priority::Normal,
        3 => Priority::Urgent,
        4 => Priority::Low,
        _ => return None,
    })
}

/// 0 for `Unknown`, whatever its code; 14 is kept for a control code of the standard count, which
/// the Rust does not have.
pub fn apci_number(apci: Apci) -> usize {
    match apci {
        Apci::Unknown(_) => 0,
        Apci::GroupValueRead => 1,
        Apci::GroupValueResponse => 2,
        Apci::GroupValueWrite => 3,
        Apci::IndividualAddressWrite => 4,
        Apci::IndividualAddressRead => 5,
        Apci::IndividualAddressResponse => 6,
        Apci::AdcRead => 7,
        Apci::AdcResponse => 8,
        Apci::MemoryRead => 9,
        Apci::MemoryResponse => 10,
        Apci::MemoryWrite => 11,
        Apci::DeviceDescriptorRead => 12,
        Apci::DeviceDescriptorResponse => 13,
    }
}

pub fn info_type_number(kind: AdditionalInfoType) -> usize {
    match kind {
        AdditionalInfoType::PlMediumInfo => 1,
        AdditionalInfoType::RfMediumInfo => 2,
        AdditionalInfoType::BusmonitorErrorFlags => 3,
        AdditionalInfoType::RelativeTimestamp => 4,
        AdditionalInfoType::TimeDelay => 5,
        AdditionalInfoType::ExtendedRelativeTimestamp => 6,
        AdditionalInfoType::BiBatInfo => 7,
    }
}

/// The kind's number, from 0 on, and the sequence, 0 where the packet has none.
pub fn tpci_numbers(tpci: Tpci) -> [usize; 2] {
    match tpci {
        Tpci::UnnumberedData => [0, 0],
        Tpci::NumberedData { sequence } => [1, sequence.into()],
        Tpci::UnnumberedControl => [2, 0],
        Tpci::NumberedControl { sequence } => [3, sequence.into()],
    }
}

/// The sequence of an unnumbered packet is ignored: it has none.
pub fn tpci_of(kind: u8, sequence: u8) -> Option<Tpci> {
    match kind {
        0 => Some(Tpci::UnnumberedData),
        1 => Some(Tpci::NumberedData { sequence }),
        2 => Some(Tpci::UnnumberedControl),
        3 => Some(Tpci::NumberedControl { sequence }),
        _ => None,
    }
}
