// Stand-in for protocol/constants.rs: exactly the values of document 01.

pub const HEADER_SIZE_10: u8 = 6;
pub const KNXNETIP_VERSION_10: u8 = 0x10;
pub const IPV4_UDP: u8 = 1;
pub const MAX_FRAME_SIZE: usize = 512;

pub const SERVICE_CONNECT_REQUEST: u16 = 0x0205;
pub const SERVICE_CONNECTIONSTATE_REQUEST: u16 = 0x0207;
pub const SERVICE_DISCONNECT_REQUEST: u16 = 0x0209;
pub const SERVICE_TUNNELING_REQUEST: u16 = 0x0420;
pub const SERVICE_TUNNELING_ACK: u16 = 0x0421;

#[derive(Debug, Clone, Copy, PartialEq, Eq)]
#[repr(u16)]
pub enum ServiceType {
    ConnectRequest = 0x0205,
    ConnectResponse = 0x0206,
    ConnectionstateRequest = 0x0207,
    ConnectionstateResponse = 0x0208,
    DisconnectRequest = 0x0209,
    DisconnectResponse = 0x020A,
    TunnellingRequest = 0x0420,
    TunnellingAck = 0x0421,
}

impl ServiceType {
    pub const fn from_u16(value: u16) -> Option<Self> {
        match value {
            0x0205 => Some(Self::ConnectRequest),
            0x0206 => Some(Self::ConnectResponse),
            0x0207 => Some(Self::ConnectionstateRequest),
            0x0208 => Some(Self::ConnectionstateResponse),
            0x0209 => Some(Self::DisconnectRequest),
            0x020A => Some(Self::DisconnectResponse),
            0x0420 => Some(Self::TunnellingRequest),
            0x0421 => Some(Self::TunnellingAck),
            _ => None,
        }
    }

    pub const fn to_u16(self) -> u16 {
        self as u16
    }
}

#[derive(Debug, Clone, Copy, PartialEq, Eq)]
#[repr(u8)]
pub enum CEMIMessageCode {
    LRawReq = 0x10,
    LDataReq = 0x11,
    LDataInd = 0x29,
    LBusmonInd = 0x2B,
    LRawInd = 0x2D,
    LDataCon = 0x2E,
    LRawCon = 0x2F,
}

impl CEMIMessageCode {
    pub const fn from_u8(value: u8) -> Option<Self> {
        match value {
            0x10 => Some(Self::LRawReq),
            0x11 => Some(Self::LDataReq),
            0x29 => Some(Self::LDataInd),
            0x2B => Some(Self::LBusmonInd),
            0x2D => Some(Self::LRawInd),
            0x2E => Some(Self::LDataCon),
            0x2F => Some(Self::LRawCon),
            _ => None,
        }
    }

    pub const fn to_u8(self) -> u8 {
        self as u8
    }
}

#[derive(Debug, Clone, Copy, PartialEq, Eq)]
#[repr(u8)]
pub enum Priority {
    System = 0,
    Normal = 1,
    Urgent = 2,
    Low = 3,
}

impl Priority {
    pub const fn from_u8(value: u8) -> Self {
        match value & 0b11 {
            0 => Self::System,
            1 => Self::Normal,
            2 => Self::Urgent,
            _ => Self::Low,
        }
    }

    pub const fn to_u8(self) -> u8 {
        self as u8
    }
}
