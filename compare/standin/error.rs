// Stand-in for error.rs: the errors as the numbers of document 01.

pub type Result<T> = core::result::Result<T, KnxError>;

#[derive(Debug, Clone, Copy, PartialEq, Eq)]
pub enum KnxError {
    BufferTooSmall,
    InvalidFrame,
    UnsupportedVersion,
    UnsupportedServiceType,
    PayloadTooLarge,
    InvalidMessageCode,
}

impl KnxError {
    pub const fn buffer_too_small() -> Self {
        Self::BufferTooSmall
    }

    pub const fn invalid_frame() -> Self {
        Self::InvalidFrame
    }

    pub const fn unsupported_version() -> Self {
        Self::UnsupportedVersion
    }

    pub const fn unsupported_service_type() -> Self {
        Self::UnsupportedServiceType
    }

    pub const fn payload_too_large() -> Self {
        Self::PayloadTooLarge
    }

    pub const fn invalid_message_code() -> Self {
        Self::InvalidMessageCode
    }

    pub fn number(self) -> u8 {
        match self {
            Self::BufferTooSmall => 1,
            Self::InvalidFrame => 2,
            Self::UnsupportedVersion => 3,
            Self::UnsupportedServiceType => 4,
            Self::PayloadTooLarge => 5,
            Self::InvalidMessageCode => 6,
        }
    }
}
