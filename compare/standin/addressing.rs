// Stand-in for addressing/: two kinds of sixteen bits, kept apart.

#[derive(Debug, Clone, Copy, PartialEq, Eq)]
pub struct GroupAddress(u16);

impl GroupAddress {
    pub const fn raw(self) -> u16 {
        self.0
    }
}

impl From<u16> for GroupAddress {
    fn from(raw: u16) -> Self {
        Self(raw)
    }
}

#[derive(Debug, Clone, Copy, PartialEq, Eq)]
pub struct IndividualAddress(u16);

impl IndividualAddress {
    pub const fn raw(self) -> u16 {
        self.0
    }
}

impl From<u16> for IndividualAddress {
    fn from(raw: u16) -> Self {
        Self(raw)
    }
}
