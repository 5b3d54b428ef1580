//! The refusals, with the numbers of documents 01 and 02.

#[derive(Clone, Copy, PartialEq, Eq, PartialOrd, Ord, Debug)]
#[repr(u8)]
pub enum Refusal {
    /// N outside 3 to 64, or a port list not N long.
    RingSize = 1,
    /// Some node has more than 64 ports.
    NodePorts = 2,
    /// The ring has more than 192 ports.
    RingPorts = 3,
    /// A node or link is not 1 to N.
    OffRing = 10,
    SameEnds = 11,
    NumberLive = 12,
    NoTransmitter = 13,
    NoReceiver = 14,
    NumberNotLive = 15,
    /// The wavelength is not below W, or on a frequency plan above 63.
    NoWavelength = 16,
    /// The direction is neither 0 nor 1.
    NoDirection = 17,
    /// The move list has under three records, or for a tidying under 128.
    ShortMoveList = 20,
    /// The output buffer is shorter than what goes into it.
    ShortBuffer = 21,
    /// The table handed in breaks a ring rule.
    BrokenTable = 22,
    /// A field of the form ends early.
    FormCut = 30,
    /// A bit of the form stands where none may, or a written remark or account is 0.
    FormField = 31,
    /// Bytes follow the form's last record.
    FormTail = 32,
    /// The form's table breaks a ring rule.
    FormRules = 33,
    /// The spacing is none of 12.5, 25, 50 and 100 GHz.
    NoSpacing = 41,
    /// The starting n is not −200 to 200.
    NoStart = 42,
    /// No wavelength of the plan stands at the frequency.
    OffPlan = 43,
}

impl Refusal {
    pub fn number(self) -> u8 {
        self as u8
    }
}
