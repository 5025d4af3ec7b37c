//! What the calls answer.

/// Read: the number (0 = read), words of the line, derivable items, steps of the plan.
#[derive(Clone, Copy, Debug, Default, PartialEq, Eq)]
pub struct ReadAnswer {
    pub number: u16,
    pub words: u16,
    pub items: u16,
    pub steps: u16,
}

impl ReadAnswer {
    pub fn refused(number: u16) -> Self {
        ReadAnswer {
            number,
            ..ReadAnswer::default()
        }
    }
}

/// Pairs: the number (0 = passed) and how many pairs were written.
#[derive(Clone, Copy, Debug, Default, PartialEq, Eq)]
pub struct PairsAnswer {
    pub number: u16,
    pub count: u16,
}

impl PairsAnswer {
    pub fn refused(number: u16) -> Self {
        PairsAnswer { number, count: 0 }
    }
}

/// Name: the number, and where in the card the spelling stands.
#[derive(Clone, Copy, Debug, Default, PartialEq, Eq)]
pub struct NameAnswer {
    pub number: u16,
    pub offset: u16,
    pub length: u16,
}

impl NameAnswer {
    pub fn refused(number: u16) -> Self {
        NameAnswer {
            number,
            ..NameAnswer::default()
        }
    }
}

/// Sheet: the number (0 = all lines are read), the line that it is about, how many records were
/// written and how many pairs were dropped.
#[derive(Clone, Copy, Debug, Default, PartialEq, Eq)]
pub struct SheetAnswer {
    pub number: u16,
    pub line: u8,
    pub records: u32,
    pub dropped: u32,
}

impl SheetAnswer {
    pub fn refused(number: u16, line: u8) -> Self {
        SheetAnswer {
            number,
            line,
            ..SheetAnswer::default()
        }
    }
}
