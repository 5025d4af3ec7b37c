//! Items and their records.

/// [A, γ, i, j | B, p, q]; `index` 0 and no `gone` go together.
#[derive(Clone, Copy, Debug, PartialEq, Eq, Hash, PartialOrd, Ord)]
pub struct Item {
    pub nonterminal: u8,
    pub index: u8,
    pub i: u8,
    pub j: u8,
    pub gone: Option<Gone>,
}

/// The first place down the spine where the index has gone.
#[derive(Clone, Copy, Debug, PartialEq, Eq, Hash, PartialOrd, Ord)]
pub struct Gone {
    pub nonterminal: u8,
    pub p: u8,
    pub q: u8,
}

/// One record of sixteen bytes: an item and the step that derived it.
#[derive(Clone, Copy, Debug, PartialEq, Eq)]
pub struct Record {
    pub item: Item,
    pub production: u8,
    pub side: Option<usize>,
    pub dependent: Option<usize>,
    pub continuation: Option<usize>,
}

impl Record {
    /// None if the bytes are not laid out as a record.
    pub fn decode(bytes: &[u8; 16]) -> Option<Self> {
        let [
            nonterminal,
            index,
            i,
            j,
            b,
            p,
            q,
            production,
            positions @ ..,
            0,
            0,
        ] = *bytes
        else {
            return None;
        };
        let gone = match (index, b, p, q) {
            (0, 255, 0, 0) => None,
            (0, ..) | (_, 255, ..) => return None,
            _ => Some(Gone {
                nonterminal: b,
                p,
                q,
            }),
        };
        let position = |at: usize| {
            let number = u16::from_le_bytes([positions[at], positions[at + 1]]);
            (number != u16::MAX).then_some(usize::from(number))
        };
        Some(Record {
            item: Item {
                nonterminal,
                index,
                i,
                j,
                gone,
            },
            production,
            side: position(0),
            dependent: position(2),
            continuation: position(4),
        })
    }
}
