//! Where a card's nonterminals stand in its productions, as sets of production numbers.
//! A card has at most 64 productions, so each set is one number.

use super::card::Card;

/// Productions by the part that one nonterminal plays in them.
#[derive(Clone, Copy, Default)]
pub struct Uses {
    /// It stands on the left.
    pub headed: u64,
    /// It is the first element, or the second.
    pub first: Roles,
    pub second: Roles,
}

#[derive(Clone, Copy, Default)]
pub struct Roles {
    /// As the side.
    pub side: u64,
    /// As the dependent of a take or a keep: any item will do.
    pub dependent: u64,
    /// As the dependent of a give: an item with the index given is needed.
    pub giver: u64,
}

impl Roles {
    /// The productions served by a nonterminal that has, over some stretch, an item with an
    /// empty stack or not, and items with the indices of the productions `indexed`.
    pub fn served(&self, bare: bool, indexed: u64) -> u64 {
        let side = if bare { self.side } else { 0 };
        side | self.dependent | self.giver & indexed
    }
}

pub struct ProductionSets {
    pub uses: [Uses; 16],
    /// Productions of kinds 1 to 6 by index.
    pub indexed: [u64; 9],
    /// Word productions by word.
    pub words: [u64; 32],
}

impl ProductionSets {
    #[inline(always)]
    pub fn empty() -> Self {
        ProductionSets {
            uses: [Uses::default(); 16],
            indexed: [0; 9],
            words: [0; 32],
        }
    }

    pub fn add_all(&mut self, card: &Card) {
        for (number, production) in card.productions.iter().enumerate() {
            self.add(1 << number, production);
        }
    }

    fn add(&mut self, production: u64, &[kind, a, b, c, g, _]: &[u8; 6]) {
        let [a, b, c] = [a, b, c].map(usize::from);
        if kind == 0 {
            self.words[b] |= production;
            return;
        }
        self.uses[a].headed |= production;
        if kind % 2 == 1 {
            self.uses[b].first.side |= production;
            Self::add_dependent(&mut self.uses[c].second, kind, production);
        } else {
            self.uses[c].second.side |= production;
            Self::add_dependent(&mut self.uses[b].first, kind, production);
        }
        self.indexed[usize::from(g)] |= production;
    }

    fn add_dependent(roles: &mut Roles, kind: u8, production: u64) {
        if kind >= 5 {
            roles.giver |= production;
        } else {
            roles.dependent |= production;
        }
    }

    /// Word productions of a set of words.
    pub fn of_words(&self, words: u32) -> u64 {
        let mut productions = 0;
        let mut rest = words;
        while rest != 0 {
            productions |= self.words[rest.trailing_zeros() as usize];
            rest &= rest - 1;
        }
        productions
    }

    /// Productions whose index is in a set of indices.
    pub fn indexed_by(&self, indices: u32) -> u64 {
        let mut productions = 0;
        let mut rest = indices;
        while rest != 0 {
            productions |= self.indexed[rest.trailing_zeros() as usize];
            rest &= rest - 1;
        }
        productions
    }

    /// Productions that differ from this one in the side alone: where one of them has made its
    /// items at a split, the others make the same ones.
    pub fn alike(&self, &[kind, a, b, c, g, _]: &[u8; 6]) -> u64 {
        let [a, b, c] = [a, b, c].map(usize::from);
        let roles = if kind % 2 == 1 {
            &self.uses[c].second
        } else {
            &self.uses[b].first
        };
        let dependent = if kind >= 5 {
            roles.giver
        } else {
            roles.dependent
        };
        self.uses[a].headed & dependent & self.indexed[usize::from(g)]
    }
}
