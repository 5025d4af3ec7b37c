//! Names made dead on purpose, in the bytes of a card that may have other faults.

use super::table::{lefts, on_the_right, right, rows, rows_mut};
use independent::random::Random;

const MOST_NONTERMINALS: u8 = 16;

/// Makes a name dead, if the card has one for that: by putting it on a right, or by taking it off
/// every left.
pub fn dead_name(card: &mut [u8], random: &mut Random) {
    if card.len() < 12 {
        return;
    }
    if random.once_in(2) && put_on_a_right(card, random) {
        return;
    }
    take_off_the_left(card, random);
}

/// As the first, as the second, or as both names on the right of a production. Whether it has done
/// so.
fn put_on_a_right(card: &mut [u8], random: &mut Random) -> bool {
    let has_right = |number: &usize| !right(&rows(card)[*number]).is_empty();
    let pairs: Vec<usize> = (0..rows(card).len()).filter(has_right).collect();
    if pairs.is_empty() {
        return false;
    }
    let Some(name) = without_left(card, random) else {
        return false;
    };
    let row = &mut rows_mut(card)[*random.pick(&pairs)];
    match random.below(5) {
        0 => row[2..4].fill(name),
        1 | 2 => row[2] = name,
        _ => row[3] = name,
    }
    true
}

/// A nonterminal on no left. If there is none, one more is counted, where the limit allows it.
fn without_left(card: &mut [u8], random: &mut Random) -> Option<u8> {
    let count = card[4];
    let has_none = |name: &u8| lefts(rows(card), *name) == 0;
    let names: Vec<u8> = (0..count.min(MOST_NONTERMINALS)).filter(has_none).collect();
    if !names.is_empty() {
        return Some(*random.pick(&names));
    }
    let one_more = count < MOST_NONTERMINALS;
    one_more.then(|| {
        card[4] += 1;
        count
    })
}

/// Another name takes all the left sides of one that stands on a right. Mostly that is one left
/// side, of a word production or of another.
fn take_off_the_left(card: &mut [u8], random: &mut Random) {
    let mut names = on_the_right(rows(card));
    let with_one = |name: &u8| lefts(rows(card), *name) == 1;
    if !random.once_in(4) && names.iter().any(with_one) {
        names.retain(with_one);
    }
    let counted = usize::from(card[4]);
    if names.is_empty() || counted < 2 {
        return;
    }
    let name = *random.pick(&names);
    let other = (usize::from(name) + random.between(1, counted - 1)) % counted;
    for row in rows_mut(card) {
        if row[1] == name {
            row[1] = other as u8;
        }
    }
}
