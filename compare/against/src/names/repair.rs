//! Most cards that are drawn have to pass. Names that are drawn for the right may be on no left.

use super::table::{Row, dead, lefts};
use independent::random::Random;
use independent::write::CardText;

const MOST_PRODUCTIONS: usize = 64;

/// How many names are changed one by one, before the rest is settled in the way that cannot fail.
const CHANGES: usize = 24;

/// Changes productions until no name is dead. An entry without a word production gets none, so that
/// words spelled alike stay as they were drawn.
pub fn repair(card: &mut CardText, random: &mut Random) {
    for _ in 0..CHANGES {
        let dead = dead(&card.productions);
        if dead.is_empty() {
            return;
        }
        let name = *random.pick(&dead);
        match random.below(4) {
            0 | 1 => redirect(&mut card.productions, name, random),
            2 => change_a_left(&mut card.productions, name, random),
            _ => add_a_left(&mut card.productions, name, random),
        }
    }
    for name in dead(&card.productions) {
        redirect(&mut card.productions, name, random);
    }
}

/// Each place on the right that has the name gets one that is on some left.
fn redirect(rows: &mut [Row], name: u8, random: &mut Random) {
    let lefts: Vec<u8> = rows.iter().map(|row| row[1]).collect();
    for row in rows {
        if row[0] == 0 {
            continue;
        }
        for place in &mut row[2..4] {
            if *place == name {
                *place = *random.pick(&lefts);
            }
        }
    }
}

/// A production gets the name on its left. It is one whose own name has another left side, if a few
/// trials find one; or else that name may be the next that is dead.
fn change_a_left(rows: &mut [Row], name: u8, random: &mut Random) {
    let mut row = random.below(rows.len());
    for _ in 0..4 {
        if lefts(rows, rows[row][1]) > 1 {
            break;
        }
        row = random.below(rows.len());
    }
    rows[row][1] = name;
}

/// A production more, which has the name on its left and is otherwise one of the others.
fn add_a_left(rows: &mut Vec<Row>, name: u8, random: &mut Random) {
    if rows.len() < MOST_PRODUCTIONS {
        let mut row = *random.pick(rows);
        row[1] = name;
        rows.insert(random.below(rows.len() + 1), row);
    }
}
