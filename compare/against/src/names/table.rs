//! The names in a table of productions, for those who make cards and count them. The table may be
//! broken.

/// Kind, A, B, C, index, zero.
pub type Row = [u8; 6];

/// The two nonterminals on the right; none if the kind is not one of 1 to 6.
pub fn right(row: &Row) -> &[u8] {
    match row[0] {
        1..=6 => &row[2..4],
        _ => &[],
    }
}

/// The side stands first where the kind is odd.
pub fn is_side(kind: u8, place: usize) -> bool {
    (kind % 2 == 1) == (place == 0)
}

/// How many productions have the name on the left.
pub fn lefts(rows: &[Row], name: u8) -> usize {
    rows.iter().filter(|row| row[1] == name).count()
}

/// The names on the right, each once.
pub fn on_the_right(rows: &[Row]) -> Vec<u8> {
    let mut names: Vec<u8> = rows.iter().flat_map(right).copied().collect();
    names.sort_unstable();
    names.dedup();
    names
}

/// The names on the right that are on no left, each once.
pub fn dead(rows: &[Row]) -> Vec<u8> {
    let mut names = on_the_right(rows);
    names.retain(|&name| lefts(rows, name) == 0);
    names
}

/// The productions that have no dead name on the right.
pub fn without_dead(rows: &[Row]) -> Vec<Row> {
    let dead = dead(rows);
    let lives = |row: &&Row| !right(row).iter().any(|name| dead.contains(name));
    rows.iter().filter(lives).copied().collect()
}

/// The same, until no name is dead: a name may have had its left sides there only.
pub fn living(rows: &[Row]) -> Vec<Row> {
    let mut rows = rows.to_vec();
    while !dead(&rows).is_empty() {
        rows = without_dead(&rows);
    }
    rows
}

/// The productions of a card's bytes, as far as these go.
pub fn rows(card: &[u8]) -> &[Row] {
    let table = card.get(start(card)..).unwrap_or(&[]);
    table.as_chunks().0
}

pub fn rows_mut(card: &mut [u8]) -> &mut [Row] {
    let start = start(card);
    let table = card.get_mut(start..).unwrap_or(&mut []);
    table.as_chunks_mut().0
}

/// Where the table begins if the count of words is right.
fn start(card: &[u8]) -> usize {
    12 + 12 * card.get(5).map_or(0, |&words| usize::from(words))
}
