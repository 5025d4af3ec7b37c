//! Sheets drawn at random: lines that are read, in half of the sheets with a fault or two.

use crate::damage;
use crate::lines;
use crate::names::table;
use independent::chart;
use independent::random::Random;
use independent::write::CardText;

/// How many lines are drawn for a sheet's stock, and how many are kept, with pairs and without.
const DRAWN_LINES: usize = 20;
const LINES_WITH_PAIRS: usize = 3;
const LINES_WITHOUT: usize = 2;

/// Most items of a line that is kept.
const MOST_ITEMS: usize = 600;

pub fn draw(card: &CardText, random: &mut Random, most_words: usize) -> Vec<u8> {
    let stock = stock(card, random, most_words);
    let count = line_count(random);
    let mut lines: Vec<Vec<u8>> = (0..count).map(|_| random.pick(&stock).clone()).collect();
    let faults = *random.pick(&[0, 0, 0, 1, 1, 2]);
    for _ in 0..faults.min(count) {
        let anywhere = random.below(count);
        let at = *random.pick(&[0, anywhere, anywhere, count - 1]);
        fault(&mut lines[at], card, random, most_words);
    }
    let mut sheet = lines.join(&b'\n');
    if random.once_in(2) {
        sheet.push(b'\n');
    }
    sheet
}

/// Mostly few lines; at times about as many as a sheet may have.
fn line_count(random: &mut Random) -> usize {
    match random.below(16) {
        0 => random.below(2),
        1..=9 => random.between(1, 6),
        10..=12 => random.between(7, 30),
        13 => random.between(31, 66),
        _ => *random.pick(&[63, 64, 64, 65, 66]),
    }
}

/// Lines that are read; under a card that hardly reads any, one that may not be. Where a name is
/// dead, they are read without the productions that never apply.
fn stock(card: &CardText, random: &mut Random, most_words: usize) -> Vec<Vec<u8>> {
    let living = CardText {
        productions: table::living(&card.productions),
        ..card.clone()
    };
    let card_bytes = living.bytes();
    let [mut with_pairs, mut without] = [Vec::new(), Vec::new()];
    for _ in 0..DRAWN_LINES {
        let line = drawn_line(card, random, most_words);
        match pairs(&card_bytes, &line) {
            None => {}
            Some(0) => without.push(line),
            Some(_) => with_pairs.push(line),
        }
    }
    with_pairs.truncate(LINES_WITH_PAIRS);
    without.truncate(LINES_WITHOUT);
    let stock = [with_pairs, without].concat();
    if stock.is_empty() {
        return vec![drawn_line(card, random, most_words)];
    }
    stock
}

fn drawn_line(card: &CardText, random: &mut Random, most_words: usize) -> Vec<u8> {
    let words = lines::draw(card, random, most_words);
    lines::spell(card, random, &words)
}

/// How many pairs a line has; none if it is not read, or has many items.
fn pairs(card: &[u8], line: &[u8]) -> Option<u32> {
    let answer = chart::sheet(card, line, &mut [0; 16 * MOST_ITEMS], &mut [0; 33]);
    (answer.number == 0).then_some(answer.records)
}

/// An empty line, one that may have no reading, or one that is refused, or nearly.
fn fault(line: &mut Vec<u8>, card: &CardText, random: &mut Random, most_words: usize) {
    match random.below(6) {
        0 => line.clear(),
        1 | 2 => *line = drawn_line(card, random, most_words),
        _ => damage::line(line, card, random),
    }
}
