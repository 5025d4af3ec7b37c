//! What document 02 says of dead names, put to both card checks and to the chart parser's calls.

use independent::answers::{NameAnswer, PairsAnswer, ReadAnswer, SheetAnswer};
use independent::card::Card;
use independent::write::{CardText, tomato, tomato_with_twins};
use independent::{chart, closure, line, rewriting};

const START: u8 = 0;
const ROW: u8 = 1;
const FEED: u8 = 2;

const ROW_WORD: [u8; 6] = [0, ROW, 0, 0, 0, 0];
const FEED_WORD: [u8; 6] = [0, FEED, 1, 0, 0, 0];
const ORDER: [u8; 6] = [3, START, ROW, FEED, 0, 0];

fn card(nonterminals: u8, productions: &[[u8; 6]]) -> CardText {
    CardText {
        nonterminals,
        indices: 1,
        words: ["coir", "mild", "rain"].map(String::from).to_vec(),
        productions: productions.to_vec(),
    }
}

/// The number that both checks give.
fn number(card: &[u8]) -> u16 {
    let number = chart::card_check(card);
    assert_eq!(Card::accept(card).err().unwrap_or(0), number);
    number
}

fn number_of(nonterminals: u8, productions: &[[u8; 6]]) -> u16 {
    number(&card(nonterminals, productions).bytes())
}

#[test]
fn the_tomato_card_passes() {
    assert_eq!(number(&tomato().bytes()), 0);
    assert_eq!(number(&tomato_with_twins().bytes()), 0);
}

/// Each production of the tomato card for a word has the only left side of its nonterminal, but for
/// that of T, which stands on the left of takes too.
#[test]
fn a_misspelled_left_side_is_found() {
    for (production, expected) in [(0, 42), (1, 42), (2, 0), (3, 42), (4, 42), (5, 0)] {
        let mut card = tomato();
        card.productions[production][1] = 1;
        assert_eq!(number(&card.bytes()), expected, "{production}");
        card.productions.remove(production);
        assert_eq!(number(&card.bytes()), expected, "{production}");
    }
}

#[test]
fn both_places_of_each_kind_are_looked_at() {
    for kind in 1..=6 {
        let index = u8::from(!matches!(kind, 3 | 4));
        for [first, second] in [[ROW, FEED], [FEED, ROW], [FEED, FEED]] {
            let order = [kind, START, first, second, index, 0];
            assert_eq!(number_of(3, &[ROW_WORD, order]), 42, "{order:?}");
            assert_eq!(number_of(3, &[ROW_WORD, order, FEED_WORD]), 0, "{order:?}");
            let longer = [4, FEED, ROW, ROW, 0, 0];
            assert_eq!(number_of(3, &[longer, order, ROW_WORD]), 0, "{order:?}");
        }
    }
}

#[test]
fn words_zeros_and_indices_are_no_names() {
    assert_eq!(number_of(3, &[[0, START, 2, 0, 0, 0]]), 0);
    assert_eq!(number_of(3, &[ROW_WORD]), 0);
    assert_eq!(number_of(3, &[[5, START, START, START, 1, 0]]), 0);
    assert_eq!(number_of(16, &[ROW_WORD, [3, ROW, ROW, ROW, 0, 0]]), 0);
    assert_eq!(number_of(16, &[ROW_WORD, [3, ROW, ROW, 15, 0, 0]]), 42);
}

#[test]
fn the_start_may_be_dead_too() {
    assert_eq!(number_of(2, &[ROW_WORD, [3, ROW, START, ROW, 0, 0]]), 42);
    assert_eq!(number_of(2, &[ROW_WORD, [3, START, START, ROW, 0, 0]]), 0);
}

/// Names that come to no words have left sides all the same.
#[test]
fn a_name_on_some_left_is_not_dead() {
    let itself = [3, FEED, FEED, ROW, 0, 0];
    assert_eq!(number_of(3, &[ROW_WORD, ORDER, itself]), 0);
    let through_another = [3, FEED, 3, 3, 0, 0];
    let rules = [ROW_WORD, ORDER, through_another, [3, 3, FEED, FEED, 0, 0]];
    assert_eq!(number_of(4, &rules), 0);
    assert_eq!(number_of(4, &rules[..3]), 42);
    let dead = Card::decode(&card(4, &rules[..3]).bytes()).map(|card| card.dead_names());
    assert_eq!(dead, Ok(vec![3, 3]));
}

#[test]
fn other_refusals_of_the_card_come_first() {
    let dead = card(3, &[ROW_WORD, ORDER]).bytes();
    assert_eq!(number(&dead), 42);
    for (at, byte, expected) in [(0, b'l', 11), (4, 17, 12), (8, 0, 13), (13, b'C', 14)] {
        let mut card = dead.clone();
        card[at] = byte;
        assert_eq!(number(&card), expected);
    }
    let broken = [7, START, START, START, 0, 0];
    assert_eq!(number_of(3, &[broken, ORDER]), 16);
    assert_eq!(number_of(3, &[ORDER, broken]), 16);
    assert_eq!(number_of(2, &[ROW_WORD, ORDER]), 16);
}

/// Whatever else is wrong, and in rooms of no bytes.
#[test]
fn the_calls_refuse_the_card_first() {
    let card = card(3, &[ROW_WORD, ORDER]).bytes();
    for line in ["coir mild", "coir", "", "Coir", "wool", &"coir ".repeat(25)] {
        let line = line.as_bytes();
        let read = chart::read(&card, line, &mut [], &mut []);
        assert_eq!(read, ReadAnswer::refused(42));
        assert_eq!(chart::check(&card, line, &[1]), 42);
        let pairs = chart::pairs(&card, line, &[], &mut []);
        assert_eq!(pairs, PairsAnswer::refused(42));
    }
    for word in [0, 3, usize::MAX] {
        assert_eq!(chart::name(&card, word), NameAnswer::refused(42));
    }
    for sheet in [&b""[..], b"coir mild", &[b'\n'; 65]] {
        let answer = chart::sheet(&card, sheet, &mut [], &mut []);
        assert_eq!(answer, SheetAnswer::refused(42, 0));
    }
}

/// Leaving out a rule with a dead name changes neither items nor derivations.
#[test]
fn a_rule_with_a_dead_name_never_applies() {
    let join = [4, START, START, START, 0, 0];
    let start_word = [0, START, 0, 0, 0, 0];
    let bytes = card(3, &[start_word, ORDER, join, ROW_WORD]).bytes();
    let with = Card::decode(&bytes).expect("a card with no fault but a dead name");
    let mut without = with.clone();
    without.productions.remove(1);
    for (text, derives) in [("coir", true), ("coir coir", true), ("coir mild", false)] {
        let line = line::places(&with, text.as_bytes()).expect("an accepted line");
        let items = [&with, &without].map(|card| closure::derivable(card, &line, 100));
        assert_eq!(items[0], items[1], "{text}");
        for card in [&with, &without] {
            let found = rewriting::derives(card, &line, 1000).expect("little work");
            assert_eq!(found.derives, derives, "{text}");
        }
    }
}
