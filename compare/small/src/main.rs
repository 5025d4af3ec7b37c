//! Small worlds gone through whole: all lines of up to six words under some hundred small cards,
//! with spellings that differ, with words spelled alike and with a dead name; all cards of up to
//! two or three productions; all plans with small numbers for lines of up to two words; and all
//! sheets of up to seven bytes.
//!
//! `small [--rival-only]`; the option compares the independent chart parser and leaves the library
//! out.

mod enumerate;
mod names;
mod plans;
mod sheets;
mod worlds;

use against::calls::{BOTH, RIVAL_ONLY, Who};
use against::compare::{Comparison, Effort, Outcome};
use against::expected::Scratch;
use against::tally::Tally;
use enumerate::lists;
use independent::enumeration::Bounds;
use independent::random::Random;
use independent::write::CardText;
use plans::Tried;
use std::process::ExitCode;
use std::time::Instant;

const MOST_WORDS: usize = 6;

/// Cards of each kind, with spellings that differ and with words spelled alike.
const ROUNDS: usize = 16;
const ROUNDS_ALIKE: usize = 4;
const ROUNDS_DEAD: usize = 2;

const EFFORT: Effort = Effort {
    other_rooms: 1,
    damaged_plans: 1,
    recognizer_work: 4_000_000,
    enumeration: Bounds {
        plans: 1_000,
        work: 12_000,
    },
    search_work: 4_000_000,
    lines_a_trial: 6,
    closure_items: 60,
    sheet_rooms: 3,
};

fn main() -> ExitCode {
    let who = match std::env::args().nth(1).as_deref() {
        None => BOTH,
        Some("--rival-only") => RIVAL_ONLY,
        Some(option) => {
            eprintln!("unknown option {option}");
            return ExitCode::from(2);
        }
    };
    let start = Instant::now();
    match all_comparisons(who) {
        Ok(()) => {
            println!("{:.1} s", start.elapsed().as_secs_f64());
            ExitCode::SUCCESS
        }
        Err(disagreement) => {
            println!("disagreement\n{disagreement}");
            ExitCode::FAILURE
        }
    }
}

fn all_comparisons(who: Who) -> Outcome {
    all_lines(who, "spellings that differ", &worlds::cards(ROUNDS))?;
    all_lines(
        who,
        "words spelled alike",
        &worlds::cards_alike(ROUNDS_ALIKE),
    )?;
    all_lines(
        who,
        "a dead name",
        &worlds::cards_with_a_dead_name(ROUNDS_DEAD),
    )?;
    all_names(who)?;
    all_plans(who)?;
    all_dead_plans(who)?;
    all_sheets(who)
}

/// Compares with a tally, from the start of the same random numbers each time.
fn compare(who: Who, tally: &mut Tally, what: impl FnOnce(&mut Comparison) -> Outcome) -> Outcome {
    what(&mut Comparison {
        who,
        random: &mut Random::new(0),
        scratch: &mut Scratch::default(),
        tally,
        effort: &EFFORT,
    })
}

fn all_lines(who: Who, kind: &str, cards: &[CardText]) -> Outcome {
    let mut tally = Tally::default();
    compare(who, &mut tally, |comparison| {
        cards
            .iter()
            .try_for_each(|text| lines_under(text, comparison))
    })?;
    println!(
        "{} cards with {kind}, all lines of up to {MOST_WORDS} words: {tally}",
        cards.len()
    );
    Ok(())
}

fn lines_under(text: &CardText, comparison: &mut Comparison) -> Outcome {
    let card = text.bytes();
    let spellings = spellings(text);
    for words in 0..=MOST_WORDS {
        for numbers in lists(spellings.len(), words) {
            comparison.run(&card, &line(&spellings, &numbers))?;
            comparison.tally.cases += 1;
        }
    }
    Ok(())
}

/// The spellings on a card, each once.
fn spellings(text: &CardText) -> Vec<&str> {
    let mut list: Vec<&str> = Vec::new();
    for word in &text.words {
        if !list.contains(&word.as_str()) {
            list.push(word);
        }
    }
    list
}

fn line(spellings: &[&str], numbers: &[usize]) -> Vec<u8> {
    let spelled: Vec<&str> = numbers.iter().map(|&number| spellings[number]).collect();
    spelled.join(" ").into_bytes()
}

fn all_plans(who: Who) -> Outcome {
    let mut tried = Tried::default();
    for (number, text) in worlds::cards_for_plans().iter().enumerate() {
        let card = text.bytes();
        let spellings = spellings(text);
        for words in 1..=2 {
            for numbers in lists(spellings.len(), words) {
                // Places past the line are tried everywhere for one word, for two words once.
                let most_place = match (words, number) {
                    (1, _) => 4,
                    (_, 0) if numbers == [0, 0] => 3,
                    _ => 2,
                };
                let line = line(&spellings, &numbers);
                plans::try_all(who, &card, &line, words, most_place, &mut tried)?;
            }
        }
    }
    println!(
        "{} plans checked against the literal replayer, {} of them pass",
        tried.all, tried.passing
    );
    Ok(())
}

fn all_dead_plans(who: Who) -> Outcome {
    let mut tried = Tried::default();
    for text in worlds::dead_cards_for_plans() {
        let card = text.bytes();
        for words in 1..=2 {
            let line = line(&["a"], &vec![0; words]);
            plans::try_dead(who, &card, &line, words, &mut tried)?;
        }
    }
    println!(
        "{} plans under cards with dead names, {} of them derivations, none by a dead name",
        tried.all, tried.passing
    );
    Ok(())
}

fn all_names(who: Who) -> Outcome {
    let mut tried = names::Tried::default();
    compare(who, &mut Tally::default(), |comparison| {
        names::try_all(comparison, &mut tried)
    })?;
    assert_eq!(tried, names::KNOWN);
    println!(
        "all {} cards of few productions, {} of them with dead names",
        tried.all, tried.dead
    );
    Ok(())
}

fn all_sheets(who: Who) -> Outcome {
    let mut tally = Tally::default();
    let cards = worlds::cards_for_sheets();
    for text in &cards {
        compare(who, &mut tally, |comparison| {
            sheets::try_all(&text.bytes(), comparison)
        })?;
    }
    println!(
        "{} cards, all sheets of up to {} bytes: {tally}",
        cards.len(),
        sheets::MOST_BYTES
    );
    Ok(())
}
