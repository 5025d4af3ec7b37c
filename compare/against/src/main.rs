//! Random comparison.
//!
//! `against [--cases N] [--seed S] [--only CASE] [--rival-only]`; `--only` runs one case of a seed
//! again, `--rival-only` compares the independent chart parser and leaves the library out.
//! A disagreement is printed with the bytes that show it, and the exit status is 1.

use against::calls::{BOTH, RIVAL_ONLY, Who};
use against::cards;
use against::compare::{Comparison, Effort, Outcome};
use against::damage;
use against::edges;
use against::expected::Scratch;
use against::first;
use against::last;
use against::lines;
use against::names;
use against::rooms;
use against::sheet;
use against::tally::Tally;
use independent::enumeration::Bounds;
use independent::random::Random;
use independent::write::CardText;
use std::process::ExitCode;
use std::time::Instant;

const DEFAULT_CASES: u64 = 120_000;

/// So many lines with two plans or more, and with their first plan found, are to be met.
const LEAST_SEVERAL: u64 = 20_000;

/// So many pairs of plans, with several words on both sides, are to be met.
const LEAST_BOTH_LONG: u64 = 2_000;

/// One case in so many has a sheet as well.
const CASES_A_SHEET: u64 = 16;

/// One case in so many gets a dead name on purpose, beside those of damaged cards.
const CASES_A_DEAD_NAME: usize = 48;

const EFFORT: Effort = Effort {
    other_rooms: 2,
    damaged_plans: 4,
    recognizer_work: 30_000,
    enumeration: Bounds {
        plans: 200,
        work: 4_000,
    },
    search_work: 30_000,
    lines_a_trial: 6,
    closure_items: 40,
    sheet_rooms: 2,
};

/// For the edges of sheets, which are tried with all lengths of room that matter.
const ALL_SHEET_ROOMS: Effort = Effort {
    sheet_rooms: usize::MAX,
    ..EFFORT
};

fn main() -> ExitCode {
    let options = match Options::from_arguments() {
        Ok(options) => options,
        Err(message) => {
            eprintln!("{message}");
            return ExitCode::from(2);
        }
    };
    println!("seed {}", options.seed);
    let start = Instant::now();
    let mut scratch = Scratch::default();
    // Edges are counted by themselves: what has to be met has to be met by random cases.
    let mut edges = Tally::default();
    if let Err(disagreement) = edge_cases(options.who, &mut edges, &mut scratch) {
        println!("disagreement in an edge case\n{disagreement}");
        return ExitCode::FAILURE;
    }
    println!("edges: {edges}");
    let mut wrong = edges.plans.orders().chain(edges.pairs.readings());
    if let Some((wrong, _)) = wrong.find(|(_, count)| *count == 0) {
        println!("on no edge: {wrong}");
        return ExitCode::FAILURE;
    }
    let mut tally = Tally::default();
    for case in options.range() {
        if let Err(disagreement) = run(&options, case, &mut tally, &mut scratch) {
            println!(
                "disagreement: seed {}, case {case}\n{disagreement}",
                options.seed
            );
            return ExitCode::FAILURE;
        }
        tally.cases += 1;
    }
    println!("{tally}; {:.1} s", start.elapsed().as_secs_f64());
    let strays = [&edges, &tally].map(Tally::strays).concat();
    if !strays.is_empty() {
        println!("numbers that should not occur: {strays:?}");
        return ExitCode::FAILURE;
    }
    if options.expects_all() {
        return seen_all(&tally);
    }
    ExitCode::SUCCESS
}

/// A run of the usual length has to meet everything that it is for.
fn seen_all(tally: &Tally) -> ExitCode {
    let missing = tally.missing();
    if !missing.is_empty() {
        println!("never occurred: {}", missing.join(", "));
        return ExitCode::FAILURE;
    }
    if tally.plans.several_found() < LEAST_SEVERAL {
        println!("too few lines with several plans whose first was found");
        return ExitCode::FAILURE;
    }
    if tally.pairs.both_long() < LEAST_BOTH_LONG {
        println!("too few pairs with several words on both sides");
        return ExitCode::FAILURE;
    }
    if !tally.recognizer_decided_most() {
        println!("the rewriting recognizer gave up too often");
        return ExitCode::FAILURE;
    }
    ExitCode::SUCCESS
}

fn edge_cases(who: Who, tally: &mut Tally, scratch: &mut Scratch) -> Outcome {
    let mut comparison = Comparison {
        who,
        random: &mut Random::new(0),
        scratch,
        tally,
        effort: &EFFORT,
    };
    for (card, line) in edges::greatest_charts() {
        comparison.run(&card, &line)?;
        comparison.tally.cases += 1;
    }
    room_edges(&mut comparison)?;
    for edge in edges::shared_spellings() {
        comparison.known(&edge)?;
        comparison.tally.cases += 1;
    }
    for edge in first::edges::all() {
        comparison.first_known(&edge)?;
        comparison.tally.cases += 1;
    }
    for edge in last::edges::all() {
        comparison.last_known(&edge)?;
        comparison.tally.cases += 1;
    }
    for sheet in last::edges::sheets() {
        comparison.last_known_sheet(&sheet)?;
        comparison.tally.cases += 1;
    }
    for edge in names::edges::all() {
        comparison.known(&edge)?;
        comparison.six_calls(&edge)?;
        comparison.tally.cases += 1;
    }
    comparison.effort = &ALL_SHEET_ROOMS;
    for (card, sheet) in sheet::edges::all() {
        comparison.sheet(&card, &sheet)?;
        comparison.tally.cases += 1;
    }
    Ok(())
}

fn room_edges(comparison: &mut Comparison) -> Outcome {
    for rooms in rooms::all() {
        comparison.rooms(&rooms)?;
        comparison.tally.cases += 1;
    }
    for rooms in rooms::all_with_a_dead_name() {
        comparison.refused_rooms(&rooms)?;
        comparison.tally.cases += 1;
    }
    comparison.room_over_32_bits()
}

fn run(options: &Options, case: u64, tally: &mut Tally, scratch: &mut Scratch) -> Outcome {
    let mut random = Random::for_case(options.seed, case);
    let drawn = cards::draw(&mut random);
    let most_words = drawn.most_words(&mut random);
    let words = drawn.line(&mut random, most_words);
    let mut line = lines::spell(&drawn.text, &mut random, &words);
    let mut card = drawn.text.bytes();
    if random.once_in(8) {
        damage::card(&mut card, &mut random);
    }
    if random.once_in(CASES_A_DEAD_NAME) {
        names::fault::dead_name(&mut card, &mut random);
    }
    if random.once_in(8) {
        damage::line(&mut line, &drawn.text, &mut random);
    }
    // Card and line may stand at any alignment.
    let shift = random.below(8);
    let [card, line] = [card, line].map(|bytes| [vec![0; shift], bytes].concat());
    let mut comparison = Comparison {
        who: options.who,
        random: &mut random,
        scratch,
        tally,
        effort: &EFFORT,
    };
    comparison.run(&card[shift..], &line[shift..])?;
    if case.is_multiple_of(CASES_A_SHEET) {
        run_sheet(&mut comparison, &drawn.text, &card[shift..], most_words)?;
    }
    Ok(())
}

/// A sheet under the case's card, which may have been damaged. The bytes around it would make a
/// line more, or its last line longer.
fn run_sheet(
    comparison: &mut Comparison,
    text: &CardText,
    card: &[u8],
    most_words: usize,
) -> Outcome {
    let sheet = sheet::draw::draw(text, comparison.random, most_words);
    let around = [text.words[0].as_bytes(), b"\n"].concat();
    let start = around.len();
    let end = start + sheet.len();
    let bytes = [around.clone(), sheet, around].concat();
    comparison.sheet(card, &bytes[start..end])
}

struct Options {
    cases: u64,
    seed: u64,
    only: Option<u64>,
    who: Who,
}

impl Options {
    fn from_arguments() -> Result<Self, String> {
        let mut options = Options {
            cases: DEFAULT_CASES,
            seed: 1,
            only: None,
            who: BOTH,
        };
        let mut arguments = std::env::args().skip(1);
        while let Some(option) = arguments.next() {
            let mut value = || number_after(&option, arguments.next());
            match option.as_str() {
                "--cases" => options.cases = value()?,
                "--seed" => options.seed = value()?,
                "--only" => options.only = Some(value()?),
                "--rival-only" => options.who = RIVAL_ONLY,
                _ => return Err(format!("unknown option {option}")),
            }
        }
        Ok(options)
    }

    fn range(&self) -> std::ops::Range<u64> {
        match self.only {
            Some(case) => case..case + 1,
            None => 0..self.cases,
        }
    }

    fn expects_all(&self) -> bool {
        self.only.is_none() && self.cases >= DEFAULT_CASES
    }
}

fn number_after(option: &str, value: Option<String>) -> Result<u64, String> {
    let number = value.and_then(|value| value.parse().ok());
    number.ok_or(format!("{option} needs a number"))
}
