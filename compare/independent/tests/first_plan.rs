//! What document 02 says of the first plan, put to both ways that make no chart and to the chart
//! parser.

use independent::answers::PairsAnswer;
use independent::card::Card;
use independent::enumeration::{self, Bounds, Enumerated};
use independent::first::Search;
use independent::line::{self, Spelled};
use independent::plan::{Plan, order, parting};
use independent::write::{CardText, tomato};
use independent::{chart, replay};

const START: u8 = 0;
const ROW: u8 = 1;
const FEED: u8 = 2;

const JOIN: [u8; 6] = [3, START, START, START, 0, 0];

const MANY: Bounds = Bounds {
    plans: 10_000,
    work: 1_000_000,
};

fn card(productions: &[[u8; 6]]) -> CardText {
    CardText {
        nonterminals: 3,
        indices: 2,
        words: ["row", "feed"].map(String::from).to_vec(),
        productions: productions.to_vec(),
    }
}

fn accepted(card: &CardText, text: &str) -> (Card, Vec<Spelled>) {
    let card = Card::accept(&card.bytes()).expect("an accepted card");
    let line = line::places(&card, text.as_bytes()).expect("an accepted line");
    (card, line)
}

fn enumerated(card: &CardText, text: &str) -> Enumerated {
    let (card, line) = accepted(card, text);
    let found = enumeration::all(&card, &line, MANY);
    assert!(found.complete, "{text}");
    found
}

/// The plan that the chart parser writes.
fn read(card: &CardText, text: &str) -> Option<Plan> {
    let mut plan = [0; 188];
    let answer = chart::read(
        &card.bytes(),
        text.as_bytes(),
        &mut vec![0; 16_000],
        &mut plan,
    );
    let steps = &plan.as_chunks::<4>().0[..answer.steps.into()];
    (answer.number == 0).then(|| steps.to_vec())
}

/// The plans of a line, where everybody has the same first one.
fn plans(card: &CardText, text: &str) -> Vec<Plan> {
    let found = enumerated(card, text);
    let others: Vec<Plan> = found.others().into_iter().cloned().collect();
    let (decoded, line) = accepted(card, text);
    let mut search = Search::new(&decoded, &line, 1_000_000);
    let first = search.first().expect("little work");
    assert_eq!(first.as_ref(), found.plans.first(), "{text}");
    assert_eq!(read(card, text), first, "{text}");
    if let Some(first) = first {
        let searched = search.others(&first);
        assert!(searched.complete);
        assert_eq!(searched.plans, others, "{text}");
    }
    for plan in &found.plans {
        let replayed = replay::replay(&decoded, &line, plan.as_flattened());
        assert!(replayed.is_some(), "{plan:?}");
    }
    found.plans
}

fn rows(count: usize) -> String {
    vec!["row"; count].join(" ")
}

/// A line of n rows has as many plans as there are ways to put it together, and each of its n − 1
/// joints may be either of two equal productions.
#[test]
fn all_plans_are_found() {
    let word = [0, START, 0, 0, 0, 0];
    let ways = [1, 1, 2, 5, 14, 42, 132];
    for (joints, ways) in ways.into_iter().enumerate() {
        let text = rows(joints + 1);
        assert_eq!(plans(&card(&[word, JOIN]), &text).len(), ways);
        let twice = enumerated(&card(&[JOIN, word, JOIN]), &text);
        assert_eq!(twice.plans.len(), ways << joints);
        assert_eq!(enumerated(&card(&[word]), &text).plans.len(), 1 >> joints);
    }
}

/// One name and one index, with every way to take, keep and give. Two rows have the two keeps.
/// Three have two keeps at two splits, with a keep below, and two gives, with a take below: 8 and 4
/// plans.
#[test]
fn stacks_are_followed() {
    let productions = [
        [0, START, 0, 0, 0, 0],
        [1, START, START, START, 1, 0],
        [2, START, START, START, 1, 0],
        JOIN,
        [4, START, START, START, 0, 0],
        [5, START, START, START, 1, 0],
        [6, START, START, START, 1, 0],
    ];
    let count = |words| plans(&card(&productions), &rows(words)).len();
    assert_eq!([1, 2, 3].map(count), [1, 2, 12]);
    assert!(count(4) > 50);
}

#[test]
fn the_printed_plan_is_the_only_one() {
    let printed = vec![
        [7, 0, 1, 3],
        [0, 0, 1, 1],
        [9, 1, 2, 3],
        [2, 1, 2, 2],
        [3, 2, 3, 3],
    ];
    assert_eq!(plans(&tomato(), "coir takes mild"), [printed]);
    for text in ["takes", "coir takes rich", "coir coir takes mild"] {
        assert_eq!(plans(&tomato(), text), [] as [Plan; 0], "{text}");
    }
}

/// By production, then by split, at the first step that differs.
#[test]
fn plans_are_compared_from_the_left() {
    let plan = |steps: &[[u8; 4]]| steps.to_vec();
    let sorted = [
        plan(&[[1, 0, 1, 3], [0, 0, 1, 1], [2, 1, 2, 3]]),
        plan(&[[1, 0, 1, 3], [4, 0, 1, 1], [0, 1, 2, 3]]),
        plan(&[[1, 0, 2, 3], [0, 0, 1, 2], [0, 0, 1, 1]]),
        plan(&[[2, 0, 1, 3], [0, 0, 1, 1], [0, 1, 2, 3]]),
    ];
    for (at, one) in sorted.iter().enumerate() {
        for (other_at, other) in sorted.iter().enumerate() {
            assert_eq!(order(one, other), at.cmp(&other_at));
        }
    }
    assert_eq!(parting(&sorted[0], &sorted[1]), 1);
    assert_eq!(parting(&sorted[0], &sorted[2]), 0);
    assert_eq!(parting(&sorted[0], &sorted[0]), 3);
}

/// The numbers of the productions decide, not those of the words, and of equal productions the
/// first is used.
#[test]
fn the_lowest_production_is_used() {
    let mut text = card(&[
        [0, START, 1, 0, 0, 0],
        [0, START, 0, 0, 0, 0],
        [0, START, 0, 0, 0, 0],
        JOIN,
        JOIN,
    ]);
    let plan = |text: &CardText| plans(text, "row row")[0].clone();
    assert_eq!(plan(&text), [[3, 0, 1, 2], [1, 0, 1, 1], [1, 1, 2, 2]]);
    text.words[1] = String::from("row");
    assert_eq!(plan(&text), [[3, 0, 1, 2], [0, 0, 1, 1], [0, 1, 2, 2]]);
}

/// S → row FEED[..1], and a feed takes the index with its dependent first or second: two plans with
/// different pairs. Both pass, and the first is handed out, on a sheet too.
#[test]
fn other_plans_pass_and_are_not_handed_out() {
    let takes = [[2, FEED, ROW, ROW, 1, 0], [1, FEED, ROW, ROW, 1, 0]];
    let [one, other] = takes;
    for (takes, pairs) in [([one, other], [2, 1]), ([other, one], [1, 2])] {
        let give = [5, START, ROW, FEED, 1, 0];
        let text = card(&[give, takes[0], takes[1], [0, ROW, 0, 0, 0, 0]]);
        let plans = plans(&text, &rows(3));
        assert_eq!(plans.len(), 2);
        assert_eq!(read(&text, &rows(3)).as_ref(), plans.first());
        for (plan, taken) in plans.iter().zip(pairs) {
            let (card, line) = (text.bytes(), rows(3));
            let plan = plan.as_flattened();
            assert_eq!(chart::check(&card, line.as_bytes(), plan), 0);
            let mut room = [7; 3];
            let answer = chart::pairs(&card, line.as_bytes(), plan, &mut room);
            let (number, count) = (0, 1);
            assert_eq!(answer, PairsAnswer { number, count });
            assert_eq!(room, [0, taken, 7]);
        }
        let mut output = [7; 7];
        let sheet = format!("{}\n{}", rows(3), rows(3));
        let answer = chart::sheet(&text.bytes(), sheet.as_bytes(), &mut [0; 160], &mut output);
        assert_eq!((answer.number, answer.records), (0, 2));
        assert_eq!(output, [0, 0, pairs[0], 1, 0, pairs[0], 7]);
    }
}

#[test]
fn both_ways_give_up() {
    let text = card(&[[0, START, 0, 0, 0, 0], JOIN]);
    let (card, line) = accepted(&text, &rows(6));
    let few = |plans, work| enumeration::all(&card, &line, Bounds { plans, work });
    for found in [few(41, 10_000), few(100, 50)] {
        assert!(!found.complete);
        assert!(found.plans.len() < 42);
    }
    assert!(few(42, 10_000).complete);
    assert!(Search::new(&card, &line, 5).first().is_err());
    let mut search = Search::new(&card, &line, 200);
    let first = search.first().expect("enough work");
    let others = search.others(&first.expect("a reading"));
    assert!(others.complete);
    assert_eq!(others.plans.len(), 4);
}
