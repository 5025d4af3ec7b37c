//! What document 02 says of one spelling for several words, put to every implementation here.

use independent::answers::{NameAnswer, PairsAnswer, SheetAnswer};
use independent::card::Card;
use independent::line::{self, Spelled, word_lists};
use independent::write::{CardText, tomato, tomato_with_twins};
use independent::{chart, closure, replay, rewriting};

const ORDER: u8 = 0;
const ROW: u8 = 1;
const FEED: u8 = 2;
const HOUR: u8 = 3;
const SETTING: u8 = 4;

/// An order is a row and its feed, or an hour and its setting. "mild" is a feed, word 1, and also a
/// setting, word 3; word 4 is a feed spelled so once more.
fn nursery() -> CardText {
    CardText {
        nonterminals: 5,
        indices: 0,
        words: ["coir", "mild", "night", "mild", "mild", "rich"]
            .map(String::from)
            .to_vec(),
        productions: vec![
            [0, ROW, 0, 0, 0, 0],
            [0, FEED, 1, 0, 0, 0],
            [0, HOUR, 2, 0, 0, 0],
            [0, SETTING, 3, 0, 0, 0],
            [0, FEED, 4, 0, 0, 0],
            [0, FEED, 5, 0, 0, 0],
            [4, ORDER, ROW, FEED, 0, 0],
            [4, ORDER, HOUR, SETTING, 0, 0],
        ],
    }
}

/// The tomato card with wool spelled as coir is.
fn tomato_without_wool() -> CardText {
    let mut card = tomato();
    card.words[1] = "coir".to_string();
    card
}

fn places(card: &CardText, text: &str) -> Vec<Spelled> {
    let card = Card::accept(&card.bytes()).expect("an accepted card");
    line::places(&card, text.as_bytes()).expect("an accepted line")
}

/// The plan that the chart parser finds, if it reads the line.
fn plan(card: &CardText, text: &str) -> Option<Vec<u8>> {
    let mut plan = vec![0; 188];
    let answer = chart::read(&card.bytes(), text.as_bytes(), &mut [0; 1600], &mut plan);
    plan.truncate(4 * usize::from(answer.steps));
    (answer.number == 0).then_some(plan)
}

/// Whether the plan passes, if both ways to check it agree on that, and the words it ends in.
fn words_of_plan(card: &CardText, text: &str, plan: &[u8]) -> Option<Vec<u8>> {
    let accepted = Card::accept(&card.bytes()).expect("an accepted card");
    let replayed = replay::replay(&accepted, &places(card, text), plan);
    let number = chart::check(&card.bytes(), text.as_bytes(), plan);
    assert_eq!(number, if replayed.is_some() { 0 } else { 34 }, "{plan:?}");
    replayed.map(|replayed| replayed.words)
}

/// Every implementation gives the line this number and so many items.
fn assert_read(card: &CardText, text: &str, number: u16, items: usize) {
    let bytes = card.bytes();
    let answer = chart::read(&bytes, text.as_bytes(), &mut [0; 1600], &mut [0; 188]);
    let found = (answer.number, usize::from(answer.items));
    assert_eq!(found, (number, items), "{text}");
    let card = Card::accept(&bytes).expect("an accepted card");
    let line = match line::places(&card, text.as_bytes()) {
        Ok(line) => line,
        Err(refusal) => {
            assert_eq!((refusal, 0), (number, items), "{text}");
            return;
        }
    };
    let set = closure::derivable(&card, &line, 100).expect("few items");
    assert_eq!(set.len(), items, "{text}");
    let found = rewriting::derives(&card, &line, 1_000_000).expect("little work");
    assert_eq!(found.derives, number == 0, "{text}");
}

#[test]
fn a_spelling_gives_all_its_words() {
    let line = places(&nursery(), " coir  mild ");
    let expected = [("coir", &[0][..]), ("mild", &[1, 3, 4])].map(|(spelling, words)| Spelled {
        spelling: spelling.as_bytes().to_vec(),
        words: words.to_vec(),
    });
    assert_eq!(line, expected);
    let lists: Vec<Vec<u8>> = word_lists(&line).collect();
    assert_eq!(lists, [[0, 1], [0, 3], [0, 4]]);
    let lists: Vec<Vec<u8>> = word_lists(&places(&nursery(), "mild rich mild")).collect();
    assert_eq!(lists.len(), 9);
    assert_eq!(lists[..4], [[1, 5, 1], [1, 5, 3], [1, 5, 4], [3, 5, 1]]);
}

#[test]
fn each_word_has_its_own_rules() {
    let card = nursery();
    assert_read(&card, "coir mild", 0, 4);
    assert_read(&card, "night mild", 0, 4);
    assert_read(&card, "coir rich", 0, 3);
    assert_read(&card, "night rich", 25, 2);
    assert_read(&card, "mild", 25, 2);
    assert_read(&card, "mild mild", 25, 4);
    let night = plan(&card, "night mild").expect("a reading");
    assert_eq!(night, [7, 0, 1, 2, 2, 0, 1, 1, 3, 1, 2, 2]);
    let words = words_of_plan(&card, "night mild", &night);
    assert_eq!(words, Some(vec![2, 3]));
}

#[test]
fn a_plan_may_end_in_any_words_that_are_spelled_so() {
    let card = nursery();
    let ending_with = |word_step: u8| [6, 0, 1, 2, 0, 0, 1, 1, word_step, 1, 2, 2];
    let words = |text, step| words_of_plan(&card, text, &ending_with(step));
    assert_eq!(words("coir mild", 1), Some(vec![0, 1]));
    assert_eq!(words("coir mild", 4), Some(vec![0, 4]));
    assert_eq!(words("coir rich", 5), Some(vec![0, 5]));
    // Feeds with another spelling, and a setting.
    assert_eq!(words("coir mild", 5), None);
    assert_eq!(words("coir rich", 1), None);
    assert_eq!(words("coir rich", 4), None);
    assert_eq!(words("coir mild", 3), None);
}

#[test]
fn a_line_may_have_a_reading_for_several_lists() {
    let mut card = nursery();
    card.productions = vec![
        [0, FEED, 1, 0, 0, 0],
        [0, SETTING, 3, 0, 0, 0],
        [4, ORDER, FEED, SETTING, 0, 0],
        [4, ORDER, SETTING, FEED, 0, 0],
    ];
    assert_read(&card, "mild mild", 0, 5);
    let words = |steps: [u8; 3]| {
        let [order, first, second] = steps;
        let plan = [order, 0, 1, 2, first, 0, 1, 1, second, 1, 2, 2];
        words_of_plan(&card, "mild mild", &plan)
    };
    assert_eq!(words([2, 0, 1]), Some(vec![1, 3]));
    assert_eq!(words([3, 1, 0]), Some(vec![3, 1]));
    assert_eq!(words([2, 1, 0]), None);
    assert_eq!(words([2, 0, 0]), None);
}

#[test]
fn the_set_of_an_unknown_spelling_is_empty() {
    for text in ["mil", "milds", "coir mil", "m mild", "coir mildmild"] {
        assert_read(&nursery(), text, 24, 0);
    }
    assert_read(&tomato_without_wool(), "wool takes rich", 24, 0);
}

/// The first of 32 words spelled alike has a production, or the last, or each, or none.
#[test]
fn any_of_32_words_is_enough() {
    let card_of = |words: &[u8]| CardText {
        nonterminals: 1,
        indices: 0,
        words: vec!["mild".to_string(); 32],
        productions: std::iter::once([3, 0, 0, 0, 0, 0])
            .chain(words.iter().map(|&word| [0, 0, word, 0, 0, 0]))
            .collect(),
    };
    let all: Vec<u8> = (0..32).collect();
    for words in [&[0][..], &[31], &[17], &all] {
        assert_read(&card_of(words), "mild", 0, 1);
        assert_read(&card_of(words), "mild mild", 0, 3);
    }
    assert_read(&card_of(&[]), "mild", 25, 0);
    assert_read(&card_of(&[]), "mild mild", 25, 0);
}

#[test]
fn equal_entries_pass_the_card_check() {
    let number = |card: &[u8]| {
        let number = chart::card_check(card);
        assert_eq!(Card::accept(card).err().unwrap_or(0), number);
        number
    };
    let card = nursery().bytes();
    assert_eq!(number(&card), 0);
    // A broken entry, and a broken production.
    let mut entry = card.clone();
    entry[12] = 0;
    assert_eq!(number(&entry), 14);
    let mut production = card.clone();
    *production.last_mut().expect("a byte") = 1;
    assert_eq!(number(&production), 16);
}

#[test]
fn each_entry_has_a_name_of_its_own() {
    let card = nursery().bytes();
    for (word, offset) in [(1, 25), (3, 49), (4, 61)] {
        let named = NameAnswer {
            number: 0,
            offset,
            length: 4,
        };
        assert_eq!(chart::name(&card, word), named);
        assert_eq!(&card[usize::from(offset)..][..4], b"mild");
    }
    assert_eq!(chart::name(&card, 6), NameAnswer::refused(35));
}

/// A second entry for each spelling, with the same nonterminal, adds neither readings nor items.
#[test]
fn twins_change_no_line_of_the_tomato_card() {
    let [alone, with_twins] = [tomato(), tomato_with_twins()];
    assert_eq!(
        [with_twins.words.len(), with_twins.productions.len()],
        [10, 16]
    );
    for (text, number, items) in [
        ("coir takes mild", 0, 5),
        ("coir wool takes mild rich", 0, 9),
        ("coir wool takes rich mild", 25, 8),
        ("coir coir takes mild mild", 0, 10),
        ("coir coir takes mild", 25, 6),
        ("takes", 25, 1),
        ("coir gives mild", 24, 0),
    ] {
        assert_read(&alone, text, number, items);
        assert_read(&with_twins, text, number, items);
    }
}

/// Words do not matter to pairs: any of them may stand in the plan.
#[test]
fn the_pairs_are_those_of_the_steps() {
    let card = tomato_with_twins();
    let text = "coir wool takes mild rich";
    let mut plan = plan(&card, text).expect("a reading");
    for step in plan.as_chunks_mut::<4>().0 {
        if step[0] < 5 {
            step[0] += 11;
        }
    }
    assert_eq!(words_of_plan(&card, text, &plan), Some(vec![5, 6, 7, 8, 9]));
    let mut room = [7; 5];
    let answer = chart::pairs(&card.bytes(), text.as_bytes(), &plan, &mut room);
    assert_eq!(
        answer,
        PairsAnswer {
            number: 0,
            count: 2
        }
    );
    assert_eq!(room, [0, 3, 1, 4, 7]);
}

#[test]
fn a_sheet_is_read_with_all_words_of_a_spelling() {
    let card = tomato_without_wool().bytes();
    let sheet = b"coir takes mild\ncoir takes rich\ncoir coir takes rich mild";
    let mut output = [7; 13];
    let answer = chart::sheet(&card, sheet, &mut [0; 1600], &mut output);
    let accepted = SheetAnswer {
        records: 4,
        ..SheetAnswer::default()
    };
    assert_eq!(answer, accepted);
    assert_eq!(output, [0, 0, 2, 1, 0, 2, 2, 0, 3, 2, 1, 4, 7]);
    let sheet = b"coir takes mild\nwool takes rich";
    let answer = chart::sheet(&card, sheet, &mut [0; 1600], &mut output);
    assert_eq!(answer, SheetAnswer::refused(24, 1));
}
