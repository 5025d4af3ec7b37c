//! What document 02 says of pairs, put to the replayer and to the chart parser: they name the last
//! word of each side.

use independent::answers::{PairsAnswer, SheetAnswer};
use independent::card::Card;
use independent::replay::{Replayed, replay};
use independent::write::{CardText, tomato, tomato_with_rows};
use independent::{chart, line};

const NOISE: u8 = 77;

/// Line and pairs.
type Row = (&'static str, &'static [[u8; 2]]);

/// On the card with numbered rows.
const ROWS: [Row; 6] = [
    ("coir 14 takes mild", &[[1, 3]]),
    ("coir 14 takes extra mild", &[[1, 4]]),
    ("coir takes extra extra mild", &[[0, 4]]),
    ("wool 15 takes extra extra rich", &[[1, 5]]),
    ("coir 14 wool 15 takes extra mild rich", &[[1, 6], [3, 7]]),
    (
        "coir 14 coir wool 15 takes extra extra mild mild extra rich",
        &[[1, 8], [2, 9], [4, 11]],
    ),
];

/// On that card and on the tomato card.
const TOMATO_ROWS: [Row; 3] = [
    ("coir takes mild", &[[0, 2]]),
    ("coir wool takes mild rich", &[[0, 3], [1, 4]]),
    ("coir coir takes mild mild", &[[0, 3], [1, 4]]),
];

/// The plan that the chart parser writes.
fn plan(card: &CardText, text: &str) -> Vec<u8> {
    let mut plan = vec![0; 188];
    let answer = chart::read(&card.bytes(), text.as_bytes(), &mut [0; 16_000], &mut plan);
    assert_eq!(answer.number, 0, "{text}");
    plan.truncate(4 * usize::from(answer.steps));
    plan
}

fn replayed(card: &CardText, text: &str, plan: &[u8]) -> Replayed {
    let card = Card::accept(&card.bytes()).expect("an accepted card");
    let line = line::places(&card, text.as_bytes()).expect("an accepted line");
    replay(&card, &line, plan).expect("a derivation")
}

/// The pairs of the line's plan, on which both agree.
fn pairs(card: &CardText, text: &str) -> Vec<[u8; 2]> {
    let plan = plan(card, text);
    let mut room = [NOISE; 24];
    let answer = chart::pairs(&card.bytes(), text.as_bytes(), &plan, &mut room);
    assert_eq!(answer.number, 0, "{text}");
    let (written, rest) = room.split_at(2 * usize::from(answer.count));
    assert!(rest.iter().all(|&byte| byte == NOISE), "{text}");
    let found = replayed(card, text, &plan).pairs;
    assert_eq!(written, found.as_flattened(), "{text}");
    found
}

#[test]
fn the_card_with_rows_is_accepted() {
    let card = tomato_with_rows();
    let bytes = card.bytes();
    assert_eq!(bytes.len(), 228);
    assert_eq!(bytes[..12], *b"LIG1\x0A\x08\x02\x14\x0C\0\x6C\0");
    assert_eq!(card.productions[..11], tomato().productions);
    assert_eq!(chart::card_check(&bytes), 0);
    assert!(Card::accept(&bytes).is_ok());
}

#[test]
fn a_pair_names_the_last_word_of_each_side() {
    for (text, expected) in ROWS {
        assert_eq!(pairs(&tomato_with_rows(), text), expected, "{text}");
    }
}

#[test]
fn the_tomato_lines_are_unchanged() {
    for (text, expected) in TOMATO_ROWS {
        for card in [tomato(), tomato_with_rows()] {
            assert_eq!(pairs(&card, text), expected, "{text}");
        }
    }
}

/// S[..] → R[] T[..c] or T[..c] R[], and T[..c] → M[] T[..] or T[..] M[].
#[test]
fn a_side_may_be_on_either_hand() {
    let [s, t, r, m, c] = [0, 1, 2, 4, 1];
    let [give, give_after] = [[5, s, r, t, c, 0], [6, s, t, r, c, 0]];
    let [take_before, take] = [[1, t, m, t, c, 0], [2, t, t, m, c, 0]];
    for (give, take, text, pair) in [
        (give, take, "coir 14 takes extra mild", [1, 4]),
        (give, take_before, "coir 14 extra mild takes", [1, 3]),
        (give_after, take, "takes extra mild coir 14", [4, 2]),
        (give_after, take_before, "extra mild takes coir 14", [4, 1]),
    ] {
        let mut card = tomato_with_rows();
        card.productions[7] = give;
        card.productions[9] = take;
        assert_eq!(pairs(&card, text), [pair], "{text}");
    }
}

/// 22 words on one side leave one for the other and one for the end of the spine.
#[test]
fn a_side_may_have_22_words() {
    let mut card = tomato_with_rows();
    let text = format!("coir takes {}mild", "extra ".repeat(21));
    assert_eq!(pairs(&card, &text), [[0, 23]]);
    let [r, e] = [2, 9];
    card.productions.push([3, r, e, r, 0, 0]);
    let text = format!("{}coir takes mild", "extra ".repeat(21));
    assert_eq!(pairs(&card, &text), [[21, 23]]);
}

/// The steps of a pair are known beside its words.
#[test]
fn a_pair_links_a_give_and_its_take() {
    let card = tomato_with_rows();
    let links = |text| replayed(&card, text, &plan(&card, text)).links;
    assert_eq!(links("coir 14 takes mild"), [[0, 4]]);
    // The inner take removes the outer give's index.
    let two_gives = links("coir 14 wool 15 takes extra mild rich");
    assert_eq!(two_gives, [[0, 9], [4, 8]]);
}

#[test]
fn room_is_two_bytes_a_pair() {
    let card = tomato_with_rows();
    let text = "coir 14 wool 15 takes extra mild rich";
    let plan = plan(&card, text);
    let asked = |length| {
        let mut room = vec![NOISE; length];
        let answer = chart::pairs(&card.bytes(), text.as_bytes(), &plan, &mut room);
        (answer, room)
    };
    let [number, count] = [0, 2];
    let passed = PairsAnswer { number, count };
    assert_eq!(asked(4), (passed, vec![1, 6, 3, 7]));
    assert_eq!(asked(6), (passed, vec![1, 6, 3, 7, NOISE, NOISE]));
    assert_eq!(asked(3), (PairsAnswer::refused(33), vec![NOISE; 3]));
}

#[test]
fn records_have_the_same_pairs() {
    let lines = ROWS.iter().chain(&TOMATO_ROWS);
    let sheet: Vec<&str> = lines.clone().map(|(line, _)| *line).collect();
    let records: Vec<[u8; 3]> = (0..)
        .zip(lines)
        .flat_map(|(line, (_, pairs))| pairs.iter().map(move |&[give, take]| [line, give, take]))
        .collect();
    let mut output = vec![NOISE; 3 * records.len() + 1];
    let answer = chart::sheet(
        &tomato_with_rows().bytes(),
        sheet.join("\n").as_bytes(),
        &mut [0; 16_000],
        &mut output,
    );
    let accepted = SheetAnswer {
        records: records.len() as u32,
        ..SheetAnswer::default()
    };
    assert_eq!(answer, accepted);
    assert_eq!(output, [records.as_flattened(), &[NOISE]].concat());
}
