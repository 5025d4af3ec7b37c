//! Document 01's table of ten lines and its room limits, put to every implementation here.

use independent::answers::ReadAnswer;
use independent::card::Card;
use independent::write::tomato;
use independent::{chart, closure, line, replay, rewriting};

/// Line, number, items, pairs.
type Row = (&'static str, u16, u16, &'static [[u8; 2]]);

const ROWS: [Row; 10] = [
    ("coir takes mild", 0, 5, &[[0, 2]]),
    ("coir wool takes mild rich", 0, 9, &[[0, 3], [1, 4]]),
    ("coir wool takes rich mild", 25, 8, &[]),
    ("coir coir takes mild mild", 0, 10, &[[0, 3], [1, 4]]),
    ("coir coir takes mild", 25, 6, &[]),
    ("takes", 25, 1, &[]),
    ("", 21, 0, &[]),
    ("coir takes Mild", 22, 0, &[]),
    ("coir gives mild", 24, 0, &[]),
    (
        "coir coir coir coir coir coir coir coir coir coir coir coir coir \
         coir coir coir coir coir coir coir coir coir coir coir coir",
        23,
        0,
        &[],
    ),
];

#[test]
fn chart_reads_the_rows() {
    let card = tomato().bytes();
    for (line, number, items, pairs) in ROWS {
        let mut plan = [0; 188];
        let answer = chart::read(&card, line.as_bytes(), &mut [0; 1600], &mut plan);
        assert_eq!((answer.number, answer.items), (number, items), "{line}");
        if number != 0 {
            assert_eq!(answer.steps, 0);
            continue;
        }
        assert_eq!(answer.steps, 2 * answer.words - 1);
        let plan = &plan[..4 * usize::from(answer.steps)];
        assert_eq!(chart::check(&card, line.as_bytes(), plan), 0);
        let mut room = [0; 46];
        let found = chart::pairs(&card, line.as_bytes(), plan, &mut room);
        assert_eq!((found.number, usize::from(found.count)), (0, pairs.len()));
        assert_eq!(&room[..2 * pairs.len()], pairs.as_flattened());
    }
}

#[test]
fn the_others_agree_on_the_rows() {
    let bytes = tomato().bytes();
    let card = Card::accept(&bytes).expect("the tomato card is accepted");
    for (text, number, items, pairs) in ROWS {
        let line = match line::places(&card, text.as_bytes()) {
            Ok(line) => line,
            Err(refusal) => {
                assert_eq!(refusal, number, "{text}");
                continue;
            }
        };
        let set = closure::derivable(&card, &line, 100).expect("few items");
        assert_eq!(set.len(), usize::from(items), "{text}");
        let found = rewriting::derives(&card, &line, 1_000_000).expect("little work");
        assert_eq!(found.derives, number == 0, "{text}");
        if number == 0 {
            let mut plan = [0; 188];
            let answer = chart::read(&bytes, text.as_bytes(), &mut [0; 1600], &mut plan);
            let plan = &plan[..4 * usize::from(answer.steps)];
            let replayed = replay::replay(&card, &line, plan).expect("a derivation");
            assert_eq!(replayed.pairs, pairs, "{text}");
        }
    }
}

#[test]
fn rooms_have_their_limits() {
    let card = tomato().bytes();
    let line = b"coir takes mild";
    let read = |chart: usize, plan: usize| {
        let mut chart_room = vec![7; chart];
        let answer = chart::read(&card, line, &mut chart_room, &mut vec![7; plan]);
        (answer, chart_room)
    };
    let whole = ReadAnswer {
        number: 0,
        words: 3,
        items: 5,
        steps: 5,
    };
    assert_eq!(read(80, 20).0, whole);
    assert_eq!(read(79, 20), (ReadAnswer::refused(31), vec![0; 79]));
    assert_eq!(read(80, 19), (ReadAnswer::refused(32), vec![7; 80]));
}

#[test]
fn the_plan_is_the_printed_one() {
    let mut plan = [0; 20];
    chart::read(
        &tomato().bytes(),
        b"coir takes mild",
        &mut [0; 80],
        &mut plan,
    );
    let printed = [7, 0, 1, 3, 0, 0, 1, 1, 9, 1, 2, 3, 2, 1, 2, 2, 3, 2, 3, 3];
    assert_eq!(plan, printed);
}
