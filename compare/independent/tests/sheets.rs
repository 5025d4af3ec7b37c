//! What document 02 says of sheets, on the tomato card.

use independent::answers::SheetAnswer;
use independent::write::tomato;
use independent::{chart, sheet};

/// 5 items and one pair; 9 items and two pairs; no reading, 1 item.
const SHORT: &str = "coir takes mild";
const LONG: &str = "coir wool takes mild rich";
const UNREAD: &str = "takes";

const NOISE: u8 = 7;

/// The answer with rooms of these lengths, and what is in them then.
fn asked(card: &[u8], sheet: &str, rooms: [usize; 2]) -> (SheetAnswer, [Vec<u8>; 2]) {
    let [mut chart, mut output] = rooms.map(|length| vec![NOISE; length]);
    let answer = chart::sheet(card, sheet.as_bytes(), &mut chart, &mut output);
    (answer, [chart, output])
}

fn accepted(records: u32) -> SheetAnswer {
    SheetAnswer {
        records,
        ..SheetAnswer::default()
    }
}

#[test]
fn lines_end_with_0a_or_with_the_sheet() {
    let cases: [(&str, &[&str]); 7] = [
        ("", &[]),
        ("a", &["a"]),
        ("a\n", &["a"]),
        ("\n", &[""]),
        ("a\n\n", &["a", ""]),
        ("\na", &["", "a"]),
        ("a\nb c\n", &["a", "b c"]),
    ];
    for (text, lines) in cases {
        let lines: Vec<&[u8]> = lines.iter().map(|line| line.as_bytes()).collect();
        assert_eq!(sheet::lines(text.as_bytes()), Ok(lines), "{text:?}");
    }
    assert_eq!(sheet::lines(&[b'\n'; 64]).map(|lines| lines.len()), Ok(64));
    assert_eq!(sheet::lines(&[b'\n'; 65]), Err(41));
}

#[test]
fn records_are_written_in_line_order() {
    let (answer, [_, output]) = asked(&tomato().bytes(), &format!("{LONG}\n{SHORT}\n"), [144, 10]);
    assert_eq!(answer, accepted(3));
    assert_eq!(output, [0, 0, 3, 0, 1, 4, 1, 0, 2, NOISE]);
    let nothing = asked(&tomato().bytes(), "", [16, 3]);
    assert_eq!(nothing, (accepted(0), [vec![NOISE; 16], vec![NOISE; 3]]));
}

#[test]
fn the_first_line_that_fails_is_named() {
    let card = tomato().bytes();
    for (line, number) in [
        ("", 21),
        ("coir takes Mild", 22),
        ("coir gives mild", 24),
        (UNREAD, 25),
    ] {
        let sheet = format!("{SHORT}\n{LONG}\n{line}\n\n{SHORT}");
        let (answer, [_, output]) = asked(&card, &sheet, [144, 8]);
        assert_eq!(answer, SheetAnswer::refused(number, 2), "{line}");
        assert_eq!(output, [NOISE; 8], "{line}");
    }
}

#[test]
fn refusals_of_the_sheet_come_in_their_order() {
    let card = tomato().bytes();
    let number = |card: &[u8], sheet: &str, rooms| asked(card, sheet, rooms).0;
    let lines = |line: &str, count| format!("{line}\n").repeat(count);
    let refused = |number| SheetAnswer::refused(number, 0);
    assert_eq!(number(&card, &lines(SHORT, 64), [80, 192]), accepted(64));
    assert_eq!(number(&card, &lines(SHORT, 64), [80, 191]), refused(33));
    assert_eq!(number(&card, &lines(SHORT, 65), [80, 195]), refused(41));
    assert_eq!(number(&card, &lines(UNREAD, 65), [80, 0]), refused(41));
    assert_eq!(number(&card[1..], &lines(SHORT, 65), [80, 0]), refused(11));
    let (answer, [chart, output]) = asked(&card, &lines(SHORT, 65), [80, 195]);
    assert_eq!(answer, refused(41));
    assert_eq!([chart, output], [vec![NOISE; 80], vec![NOISE; 195]]);
}

/// What a read leaves is there when the next one begins.
#[test]
fn the_chart_room_is_as_the_reads_leave_it() {
    let card = tomato().bytes();
    let mut expected = vec![NOISE; 160];
    for line in [LONG, SHORT, UNREAD] {
        chart::read(&card, line.as_bytes(), &mut expected, &mut [0; 188]);
    }
    let whole = format!("{LONG}\n{SHORT}\n{UNREAD}");
    let (answer, [chart, _]) = asked(&card, &whole, [160, 9]);
    assert_eq!(answer, SheetAnswer::refused(25, 2));
    assert_eq!(chart, expected);
    assert_eq!(chart[144..], [NOISE; 16]);
    let (answer, [chart, _]) = asked(&card, &format!("{SHORT}\n{LONG}"), [143, 9]);
    assert_eq!(answer, SheetAnswer::refused(31, 1));
    assert_eq!(chart, [0; 143]);
}
