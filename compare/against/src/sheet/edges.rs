//! Sheets at limits that random ones do not meet.

use crate::edges::greatest_charts;
use independent::write::{CardText, tomato, tomato_line};

/// 5 items and one pair; 9 items and two pairs; no reading, 1 item.
const SHORT: &str = "coir takes mild";
const LONG: &str = "coir wool takes mild rich";
const UNREAD: &str = "takes";

/// Cards and sheets.
pub fn all() -> Vec<(Vec<u8>, Vec<u8>)> {
    let card = tomato().bytes();
    let mut list: Vec<(Vec<u8>, Vec<u8>)> = line_ends()
        .into_iter()
        .chain(many_lines())
        .chain(one_fault())
        .chain(several_charts())
        .map(|sheet| (card.clone(), sheet.into_bytes()))
        .collect();
    list.extend(refused_cards());
    list.extend(equal_entries());
    list.push((card, most_records()));
    list.extend(after_the_greatest_chart());
    list
}

/// No bytes, empty lines, and the last line with and without its end.
fn line_ends() -> Vec<String> {
    let s = SHORT;
    let texts = [
        String::new(),
        " ".to_string(),
        "\n".to_string(),
        "\n\n".to_string(),
        s.to_string(),
        format!("{s}\n"),
        format!("{s}\n\n"),
        format!("\n{s}"),
        format!("{s}\n\n{s}"),
        format!("{s}\n \n{s}\n"),
        format!("{s}\r\n{s}"),
        format!("{s}\n{s}\0"),
    ];
    texts.to_vec()
}

/// Around 64 lines, and around numbers that a line's number might be cut down to.
fn many_lines() -> Vec<String> {
    let mut list = Vec::new();
    for count in [
        1, 2, 63, 64, 65, 66, 127, 128, 129, 255, 256, 257, 320, 321, 65_536, 65_540,
    ] {
        for line in ["", SHORT] {
            let sheet = vec![line; count].join("\n");
            list.push(format!("{sheet}\n"));
            list.push(sheet);
        }
        // A first line that fails, and one line more that is empty.
        let sheet = vec![SHORT; count - 1].join("\n");
        list.push(format!("{UNREAD}\n{sheet}"));
        list.push(format!("{sheet}\n\n"));
    }
    list
}

/// A line that fails as the first, in the middle or as the last of 64, and a second one after it.
fn one_fault() -> Vec<String> {
    let long = "coir ".repeat(25);
    let faults = [
        "",
        "  ",
        "coir takes Mild",
        &long,
        "coir gives mild",
        UNREAD,
    ];
    let mut list = Vec::new();
    for fault in faults {
        for place in [0, 1, 31, 62, 63] {
            let mut lines = [SHORT; 64];
            lines[place] = fault;
            list.push(lines.join("\n"));
            lines[63] = UNREAD;
            list.push(lines.join("\n") + "\n");
        }
    }
    list
}

/// Lines whose charts differ in length, so that room may hold one and not the next.
fn several_charts() -> Vec<String> {
    let orders: [&[&str]; 8] = [
        &[SHORT, LONG],
        &[LONG, SHORT],
        &[SHORT, LONG, SHORT],
        &[LONG, SHORT, UNREAD],
        &[UNREAD, LONG],
        &[SHORT, SHORT, LONG, LONG, SHORT],
        &[LONG, UNREAD, "Mild"],
        &[LONG, SHORT, "", LONG],
    ];
    orders.iter().map(|lines| lines.join("\n")).collect()
}

/// Each refusal of a card, under sheets that would be refused too.
fn refused_cards() -> Vec<(Vec<u8>, Vec<u8>)> {
    let card = tomato().bytes();
    // The mark, a count, an offset, the length of an entry, its first letter, a kind, the only left
    // side of a name.
    let faults = [
        (0, 0),
        (4, 0),
        (8, 13),
        (12, 0),
        (13, b'A'),
        (72, 7),
        (73, 3),
    ];
    let mut cards: Vec<Vec<u8>> = faults
        .into_iter()
        .map(|(at, byte)| {
            let mut card = card.clone();
            card[at] = byte;
            card
        })
        .collect();
    cards.push(Vec::new());
    let sheets = [String::new(), format!("{UNREAD}\n"), "\n".repeat(65)];
    cards
        .iter()
        .flat_map(|card| {
            sheets
                .clone()
                .map(|sheet| (card.clone(), sheet.into_bytes()))
        })
        .collect()
}

/// Equal entries are accepted: the tomato card with wool spelled as coir is, with both feeds and
/// both materials alike, and with all its words alike.
fn equal_entries() -> Vec<(Vec<u8>, Vec<u8>)> {
    let cards = [
        (["coir", "coir", "takes", "mild", "rich"], ["coir", "rich"]),
        (["coir", "coir", "takes", "mild", "mild"], ["coir", "mild"]),
        (["coir"; 5], ["coir", "coir"]),
    ];
    let mut list = Vec::new();
    for (words, [material, feed]) in cards {
        let card = CardText {
            words: words.map(String::from).to_vec(),
            ..tomato()
        };
        let takes = words[2];
        let short = format!("{material} {takes} {feed}");
        let long = format!("{material} {material} {takes} {feed} {}", words[3]);
        let sheets = [
            String::new(),
            short.clone(),
            format!("{short}\n{long}\n"),
            format!("{long}\n{short}\n{takes}"),
            format!("{short}\nwool {takes} {feed}\n{long}"),
            format!("{short}\n\n{long}"),
            vec![short.as_str(); 64].join("\n"),
            vec![long.as_str(); 65].join("\n"),
        ];
        list.extend(sheets.map(|sheet| (card.bytes(), sheet.into_bytes())));
    }
    list
}

/// 64 lines of eleven pairs each: no sheet has more records.
fn most_records() -> Vec<u8> {
    vec![tomato_line(&[0, 1, 0, 0, 1, 1, 0, 1, 0, 0, 1]); 64].join(&b'\n')
}

/// The greatest chart between two small ones, and a line whose items no room holds.
fn after_the_greatest_chart() -> Vec<(Vec<u8>, Vec<u8>)> {
    greatest_charts()
        .map(|(card, line)| (card, [b"e", line.as_slice(), b"e e"].join(&b'\n')))
        .to_vec()
}
