//! Chart rooms by their length. Document 01 says how many items a room of so many bytes holds, and
//! document 02, Paper 3, that it is this number for every length.

use crate::calls::ChartParser;
use crate::compare::{Comparison, Outcome, blame};
use crate::edges;
use crate::expected::{FULL_ROOM, Input, Items, PLAN_ROOM};
use crate::room::Room;
use crate::verify;
use independent::answers::ReadAnswer;
use independent::write::tomato;

/// A card, a line, its derivable items, which are known beforehand, and the lengths of chart room
/// in which it is read.
pub struct Rooms {
    pub card: Vec<u8>,
    pub line: Vec<u8>,
    pub items: usize,
    pub lengths: Vec<usize>,
}

/// Lines of 0 to 10 items in every length up to two items more than they have, and the greatest
/// charts around the greatest number of items and in longer rooms.
pub fn all() -> Vec<Rooms> {
    let lines: [(&[u8], usize); 6] = [
        (&[2], 1),
        (&[0, 2, 3], 5),
        (&[0, 0, 2, 3], 6),
        (&[0, 1, 2, 4, 3], 8),
        (&[0, 1, 2, 3, 4], 9),
        (&[0, 0, 2, 3, 3], 10),
    ];
    let of_tomato = lines.map(|(words, items)| Rooms {
        card: tomato().bytes(),
        line: tomato().line(words),
        items,
        lengths: (0..=16 * (items + 2)).collect(),
    });
    let greatest = edges::greatest_charts().into_iter().zip(65_535..);
    let greatest = greatest.map(|((card, line), items)| Rooms {
        card,
        line,
        items,
        lengths: around_the_most(),
    });
    of_tomato
        .into_iter()
        .chain([no_items()])
        .chain(greatest)
        .collect()
}

/// The same lines and lengths under cards with a dead name: the start has a production more, and on
/// its right is a nonterminal more.
pub fn all_with_a_dead_name() -> Vec<Rooms> {
    let mut list = all();
    for Rooms { card, .. } in &mut list {
        let name = card[4];
        card.extend([3, 0, 0, name, 0, 0]);
        card[4] += 1;
        card[7] += 1;
    }
    list
}

/// The last word has no production, so that a line of it has no item, and room of no bytes is
/// enough.
fn no_items() -> Rooms {
    let mut card = tomato();
    card.words.push(String::from("rain"));
    Rooms {
        line: card.line(&[5]),
        card: card.bytes(),
        items: 0,
        lengths: (0..=33).collect(),
    }
}

/// Every length within two items of room for 65,535, and rooms for twice and three times as many.
fn around_the_most() -> Vec<usize> {
    let near = FULL_ROOM - 32..=FULL_ROOM + 32;
    let longer = [2 * FULL_ROOM, 2 * FULL_ROOM + 32, 3 * FULL_ROOM + 7];
    near.chain(longer).collect()
}

impl Comparison<'_> {
    /// Read in each of these rooms, with plan room enough.
    pub fn rooms(&mut self, rooms: &Rooms) -> Outcome {
        let input = Input::new(&rooms.card, &rooms.line);
        let mut items = Items::of(&input, self.scratch);
        let verdict = verify::expect("items", items.count(), rooms.items);
        blame(&ChartParser, &input, &[], [None; 3], verdict)?;
        self.first_plan(&input, &mut items)?;
        let lengths: Vec<(usize, usize)> = rooms
            .lengths
            .iter()
            .map(|&chart| (chart, PLAN_ROOM))
            .collect();
        self.reads_in(&input, &items, &lengths)
    }

    /// Read under a card that gets 42, which leaves all rooms as they were.
    pub fn refused_rooms(&mut self, rooms: &Rooms) -> Outcome {
        let input = Input::new(&rooms.card, &rooms.line);
        let known = verify::expect("number", input.card.as_ref().err(), Some(&42));
        blame(&ChartParser, &input, &[], [None; 3], known)?;
        for &length in &rooms.lengths {
            self.tally.number(42);
            let mut chart = Room::new(length, self.random);
            let mut plan = Room::new(self.random.below(PLAN_ROOM + 1), self.random);
            let lent = [Some(length), Some(plan.length()), None];
            for &calls in self.who {
                chart.restore();
                plan.restore();
                let verdict = verify::refused_read(calls, &input, &mut chart, &mut plan);
                blame(calls, &input, &[], lent, verdict)?;
            }
        }
        Ok(())
    }

    /// A room whose length takes more than 32 bits: the lowest 32 of them would not be enough for
    /// the five items. It is lent zero and not filled, so that only what is written takes memory.
    pub fn room_over_32_bits(&mut self) -> Outcome {
        const LENGTH: usize = (1 << 32) + 79;
        const LOOKED_AT: usize = 1 << 20;
        let (card, line) = (tomato().bytes(), tomato().line(&[0, 2, 3]));
        let input = Input::new(&card, &line);
        let expected = ReadAnswer {
            number: 0,
            words: 3,
            items: 5,
            steps: 5,
        };
        for &calls in self.who {
            let mut chart = vec![0; LENGTH];
            let answer = calls.read(&card, &line, &mut chart, &mut [0; PLAN_ROOM]);
            let is_zero = |part: &[u8]| part.iter().all(|&byte| byte == 0);
            let untouched = is_zero(&chart[80..LOOKED_AT]) && is_zero(&chart[LENGTH - LOOKED_AT..]);
            let verdict = verify::expect("read", answer, expected)
                .and_then(|()| verify::demand("chart room changed past the chart", untouched));
            let lengths = [Some(LENGTH), Some(PLAN_ROOM), None];
            blame(calls, &input, &[], lengths, verdict)?;
        }
        self.tally.number(0);
        Ok(())
    }
}
