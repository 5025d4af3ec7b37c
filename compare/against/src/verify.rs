//! Comparing the answers of one implementation with what is expected. Each function returns what
//! was wrong, in words.

use crate::calls::Calls;
use crate::expected::{Input, Items, key};
use crate::room::Room;
use independent::answers::{NameAnswer, PairsAnswer, ReadAnswer};
use independent::card::{Action, Card, Production};
use independent::item::Record;
use independent::line::Spelled;
use independent::steps;

pub type Verdict = Result<(), String>;

pub fn expect<T: PartialEq + std::fmt::Debug>(what: &str, found: T, expected: T) -> Verdict {
    if found == expected {
        Ok(())
    } else {
        Err(format!("{what}: {found:?}, expected {expected:?}"))
    }
}

pub fn demand(what: &str, holds: bool) -> Verdict {
    if holds { Ok(()) } else { Err(what.to_string()) }
}

pub fn card_check(calls: &dyn Calls, input: &Input) -> Verdict {
    let expected = input.card.as_ref().err().copied().unwrap_or(0);
    expect(
        "card check",
        calls.card_check(input.card_bytes),
        expected.into(),
    )
}

pub fn name(calls: &dyn Calls, input: &Input, word: usize) -> Verdict {
    let expected = match &input.card {
        Err(number) => NameAnswer::refused(*number),
        Ok(card) => match card.words.get(word) {
            None => NameAnswer::refused(35),
            Some(spelling) => NameAnswer {
                number: 0,
                offset: (13 + 12 * word) as u16,
                length: spelling.len() as u16,
            },
        },
    };
    let (answer, upper) = calls.name(input.card_bytes, word);
    expect(&format!("name of {word}"), answer, expected)?;
    expect("upper bits of name", upper, 0)
}

/// Read on an input that is refused before rooms matter.
pub fn refused_read(
    calls: &dyn Calls,
    input: &Input,
    chart: &mut Room,
    plan: &mut Room,
) -> Verdict {
    let number = input.line.as_ref().err().copied().unwrap_or(0);
    let answer = calls.read(
        input.card_bytes,
        input.line_bytes,
        chart.lend(),
        plan.lend(),
    );
    expect("read", answer, ReadAnswer::refused(number))?;
    demand(
        "a refused read left its mark",
        chart.untouched_after(0) && plan.untouched_after(0),
    )
}

/// Read on an accepted input.
pub fn read(
    calls: &dyn Calls,
    input: &Input,
    items: &Items,
    chart: &mut Room,
    plan: &mut Room,
) -> Verdict {
    let (card, line) = input.accepted().ok_or("input is refused")?;
    let answer = calls.read(
        input.card_bytes,
        input.line_bytes,
        chart.lend(),
        plan.lend(),
    );
    let number = items.read_number(line.len(), chart.length(), plan.length());
    let expected = match number {
        0 | 25 => ReadAnswer {
            number,
            words: line.len() as u16,
            items: items.count() as u16,
            steps: if number == 0 {
                2 * line.len() as u16 - 1
            } else {
                0
            },
        },
        _ => ReadAnswer::refused(number),
    };
    expect("read", answer, expected)?;
    match number {
        31 => demand("31 left the chart room other than zero", chart.zeroed())?,
        32 => demand("32 touched the chart room", chart.untouched_after(0))?,
        _ => chart_room(card, line, items, chart)?,
    }
    let plan_length = 4 * usize::from(expected.steps);
    demand(
        "plan room changed past the plan",
        plan.untouched_after(plan_length),
    )?;
    match number {
        0 => is_due(input, items, &plan.now()[..plan_length]),
        _ => Ok(()),
    }
}

/// Every byte of a plan is decided by card and line.
fn is_due(input: &Input, items: &Items, plan: &[u8]) -> Verdict {
    let due = items.plan().ok_or("a plan for a line without a reading")?;
    if plan == due {
        return Ok(());
    }
    let fault = match input.replayed(plan) {
        Ok(_) => "is not the first plan",
        Err(_) => "is no leftmost derivation",
    };
    Err(format!("the plan {plan:?} {fault}, expected {due:?}"))
}

/// The whole chart is there, each record is a step, each item stands once, the rest is untouched.
fn chart_room(card: &Card, line: &[Spelled], items: &Items, room: &Room) -> Verdict {
    let held = items
        .held
        .as_ref()
        .ok_or("more items than any room holds")?;
    let length = 16 * held.keys.len();
    demand(
        "chart room changed past the chart",
        room.untouched_after(length),
    )?;
    let bytes = room.now()[..length].as_chunks::<16>().0;
    let mut keys: Vec<u64> = bytes.iter().map(key).collect();
    keys.sort_unstable();
    demand("the items are other items", keys == held.keys)?;
    let records: Option<Vec<Record>> = bytes.iter().map(Record::decode).collect();
    let records = records.ok_or("a record breaks its layout")?;
    for (position, record) in records.iter().enumerate() {
        if !is_step(card, line, &records[..position], record) {
            return Err(format!("record {position} is no step: {record:?}"));
        }
    }
    Ok(())
}

/// Whether the record's item is what its production makes of the records it names, all earlier.
fn is_step(card: &Card, line: &[Spelled], earlier: &[Record], record: &Record) -> bool {
    let Some(production) = card.productions.get(usize::from(record.production)) else {
        return false;
    };
    let item = |position: Option<usize>| Some(&earlier.get(position?)?.item);
    let made = match production {
        Production::Word { .. } => {
            let alone = [record.side, record.dependent, record.continuation] == [None; 3];
            alone
                .then(|| steps::word(production, line, record.item.i.into()))
                .flatten()
        }
        Production::Pair(pair) => {
            let (Some(side), Some(dependent)) = (item(record.side), item(record.dependent)) else {
                return false;
            };
            match (pair.action, record.continuation) {
                (Action::Give(_), continuation) => item(continuation)
                    .and_then(|continuation| steps::give(pair, side, dependent, continuation)),
                (_, None) => steps::take_or_keep(pair, side, dependent),
                (_, Some(_)) => None,
            }
        }
    };
    made == Some(record.item)
}

pub fn check(calls: &dyn Calls, input: &Input, plan: &[u8], expected: u16) -> Verdict {
    let number = calls.check(input.card_bytes, input.line_bytes, plan);
    expect("check", number, expected.into())
}

/// `expected` is Check's number or the pairs.
pub fn pairs(
    calls: &dyn Calls,
    input: &Input,
    plan: &[u8],
    expected: &Result<Vec<[u8; 2]>, u16>,
    room: &mut Room,
) -> Verdict {
    let (answer, upper) = calls.pairs(input.card_bytes, input.line_bytes, plan, room.lend());
    let (expected, bytes) = match expected {
        Err(number) => (PairsAnswer::refused(*number), &[][..]),
        Ok(pairs) if room.length() < 2 * pairs.len() => (PairsAnswer::refused(33), &[][..]),
        Ok(pairs) => {
            let answer = PairsAnswer {
                number: 0,
                count: pairs.len() as u16,
            };
            (answer, pairs.as_flattened())
        }
    };
    expect("pairs", answer, expected)?;
    expect("upper bits of pairs", upper, [0; 2])?;
    expect("pair bytes", &room.now()[..bytes.len()], bytes)?;
    demand(
        "pair room changed past the pairs",
        room.untouched_after(bytes.len()),
    )
}
