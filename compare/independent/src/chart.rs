//! The six calls, made for speed: a chart parser with no allocation that writes only to lent
//! rooms and works with the same lengths as the library it is measured against.

mod build;
mod bytes;
mod card;
mod cut;
mod follow;
mod line;
mod record;
mod sheet;
mod spellings;
mod tables;
mod tails;
mod unfold;
mod unset;
mod uses;

use crate::answers::{NameAnswer, PairsAnswer, ReadAnswer};
use build::MOST_ITEMS;
use card::Card;
use follow::Pairs;
use line::{MOST_WORDS, WordSets};
pub use sheet::sheet;
use spellings::Spellings;
use uses::ProductionSets;

/// 0, or the card's refusal.
pub fn card_check(card: &[u8]) -> u16 {
    Card::accept(card).err().unwrap_or(0)
}

pub fn read(card: &[u8], line: &[u8], chart: &mut [u8], plan: &mut [u8]) -> ReadAnswer {
    accepted(card, line, &mut [0; MOST_WORDS])
        .and_then(|(card, words)| {
            let mut sets = ProductionSets::empty();
            sets.add_all(&card);
            read_words(&card, &sets, words, chart, plan)
        })
        .unwrap_or_else(ReadAnswer::refused)
}

fn accepted<'a>(
    card: &'a [u8],
    line: &[u8],
    words: &'a mut WordSets,
) -> Result<(Card<'a>, &'a [u32]), u16> {
    let card = Card::accept(card)?;
    let mut spellings = Spellings::empty(card.words);
    spellings.add_all();
    let words = line::places(&spellings, line, words)?;
    Ok((card, words))
}

fn read_words(
    card: &Card,
    sets: &ProductionSets,
    words: &[u32],
    chart: &mut [u8],
    plan: &mut [u8],
) -> Result<ReadAnswer, u16> {
    let steps = 2 * words.len() - 1;
    let plan = plan.as_chunks_mut::<4>().0;
    if plan.len() < steps {
        return Err(32);
    }
    let records = chart.as_chunks_mut::<16>().0;
    let held = records.len().min(MOST_ITEMS);
    let Ok(built) = build::build(card, sets, words, &mut records[..held]) else {
        chart.fill(0);
        return Err(31);
    };
    let answer = ReadAnswer {
        number: 25,
        words: words.len() as u16,
        items: built.items as u16,
        steps: 0,
    };
    let Some(whole_line) = built.whole_line else {
        return Ok(answer);
    };
    let steps = unfold::unfold(records, card.productions, whole_line, words.len(), plan);
    Ok(ReadAnswer {
        number: 0,
        steps: steps as u16,
        ..answer
    })
}

/// 0, or the refusal of card, line or plan.
pub fn check(card: &[u8], line: &[u8], plan: &[u8]) -> u16 {
    followed(card, line, plan).err().unwrap_or(0)
}

fn followed(card: &[u8], line: &[u8], plan: &[u8]) -> Result<Pairs, u16> {
    let mut words = [0; MOST_WORDS];
    let (card, words) = accepted(card, line, &mut words)?;
    follow::follow(&card, words, plan).ok_or(34)
}

pub fn pairs(card: &[u8], line: &[u8], plan: &[u8], room: &mut [u8]) -> PairsAnswer {
    let found = match followed(card, line, plan) {
        Ok(found) => found,
        Err(number) => return PairsAnswer::refused(number),
    };
    let bytes = found.as_slice().as_flattened();
    let Some(written) = room.get_mut(..bytes.len()) else {
        return PairsAnswer::refused(33);
    };
    written.copy_from_slice(bytes);
    PairsAnswer {
        number: 0,
        count: found.as_slice().len() as u16,
    }
}

pub fn name(card: &[u8], word: usize) -> NameAnswer {
    let card = match Card::accept(card) {
        Ok(card) => card,
        Err(number) => return NameAnswer::refused(number),
    };
    match card.words.get(word) {
        Some(entry) => NameAnswer {
            number: 0,
            offset: (12 + 12 * word + 1) as u16,
            length: entry[0].into(),
        },
        None => NameAnswer::refused(35),
    }
}
