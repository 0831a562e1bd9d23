//! Plans of four sections, own and forged, and drums that stand anyhow.

use super::damaged::damaged;
use super::random::Random;
use super::runs::{lawful_run, Heights};
use crate::board::{event, legal, open, Drum, DRUM_SLOTS, MOST_EVENTS, MOST_RECORDS};
use crate::book::*;
use crate::due::{four_sections, least_lengths, rows_of};

/// A plan of a well-formed book, its own or forged in one of many ways.
pub fn any_due_plan(random: &mut Random, book: &Book) -> Vec<u8> {
    let mut rows = rows_of(book);
    let mut due = least_lengths(book);
    match random.below(14) {
        0..=5 => (),
        6 | 7 => legal_cells(random, book, &mut rows, 1, 4),
        8 => legal_cells(random, book, &mut rows, 8, 4),
        9 | 10 => legal_cells(random, book, &mut rows, 1, 1_000),
        11 => flipped_marks(random, book, &mut rows),
        12 => {
            let at = random.below(rows.len());
            rows[at] = random.below(7) as u8;
        }
        _ => any_due(random, &mut due),
    }
    let plan = four_sections(book, &rows, &due);
    if random.once_in(12) {
        damaged(random, &plan)
    } else {
        plan
    }
}

/// A plan that a reader takes: its own, or forged with cells that its nodes may have and any number of events due.
pub fn good_due_plan(random: &mut Random, book: &Book) -> Vec<u8> {
    let mut rows = rows_of(book);
    let mut due = least_lengths(book);
    match random.below(6) {
        0 => legal_cells(random, book, &mut rows, 1, 4),
        1 => legal_cells(random, book, &mut rows, 1, 1_000),
        2 => flipped_marks(random, book, &mut rows),
        3 => any_due(random, &mut due),
        _ => (),
    }
    four_sections(book, &rows, &due)
}

/// Sets some of the numbers of events due to any others.
pub fn any_due(random: &mut Random, due: &mut [u16]) {
    for number in due {
        if random.once_in(2) {
            let any = random.word();
            *number = random.pick(&[0, 1, any, 65_534, 65_535]);
        }
    }
}

/// Sets about one in `one_in` kind cells to one that its node may have, which is 0 about once in `zero_in`.
fn legal_cells(random: &mut Random, book: &Book, rows: &mut [u8], one_in: usize, zero_in: usize) {
    let kinds = usize::from(book.kinds);
    for (node, row) in book.nodes.iter().zip(rows.chunks_exact_mut(kinds + 1)) {
        let walks: Vec<u8> = (1..=5)
            .filter(|&cell| legal(node.form, false, cell))
            .collect();
        for cell in &mut row[..kinds] {
            if random.once_in(one_in) {
                let none = walks.is_empty() || random.once_in(zero_in);
                *cell = if none { 0 } else { random.pick(&walks) };
            }
        }
    }
}

/// Turns some of the nullable marks round.
fn flipped_marks(random: &mut Random, book: &Book, rows: &mut [u8]) {
    let kinds = usize::from(book.kinds);
    for row in rows.chunks_exact_mut(kinds + 1) {
        if random.once_in(3) {
            row[kinds] = 1 - row[kinds];
        }
    }
}

/// A list of up to 40 drums, mostly of few, each standing anyhow under the plan of a book.
pub fn any_drums(random: &mut Random, book: &Book, plan: &[u8]) -> Vec<Drum> {
    let few = random.below(4);
    let any = random.below(41);
    let count = random.pick(&[1, few, few, 31, 32, 33, any]);
    let heights = Heights::of(book);
    let mut drums = vec![Drum::IDLE; count];
    for _ in 0..count.min(3) {
        let at = random.below(count);
        drums[at] = any_drum(random, book, &heights, plan);
    }
    drums
}

/// A drum that stands anyhow: idle, at some place of a run, forged in one thing, or of any bits.
pub fn any_drum(random: &mut Random, book: &Book, heights: &Heights, plan: &[u8]) -> Drum {
    match random.below(12) {
        0 => Drum::IDLE,
        1 => any_bits(random),
        2 | 3 => full(random, book),
        4..=6 => {
            let mut drum = begun(random, book, heights, plan);
            forge(random, book, &mut drum);
            drum
        }
        _ => begun(random, book, heights, plan),
    }
}

/// A drum somewhere in a lawful run, idle where the plan refuses it.
fn begun(random: &mut Random, book: &Book, heights: &Heights, plan: &[u8]) -> Drum {
    let mut drums = [Drum::IDLE];
    let run = lawful_run(random, book, heights);
    let events = random.below(run.len() + 1).min(100);
    open(plan, &mut drums, 0);
    for &kind in &run[..events] {
        event(plan, &mut drums, 0, kind);
    }
    drums[0]
}

/// A drum of any bits.
fn any_bits(random: &mut Random) -> Drum {
    let mut drum = Drum::IDLE;
    drum.slots.fill_with(|| random.bits() as u32);
    for count in [
        &mut drum.held,
        &mut drum.events,
        &mut drum.records,
        &mut drum.due,
    ] {
        *count = random.bits() as u32;
        if random.once_in(2) {
            *count %= 70;
        }
    }
    drum
}

/// A drum with all slots held, or all but one or two, by nodes of a book with any labels.
fn full(random: &mut Random, book: &Book) -> Drum {
    let mut drum = Drum::IDLE;
    let held = DRUM_SLOTS - random.pick(&[0, 0, 0, 1, 2]);
    for slot in &mut drum.slots[..held] {
        *slot = u32::from(random.word()) << 16 | random.below(book.nodes.len()) as u32;
    }
    // a then on top, which holds more
    let thens: Vec<usize> = (0..book.nodes.len())
        .filter(|&own| book.nodes[own].form == THEN)
        .collect();
    if !thens.is_empty() {
        drum.slots[held - 1] = random.pick(&thens) as u32;
    }
    drum.held = held as u32;
    drum.events = random.below(70_000) as u32;
    drum.records = random.below(1_000_000) as u32;
    drum
}

/// Changes one thing of a drum: a count near its limit, a slot near the nodes' number, or any bit.
pub fn forge(random: &mut Random, book: &Book, drum: &mut Drum) {
    let any = random.bits() as u32;
    let slot = random.below(DRUM_SLOTS);
    let first = random.below((drum.held as usize).clamp(1, DRUM_SLOTS));
    let nodes = book.nodes.len() as u32;
    match random.below(9) {
        0 => drum.held = random.pick(&[0, 1, 63, 64, 65, any, drum.held.wrapping_add(1)]),
        1 => drum.events = random.pick(&[0, MOST_EVENTS - 1, MOST_EVENTS, MOST_EVENTS + 1, any]),
        2 => drum.events = MOST_EVENTS,
        3 => {
            let near = [MOST_RECORDS - 1, MOST_RECORDS, MOST_RECORDS + 1];
            drum.records = random.pick(&[0, near[0], near[1], near[2], any]);
        }
        4 => drum.due = random.pick(&[0, 1, 65_535, any]),
        5 => drum.slots[slot] = any,
        6 => drum.slots[first] = any << 16 | random.pick(&[nodes - 1, nodes, 65_535, 0]),
        7 => drum.slots[first] ^= 1 << random.below(32),
        _ => {
            *drum = Drum::IDLE;
            match random.below(5) {
                0 => drum.held = 1,
                1 => drum.events = 1,
                2 => drum.records = 1,
                3 => drum.due = 1,
                _ => drum.slots[slot] = 1,
            }
        }
    }
}
