//! What is smaller than a thing: bytes given as a book or a plan, other bytes, inputs, numbers.

use crate::answers::{CONTENTS, LENGTH};
use crate::board::Drum;
use crate::book::*;
use crate::form::form;
use crate::listing::{self, input};
use crate::read::taken_apart;

/// Some of what is smaller than a thing, the smallest first.
pub type Smaller<T> = Box<dyn Iterator<Item = T>>;

/// Bytes smaller than these, which are given as a book: with a node less or plainer, or just fewer or smaller bytes.
pub fn smaller_books(bytes: &[u8]) -> Smaller<Vec<u8>> {
    let mut books = Vec::new();
    if !matches!(form(bytes).number, LENGTH | CONTENTS) {
        let book = Book::of_bytes(bytes);
        let third = is_named(bytes).then(|| names_section(bytes).to_vec());
        let fewer = (0..book.nodes.len()).map(|gone| without(&book, gone));
        let smaller = fewer.chain(plainer(&book));
        books.extend(smaller.map(|book| match &third {
            Some(third) => book.three_sections(third),
            None => book.bytes(),
        }));
    }
    Box::new(books.into_iter().chain(smaller_bytes(bytes)))
}

/// Bytes smaller than these, which are given as a plan: with a node or a kind less, or just fewer or smaller bytes.
pub fn smaller_plans(bytes: &[u8]) -> Smaller<Vec<u8>> {
    let mut plans = Vec::new();
    if let Some(plan) = taken_apart(bytes) {
        let (book, width) = (&plan.book, usize::from(plan.book.kinds) + 1);
        for gone in 0..book.nodes.len() {
            let kept = |at: usize| at / width != gone;
            plans.push(without(book, gone).plan(&kept_cells(plan.cells, kept)));
        }
        for gone in 0..width - 1 {
            let mut fewer = book.clone();
            fewer.kinds -= 1;
            let kept = |at: usize| at % width != gone;
            plans.push(fewer.plan(&kept_cells(plan.cells, kept)));
        }
    }
    Box::new(plans.into_iter().chain(smaller_bytes(bytes)))
}

/// The cells at the places that are kept.
fn kept_cells(cells: &[u8], kept: impl Fn(usize) -> bool) -> Vec<u8> {
    let places = (0..cells.len()).filter(|&at| kept(at));
    places.map(|at| cells[at]).collect()
}

/// Inputs of the listing program smaller than this one: with a smaller book, or just fewer or smaller bytes.
pub fn smaller_inputs(bytes: &[u8]) -> Smaller<Vec<u8>> {
    let smaller = smaller_bytes(bytes);
    match listing::taken_apart(bytes) {
        Ok((book, run)) => {
            let run = run.to_vec();
            let by_book = smaller_books(book).map(move |book| input(&book, &run));
            Box::new(by_book.chain(smaller))
        }
        Err(_) => smaller,
    }
}

/// The book without a node; what pointed at it points at the node before it.
fn without(book: &Book, gone: usize) -> Book {
    let moved = |to: u16| to - u16::from(usize::from(to) >= gone.max(1));
    let mut nodes = book.nodes.clone();
    nodes.remove(gone);
    for node in &mut nodes {
        if matches!(node.form, EITHER..=REF) {
            node.left = moved(node.left);
        }
        if matches!(node.form, EITHER | THEN) {
            node.right = moved(node.right);
        }
    }
    Book {
        kinds: book.kinds,
        start: moved(book.start),
        nodes,
    }
}

/// The books in which one node is plainer.
fn plainer(book: &Book) -> Vec<Book> {
    let mut books = Vec::new();
    for (own, old) in book.nodes.iter().enumerate() {
        for form in (FAIL..=TOKEN).filter(|&form| form < old.form) {
            let mut plainer = book.clone();
            plainer.nodes[own] = node(form, 0, 0);
            books.push(plainer);
        }
    }
    books
}

/// Fewer of these bytes, or one of them smaller.
pub fn smaller_bytes(bytes: &[u8]) -> Smaller<Vec<u8>> {
    smaller_lists(bytes, usize::from, |number| number as u8)
}

/// Fewer of these words, or one of them smaller.
pub fn smaller_words(words: &[u16]) -> Smaller<Vec<u16>> {
    smaller_lists(words, usize::from, |number| number as u16)
}

/// Fewer of these elements, from half of them down to one taken out, then one of them made smaller.
fn smaller_lists<T: Copy + 'static>(
    list: &[T],
    number: fn(T) -> usize,
    element: fn(usize) -> T,
) -> Smaller<Vec<T>> {
    let (all, same) = (list.to_vec(), list.to_vec());
    let sizes = std::iter::successors(Some(list.len()), |size| Some(size / 2));
    let cuts = sizes
        .take_while(|&size| size > 0)
        .flat_map(move |size| (0..all.len()).step_by(size).map(move |at| (at, size)));
    let all = list.to_vec();
    let fewer = cuts.map(move |(at, size)| {
        let end = (at + size).min(all.len());
        [&all[..at], &all[end..]].concat()
    });
    let lower = (0..list.len()).flat_map(move |at| {
        let same = same.clone();
        smaller_numbers(number(same[at])).map(move |value| {
            let mut list = same.clone();
            list[at] = element(value);
            list
        })
    });
    Box::new(fewer.chain(lower))
}

/// Numbers smaller than this one: none, half, one less.
pub fn smaller_numbers(number: usize) -> Smaller<usize> {
    let mut smaller = vec![0, number / 2, number.saturating_sub(1)];
    smaller.dedup();
    smaller.retain(|&other| other < number);
    Box::new(smaller.into_iter())
}

/// Drums smaller than these: fewer, one of them idle, or one of them with a smaller number in it.
pub fn smaller_drums(drums: &[Drum]) -> Smaller<Vec<Drum>> {
    let mut smaller = Vec::new();
    for gone in 0..drums.len() {
        smaller.push([&drums[..gone], &drums[gone + 1..]].concat());
    }
    for (at, drum) in drums
        .iter()
        .enumerate()
        .filter(|drum| *drum.1 != Drum::IDLE)
    {
        let mut with = |other: Drum| {
            let mut drums = drums.to_vec();
            drums[at] = other;
            smaller.push(drums);
        };
        with(Drum::IDLE);
        for field in 0..drum.words().len() {
            for less in smaller_numbers(drum.words()[field] as usize) {
                let mut words = drum.words();
                words[field] = less as u32;
                with(Drum::of_words(&words));
            }
        }
    }
    Box::new(smaller.into_iter())
}
