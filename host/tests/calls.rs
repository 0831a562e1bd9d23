//! What holds of every call of the archive, by the table: null pointers for what is empty, and lengths of every
//! width.

use host::answers::Tally;
use host::board::Drum;
use host::book::bytes_of;
use host::calls::lender::{Lender, Lending, Part, Raw};
use host::calls::{Answer, Argument, Call, Left, Made, CALLS};
use host::ffi::lent::Edge;
use host::ffi::vast::{Vast, FOLD};
use host::pair::Pair;

/// Every length below this one is tried.
const SMALL: usize = 1_500;

/// Lengths of up to this many bits are lent as they are; wider ones are more than memory allows.
const PLAIN_BITS: u32 = 23;

/// Lists of drums of up to this many bits are lent as they are.
const DRUM_BITS: u32 = 12;

/// The widest length of a buffer, in bits: elements of 2 bytes that fill 8 GB.
const BUFFER_BITS: u32 = 32;

/// The widest length of an input, in bits.
const INPUT_BITS: u32 = 36;

/// The calls of the archive, each with the way to make it.
fn archive_calls() -> impl Iterator<Item = (&'static Call, Raw)> {
    CALLS.into_iter().filter_map(|call| match call.made {
        Made::Archive(raw) => Some((call, raw)),
        Made::Program(_) => None,
    })
}

/// The argument with so many elements, zeros where there are more.
fn resized(argument: &Argument, length: usize) -> Argument {
    match argument {
        Argument::Given(bytes) => {
            let mut bytes = bytes.clone();
            bytes.resize(length, 0);
            Argument::Given(bytes)
        }
        Argument::Words(words) => {
            let mut words = words.clone();
            words.resize(length, 0);
            Argument::Words(words)
        }
        Argument::Room(_) => Argument::Room(length),
        Argument::Number(_) => Argument::Number(length as u32),
        Argument::Drums(drums) => {
            let mut drums = drums.clone();
            drums.resize(length, Drum::IDLE);
            Argument::Drums(drums)
        }
    }
}

/// Every choice of parameters that are empty, as null pointers and not, the others as in the call's example.
#[test]
fn empty_parts_may_be_null() {
    let mut combinations = 0;
    for (call, _) in archive_calls() {
        let mut pair = Pair::of(call);
        let example = (call.example)();
        for chosen in 1..1 << example.len() {
            let mut arguments = example.clone();
            for (place, argument) in arguments.iter_mut().enumerate() {
                if chosen >> place & 1 == 1 {
                    *argument = resized(argument, 0);
                }
            }
            for null in [true, false] {
                let lending = Lending {
                    null,
                    ..Lending::at(Edge::End)
                };
                pair.compare_lent(&arguments, lending);
            }
            combinations += 1;
        }
    }
    assert!(combinations >= 1 + 3 + 15 + 7 + 7 + 7);
}

/// Each parameter of every small length, and longer than in the call's example by each power of two, where memory is
/// lent as it is.
#[test]
fn lengths_of_few_bits() {
    for (call, _) in archive_calls() {
        let mut pair = Pair::of(call);
        let example = (call.example)();
        for (place, argument) in example.iter().enumerate() {
            let widest = match argument {
                Argument::Drums(_) => DRUM_BITS,
                _ => PLAIN_BITS,
            };
            let powers = (0..widest).map(|bits| argument.size() + (1 << bits));
            for length in (0..SMALL).chain(powers) {
                let mut arguments = example.clone();
                arguments[place] = resized(argument, length);
                pair.compare(&arguments);
            }
        }
    }
}

/// Inputs of lengths that few bits do not tell from that of the call's example: each answers as one that is too long
/// by as little as memory allows.
#[test]
fn inputs_longer_than_memory() {
    let mut vast = Vast::sparse((1 << INPUT_BITS) + FOLD);
    let mut lender = Lender::default();
    let mut tally = Tally::default();
    for (call, raw) in archive_calls() {
        let example = (call.example)();
        for (place, argument) in example.iter().enumerate() {
            let (bytes, bits) = match argument {
                Argument::Given(bytes) => (bytes.clone(), INPUT_BITS),
                Argument::Words(words) => (bytes_of(words), INPUT_BITS - 1),
                _ => continue,
            };
            let size = argument.size();
            let mut too_long = example.clone();
            too_long[place] = resized(argument, size + (1 << PLAIN_BITS));
            let wanted = (call.wanted)(&too_long);
            vast.part(0, FOLD).fill(0);
            vast.part(0, bytes.len()).copy_from_slice(&bytes);
            for bits in PLAIN_BITS..=bits {
                let len = size + (1 << bits);
                let mut parts = lender.parts(call.takes, &example, Lending::at(Edge::End));
                parts[place] = Part { at: vast.at(), len };
                // SAFETY: the parts are memory that is open for as many elements as they say.
                let fields = unsafe { raw(&parts) };
                let told = call.told(&Answer::new(fields.clone(), vec![]));
                assert_eq!(fields, wanted.fields, "{} of {len}: {told}", call.name);
                tally.count(wanted.number());
            }
        }
    }
    assert!(tally.total() >= 10 * 13);
}

/// Buffers of lengths that few bits do not tell from that of the call's example: each answer is as in the example,
/// and what is beyond it is zero up to the buffer's last element.
#[test]
fn buffers_longer_than_memory() {
    let mut vast = Vast::folded((4 << BUFFER_BITS) + FOLD);
    let mut lender = Lender::default();
    for (call, raw) in archive_calls() {
        let example = (call.example)();
        let wanted = (call.wanted)(&example);
        let buffers = (0..example.len()).filter(|&at| matches!(example[at], Argument::Room(_)));
        for (number, place) in buffers.enumerate() {
            let (bytes, width) = match &wanted.left[number] {
                Left::Drums(_) => unreachable!("a list of drums is no room"),
                Left::Bytes(bytes) => (bytes.clone(), 1),
                Left::Words(words) => (words.iter().flat_map(|w| w.to_le_bytes()).collect(), 2),
                Left::Slots(slots) => (slots.iter().flat_map(|s| s.to_le_bytes()).collect(), 4),
            };
            for bits in PLAIN_BITS..=BUFFER_BITS {
                vast.fill(0xA5);
                let len = example[place].size() + (1 << bits);
                let mut parts = lender.parts(call.takes, &example, Lending::at(Edge::End));
                parts[place] = Part { at: vast.at(), len };
                // SAFETY: the parts are memory that is open for as many elements as they say.
                let fields = unsafe { raw(&parts) };
                let told = call.told(&Answer::new(fields.clone(), vec![]));
                assert_eq!(fields, wanted.fields, "{} of {len}: {told}", call.name);
                let first = vast.part(0, FOLD);
                assert_eq!(first[..bytes.len()], bytes, "{} of {len}", call.name);
                assert!(first[bytes.len()..].iter().all(|&byte| byte == 0));
                let last = vast.part(width * len - FOLD, FOLD);
                assert!(last.iter().all(|&byte| byte == 0), "{} of {len}", call.name);
            }
        }
    }
}
