//! Random cases, each fixed by a seed and its number.

use super::case::Case;
use crate::books::random::Random;
use crate::calls::lender::Lending;
use crate::calls::Call;
use crate::ffi::lent::Edge;
use crate::program::Delivery;

/// The case of this number, of one of these calls.
pub fn case(seed: u64, number: u64, calls: &[&'static Call]) -> Case {
    let spread = Random::new(seed).bits();
    let mut random = Random::new(Random::new(spread.wrapping_add(number)).bits());
    let call = any_call(&mut random, calls);
    Case {
        call,
        arguments: (call.any)(&mut random),
        lending: any_lending(&mut random),
    }
}

/// One of these calls, by their shares.
fn any_call(random: &mut Random, calls: &[&'static Call]) -> &'static Call {
    let mut left = random.below(calls.iter().map(|call| call.share).sum());
    for call in calls {
        if left < call.share {
            return call;
        }
        left -= call.share;
    }
    unreachable!("the number is below the sum of the shares")
}

/// Memory lent at either edge, with any garbage in it, empty parts now and then as null pointers.
fn any_lending(random: &mut Random) -> Lending {
    let any = random.word() as u8;
    Lending {
        edge: random.pick(&[Edge::Begin, Edge::End]),
        garbage: random.pick(&[0xA5, 0xFF, 0x01, any]),
        null: random.once_in(2),
        delivery: Delivery::any(random),
    }
}
