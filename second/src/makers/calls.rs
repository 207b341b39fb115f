//! How the bytes of a case are cut into calls, and how much room each call has.

use crate::makers::dice::Dice;
use crate::makers::trial::Call;
use crate::model::feed::{feed, Answer};
use crate::model::state::{State, SURE, TOTAL};

/// Around one line, one total, two lines, a subtotal with its total, and a line before those.
pub const ROOMS: [usize; 17] =
    [0, 1, 53, 54, 55, 61, 62, 63, 107, 108, 109, 115, 116, 117, 169, 170, 1_000];

/// The most room that a trial gives; its other limits are in the notes.
pub const MOST_ROOM: usize = 16_384;

const MOST_CALLS: usize = 60;

/// How a case's calls are drawn.
#[derive(Clone, Copy)]
enum Style {
    OneCall,
    SmallParts,
    ByteByByte,
    ShortRooms,
    AnyParts,
}

fn offer(dice: &mut Dice, style: Style, left: usize) -> usize {
    match style {
        Style::OneCall | Style::ShortRooms => left + dice.of(&[0, 0, 1, 1_000]),
        Style::SmallParts => dice.of(&[1, 2, 3, 7, 16, 27, 28, 29, 64]),
        Style::ByteByByte => 1,
        Style::AnyParts => dice.below(left as u64 + 2) as usize,
    }
}

fn room(dice: &mut Dice, style: Style) -> usize {
    match style {
        Style::OneCall => dice.of(&[4_096, 4_096, MOST_ROOM]),
        Style::SmallParts | Style::ByteByByte => dice.of(&[TOTAL, SURE, SURE, 1_000]),
        Style::ShortRooms => dice.of(&ROOMS),
        Style::AnyParts => dice.below(300) as usize,
    }
}

pub fn some_calls(dice: &mut Dice, state: &State, input: &[u8]) -> Vec<Call> {
    use Style::*;
    let styles = [OneCall, OneCall, SmallParts, ByteByByte, ShortRooms, ShortRooms, AnyParts];
    let style = dice.of(&styles);
    let beyond = dice.below(3);
    let next = |_, left| Call { offer: offer(dice, style, left), room: room(dice, style) };
    calls_to_the_end(state, input, beyond, MOST_CALLS, next)
}

/// Calls until all is taken or the book ends, and so many beyond, but `most` in all; `next` is told the calls made and the bytes left.
pub fn calls_to_the_end(
    state: &State,
    input: &[u8],
    mut beyond: u64,
    most: usize,
    mut next: impl FnMut(usize, usize) -> Call,
) -> Vec<Call> {
    let mut calls = Vec::new();
    let (mut state, mut left) = (*state, input);
    loop {
        let call = next(calls.len(), left.len());
        calls.push(call);
        let reply = feed(&state, &left[..call.offer.min(left.len())], call.room);
        left = &left[reply.taken..];
        state = reply.state;
        let ended = left.is_empty() || matches!(reply.answer, Answer::Closed | Answer::Refused(_));
        if (ended && beyond == 0) || calls.len() >= most {
            return calls;
        }
        beyond -= u64::from(ended);
    }
}
