//! Document 01's call: a state, bytes and a line buffer in; the new state, two counts, lines and one answer out.

use crate::model::judge::{judge, Fault};
use crate::model::record::LENGTHS;
use crate::model::state::{Refusal, State, CLOSED, REFUSED};

#[derive(Clone, Copy, Debug, PartialEq, Eq)]
pub enum Answer {
    More,
    Full,
    Closed,
    Refused(Refusal),
}

/// What a call gives; the count of bytes written is the length of `lines`.
#[derive(Clone, Debug, PartialEq, Eq)]
pub struct Reply {
    pub state: State,
    pub taken: usize,
    pub lines: Vec<u8>,
    pub answer: Answer,
}

/// What one byte leads to.
enum Step {
    Held(State),
    Accepted(State, Vec<u8>),
    Refused(State),
}

/// One call, byte by byte, with a line buffer of `room` bytes.
pub fn feed(given: &State, input: &[u8], room: usize) -> Reply {
    let mut reply = Reply { state: *given, taken: 0, lines: Vec::new(), answer: Answer::More };
    if !given.in_range() {
        reply.answer = Answer::Refused(Refusal { code: 13, record: 0, field: 0 });
        return reply;
    }
    for &byte in input {
        if reply.state.stage >= CLOSED {
            break;
        }
        match step(&reply.state, byte) {
            Step::Accepted(_, lines) if reply.lines.len() + lines.len() > room => {
                reply.answer = Answer::Full;
                return reply;
            }
            Step::Accepted(state, lines) => {
                reply.state = state;
                reply.lines.extend(lines);
            }
            Step::Held(state) | Step::Refused(state) => reply.state = state,
        }
        reply.taken += 1;
    }
    reply.answer = match reply.state.stage {
        CLOSED => Answer::Closed,
        REFUSED => Answer::Refused(reply.state.refusal),
        _ => Answer::More,
    };
    reply
}

fn step(state: &State, byte: u8) -> Step {
    let count = state.held_count as usize;
    let mut front = [0; 28];
    front[..27].copy_from_slice(&state.held);
    front[count] = byte;
    let have = count + 1;
    let length = u16::from_be_bytes([front[0], front[1]]);
    if have == 2 && !LENGTHS.contains(&length) {
        return Step::Refused(refused(state, (1, 0)));
    }
    if have < 2 || have < 2 + usize::from(length) {
        let mut held = [0; 27];
        held.copy_from_slice(&front[..27]);
        return Step::Held(State { held_count: have as u64, held, ..*state });
    }
    match judge(state, &front[..have]) {
        Ok(accepted) => Step::Accepted(accepted.state, accepted.lines),
        Err(fault) => Step::Refused(refused(state, fault)),
    }
}

/// Held bytes dropped, all the rest kept.
fn refused(state: &State, (code, field): Fault) -> State {
    let refusal = Refusal { code, record: state.records, field };
    State { stage: REFUSED, refusal, ..state.empty_handed() }
}

/// The herd desk's one number, code × 2^32 + bytes written, and the lines.
pub fn herd_desk(book: &[u8], room: usize) -> (u64, Vec<u8>) {
    let reply = feed(&State::default(), book, room);
    let code = match reply.answer {
        Answer::Closed if reply.taken == book.len() => 0,
        Answer::Closed => 18,
        Answer::More => 17,
        Answer::Full => 16,
        Answer::Refused(refusal) => u64::from(refusal.code),
    };
    ((code << 32) + reply.lines.len() as u64, reply.lines)
}
