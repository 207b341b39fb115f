//! Document 02, W1: a record written from its values, or the number the reader would give.

use crate::model::judge::judge_values;
use crate::model::kind;
use crate::model::record::{fields_with, record_of};
use crate::model::state::{Refusal, State, CLOSED, REFUSED};

/// A record's bytes and the reader's next state.
#[derive(Clone, Debug, PartialEq, Eq)]
pub struct Wrote {
    pub state: State,
    pub bytes: Vec<u8>,
}

/// Writes a record into a buffer of `room` bytes; where it is refused the caller's state is the one kept.
pub fn write(state: &State, kind: u64, values: &[u64], room: usize) -> Result<Wrote, Refusal> {
    can_be_written_to(state)?;
    let refusal = |code, field| Refusal { code, record: state.records, field };
    let Some(kind) = kind::of(kind) else { return Err(refusal(3, 0)) };
    if values.len() != fields_with(kind, values.len()).len() {
        return Err(refusal(4, 0));
    }
    // Wide numbers, so that one too big for its bytes is out of its field's range.
    let wide: Vec<u128> = values.iter().map(|&value| u128::from(value)).collect();
    let accepted =
        judge_values(state, kind, &wide).map_err(|(code, field)| refusal(code, field))?;
    let bytes = record_of(kind, values);
    if bytes.len() > room {
        return Err(refusal(16, 0));
    }
    Ok(Wrote { state: accepted.state, bytes })
}

/// Refusals 13, a refused state's own, and 22.
fn can_be_written_to(state: &State) -> Result<(), Refusal> {
    if !state.in_range() {
        return Err(Refusal { code: 13, record: 0, field: 0 });
    }
    match state.stage {
        REFUSED => Err(state.refusal),
        CLOSED => Err(Refusal { code: 22, record: state.records, field: 0 }),
        _ if state.held_count > 0 => Err(Refusal { code: 22, record: state.records, field: 0 }),
        _ => Ok(()),
    }
}
