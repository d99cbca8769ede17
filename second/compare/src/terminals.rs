//! What the library tells of a relay beside what the plain program tells.

use crate::both::{answer_of, Both, Compared};
use crate::library::{Terminal, Told};
use second::frame::{self, Relay};
use second::Refusal;

/// Types and sides are told from 1 on; all are 0 beside a refusal.
fn told_of(result: &Result<(Relay, [frame::Terminal; 2]), Refusal>) -> Told {
    let told = (*result).map(|(relay, ends)| (relay.kind as u16 + 1, ends.map(told_terminal)));
    let (net_type, [earlier, later]) = told.unwrap_or_default();
    Told {
        answer: answer_of(result),
        net_type,
        earlier,
        later,
    }
}

fn told_terminal(terminal: frame::Terminal) -> Terminal {
    Terminal {
        side: terminal.side as u16 + 1,
        position: terminal.position as u16,
    }
}

impl Both {
    pub fn relay_terminals(&mut self, size: u16, relay: u16) -> Compared {
        let plain = told_of(&frame::relay_terminals(size, relay));
        let told = self.library.relay_terminals(size, relay);
        self.tally.code("frame_relay_terminals", told.answer.code);
        if told == plain {
            return Ok(());
        }
        Err(format!(
            "frame_relay_terminals\nsize {size}, relay {relay}\nlibrary: {told:?}\nplain:   {plain:?}"
        ))
    }
}
