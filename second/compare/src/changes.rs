//! Calls one after the other on the library's own map, each beside the same
//! call on the plain set of closed relays.

use crate::both::{answer_of, Both, Compared};
use crate::calls::Call;
use crate::lent::{hex, Lent};
use crate::library::{Answer, Library, NO_RELAY};
use crate::prng::Prng;
use second::changes::Bench;
use second::frame::is_set;
use second::Refusal;

/// What a call gives; only an add has a relay beside its answer.
#[derive(Clone, Copy, Debug, PartialEq, Eq)]
struct Given {
    answer: Answer,
    relay: Option<u16>,
}

fn alone(answer: Answer) -> Given {
    let relay = None;
    Given { answer, relay }
}

/// A room that the library's calls change, and what the plain program makes of
/// the same calls. Neither looks at the other's map.
pub struct Run {
    size: u16,
    room: Lent,
    /// How many bytes of the room are lent as the map.
    map_len: usize,
    plain: Result<Bench, Refusal>,
    calls: Vec<Call>,
}

impl Run {
    /// Any bytes may be held: if they may not be closed, every call but an
    /// opening is refused.
    pub fn holding(rng: &mut Prng, size: u16, bytes: &[u8]) -> Run {
        Run {
            size,
            room: Lent::holding(rng, bytes),
            map_len: bytes.len(),
            plain: Bench::from_map(size, bytes),
            calls: vec![],
        }
    }

    pub fn size(&self) -> u16 {
        self.size
    }

    /// The numbers of the set bits. Maps that are far too long end in zeros.
    pub fn closed(&self) -> Vec<u16> {
        let map = self.room.slice();
        (0..8 * self.map_len.min(64))
            .filter(|&k| is_set(map, k))
            .map(|k| k as u16)
            .collect()
    }

    fn library_gives(&mut self, library: &Library, call: Call) -> Given {
        let (size, len) = (self.size, self.map_len);
        let room = self.room.slice_mut();
        match call {
            Call::OpenAll => alone(library.open_all(size, room)),
            Call::CheckStart => alone(library.check_start(size, &room[..len])),
            Call::Add(net_type) => {
                let (answer, relay) = library.add_net(size, &mut room[..len], net_type);
                let relay = Some(relay);
                Given { answer, relay }
            }
            Call::Drop(relay) => alone(library.drop_net(size, &mut room[..len], relay)),
        }
    }

    fn plain_gives(&mut self, call: Call) -> Given {
        let start = self.plain.as_mut().map_err(|refusal| *refusal);
        match call {
            Call::OpenAll => alone(answer_of(&self.plain_opens())),
            Call::CheckStart => alone(answer_of(&start)),
            Call::Add(net_type) => {
                let added = start.and_then(|bench| bench.add_net(net_type));
                let answer = answer_of(&added);
                let relay = Some(added.unwrap_or(NO_RELAY));
                Given { answer, relay }
            }
            Call::Drop(relay) => alone(answer_of(&start.and_then(|bench| bench.drop_net(relay)))),
        }
    }

    /// From an opening on just the first bytes of the room are the map.
    fn plain_opens(&mut self) -> Result<(), Refusal> {
        let opened = Bench::open(self.size, self.room.slice().len())?;
        self.map_len = opened.map().len();
        self.plain = Ok(opened);
        Ok(())
    }

    /// What the room must begin with: nothing new where all was refused.
    fn plain_map(&self) -> Vec<u8> {
        self.plain.as_ref().map_or(vec![], Bench::map)
    }
}

impl Both {
    /// One more call on what the calls before left in the room.
    pub fn change(&mut self, run: &mut Run, call: Call) -> Compared {
        run.calls.push(call);
        let given = run.library_gives(&self.library, call);
        let plain = run.plain_gives(call);
        self.tally.code(call.entry(), given.answer.code);
        let map = run.plain_map();
        if given == plain && run.room.holds_just(&map) {
            return Ok(());
        }
        Err(format!(
            "{}\nsize {}, the last of the calls {:?}\nroom at the start and now, of {}\nlibrary: {given:?}\nplain:   {plain:?}, room begins with [{}]\n{:?}",
            call.entry(),
            run.size,
            run.calls,
            run.room.describe(),
            hex(&map),
            self.library,
        ))
    }
}
