//! The library's C interface, with slices in place of pointers and lengths.

use second::frame::Counts;
use std::ptr;

extern "C" {
    fn frame_route(
        size: u16,
        n1: u16,
        n2: u16,
        n3: u16,
        n4: u16,
        n5: u16,
        n6: u16,
        room: *mut u8,
        room_len: usize,
        sums: *mut u32,
        number: *mut u32,
    ) -> u32;

    fn frame_check_map(
        size: u16,
        n1: u16,
        n2: u16,
        n3: u16,
        n4: u16,
        n5: u16,
        n6: u16,
        map: *const u8,
        map_len: usize,
        number: *mut u32,
    ) -> u32;

    fn frame_relay_terminals(
        size: u16,
        relay: u16,
        net_type: *mut u16,
        earlier: *mut Terminal,
        later: *mut Terminal,
        number: *mut u32,
    ) -> u32;

    fn frame_read_job(
        record: *const u8,
        record_len: usize,
        size: *mut u16,
        counts: *mut u16,
        number: *mut u32,
    ) -> u32;

    fn frame_write_job(
        size: u16,
        n1: u16,
        n2: u16,
        n3: u16,
        n4: u16,
        n5: u16,
        n6: u16,
        room: *mut u8,
        room_len: usize,
        number: *mut u32,
    ) -> u32;

    fn frame_read_pattern(
        record: *const u8,
        record_len: usize,
        size: *mut u16,
        counts: *mut u16,
        map_at: *mut usize,
        map_len: *mut usize,
        number: *mut u32,
    ) -> u32;

    fn frame_write_pattern(
        size: u16,
        n1: u16,
        n2: u16,
        n3: u16,
        n4: u16,
        n5: u16,
        n6: u16,
        map: *const u8,
        map_len: usize,
        room: *mut u8,
        room_len: usize,
        number: *mut u32,
    ) -> u32;

    fn frame_open_all(size: u16, room: *mut u8, room_len: usize, number: *mut u32) -> u32;

    fn frame_check_start(size: u16, map: *const u8, map_len: usize, number: *mut u32) -> u32;

    fn frame_add_net(
        size: u16,
        map: *mut u8,
        map_len: usize,
        net_type: u16,
        relay: *mut u16,
        number: *mut u32,
    ) -> u32;

    fn frame_drop_net(size: u16, map: *mut u8, map_len: usize, relay: u16, number: *mut u32)
        -> u32;
}

/// A terminal as it is told: its side, 1 to 4, and its position.
#[repr(C)]
#[derive(Clone, Copy, Debug, Default, PartialEq, Eq)]
pub struct Terminal {
    pub side: u16,
    pub position: u16,
}

/// What stands beside an add that is refused.
pub const NO_RELAY: u16 = 65535;

/// What stands where an answer is to be written, so that a number the library
/// leaves out shows.
const STALE: u8 = 0xA5;
const STALE_16: u16 = u16::from_ne_bytes([STALE; 2]);
const STALE_32: u32 = u32::from_ne_bytes([STALE; 4]);
const STALE_SIZE: usize = usize::from_ne_bytes([STALE; size_of::<usize>()]);
const STALE_TERMINAL: Terminal = Terminal {
    side: STALE_16,
    position: STALE_16,
};

#[derive(Clone, Copy, Debug, PartialEq, Eq)]
pub struct Answer {
    pub code: u32,
    pub number: u32,
}

/// All that the router gives beside the map.
#[derive(Clone, Copy, Debug, PartialEq, Eq)]
pub struct Routed {
    pub answer: Answer,
    pub sums: [u32; 4],
}

impl From<Routed> for Answer {
    fn from(routed: Routed) -> Answer {
        routed.answer
    }
}

/// All that is told of a relay.
#[derive(Clone, Copy, Debug, PartialEq, Eq)]
pub struct Told {
    pub answer: Answer,
    pub net_type: u16,
    pub earlier: Terminal,
    pub later: Terminal,
}

/// All that a reader gives back; the job reader's map is none.
#[derive(Clone, Copy, Debug, PartialEq, Eq)]
pub struct Read {
    pub answer: Answer,
    pub size: u16,
    pub counts: Counts,
    pub map_at: usize,
    pub map_len: usize,
}

#[derive(Clone, Copy, Debug)]
pub struct Library {
    /// Lend empty slices as null with length 0.
    pub empty_is_null: bool,
}

impl Library {
    fn lend(&self, bytes: &[u8]) -> *const u8 {
        if bytes.is_empty() && self.empty_is_null {
            ptr::null()
        } else {
            bytes.as_ptr()
        }
    }

    fn lend_mut(&self, bytes: &mut [u8]) -> *mut u8 {
        if bytes.is_empty() && self.empty_is_null {
            ptr::null_mut()
        } else {
            bytes.as_mut_ptr()
        }
    }

    #[inline]
    pub fn route(&self, size: u16, n: Counts, room: &mut [u8]) -> Routed {
        let (at, len) = (self.lend_mut(room), room.len());
        let (mut sums, mut number) = ([STALE_32; 4], STALE_32);
        // SAFETY: room, four sums and number are lent for the call and do not overlap.
        let code = unsafe {
            frame_route(
                size,
                n[0],
                n[1],
                n[2],
                n[3],
                n[4],
                n[5],
                at,
                len,
                sums.as_mut_ptr(),
                &mut number,
            )
        };
        Routed {
            answer: Answer { code, number },
            sums,
        }
    }

    pub fn check_map(&self, size: u16, n: Counts, map: &[u8]) -> Answer {
        let (at, len) = (self.lend(map), map.len());
        let mut number = STALE_32;
        // SAFETY: the map is only read; number does not overlap it.
        let code = unsafe {
            frame_check_map(
                size,
                n[0],
                n[1],
                n[2],
                n[3],
                n[4],
                n[5],
                at,
                len,
                &mut number,
            )
        };
        Answer { code, number }
    }

    pub fn relay_terminals(&self, size: u16, relay: u16) -> Told {
        let (mut net_type, mut number) = (STALE_16, STALE_32);
        let (mut earlier, mut later) = (STALE_TERMINAL, STALE_TERMINAL);
        // SAFETY: all that is written is lent for the call, and none overlap.
        let code = unsafe {
            frame_relay_terminals(
                size,
                relay,
                &mut net_type,
                &mut earlier,
                &mut later,
                &mut number,
            )
        };
        Told {
            answer: Answer { code, number },
            net_type,
            earlier,
            later,
        }
    }

    pub fn read_job(&self, record: &[u8]) -> Read {
        let (at, len) = (self.lend(record), record.len());
        let (mut size, mut counts, mut number) = (STALE_16, [STALE_16; 6], STALE_32);
        // SAFETY: the record is only read; six counts are lent, and none overlap.
        let code = unsafe { frame_read_job(at, len, &mut size, counts.as_mut_ptr(), &mut number) };
        Read {
            answer: Answer { code, number },
            size,
            counts,
            map_at: 0,
            map_len: 0,
        }
    }

    pub fn write_job(&self, size: u16, n: Counts, room: &mut [u8]) -> Answer {
        let (at, len) = (self.lend_mut(room), room.len());
        let mut number = STALE_32;
        // SAFETY: room and number are lent for the call and do not overlap.
        let code = unsafe {
            frame_write_job(
                size,
                n[0],
                n[1],
                n[2],
                n[3],
                n[4],
                n[5],
                at,
                len,
                &mut number,
            )
        };
        Answer { code, number }
    }

    pub fn read_pattern(&self, record: &[u8]) -> Read {
        let (at, len) = (self.lend(record), record.len());
        let (mut size, mut counts, mut number) = (STALE_16, [STALE_16; 6], STALE_32);
        let (mut map_at, mut map_len) = (STALE_SIZE, STALE_SIZE);
        // SAFETY: the record is only read; six counts are lent, and none overlap.
        let code = unsafe {
            frame_read_pattern(
                at,
                len,
                &mut size,
                counts.as_mut_ptr(),
                &mut map_at,
                &mut map_len,
                &mut number,
            )
        };
        Read {
            answer: Answer { code, number },
            size,
            counts,
            map_at,
            map_len,
        }
    }

    pub fn write_pattern(&self, size: u16, n: Counts, map: &[u8], room: &mut [u8]) -> Answer {
        let (map_at, map_len) = (self.lend(map), map.len());
        let (at, len) = (self.lend_mut(room), room.len());
        let mut number = STALE_32;
        // SAFETY: the map is only read; map, room and number do not overlap.
        let code = unsafe {
            frame_write_pattern(
                size,
                n[0],
                n[1],
                n[2],
                n[3],
                n[4],
                n[5],
                map_at,
                map_len,
                at,
                len,
                &mut number,
            )
        };
        Answer { code, number }
    }

    pub fn open_all(&self, size: u16, room: &mut [u8]) -> Answer {
        let (at, len) = (self.lend_mut(room), room.len());
        let mut number = STALE_32;
        // SAFETY: room and number are lent for the call and do not overlap.
        let code = unsafe { frame_open_all(size, at, len, &mut number) };
        Answer { code, number }
    }

    pub fn check_start(&self, size: u16, map: &[u8]) -> Answer {
        let (at, len) = (self.lend(map), map.len());
        let mut number = STALE_32;
        // SAFETY: the map is only read; number does not overlap it.
        let code = unsafe { frame_check_start(size, at, len, &mut number) };
        Answer { code, number }
    }

    /// The answer and the relay beside it.
    pub fn add_net(&self, size: u16, map: &mut [u8], net_type: u16) -> (Answer, u16) {
        let (at, len) = (self.lend_mut(map), map.len());
        let (mut relay, mut number) = (STALE_16, STALE_32);
        // SAFETY: map, relay and number are lent for the call and do not overlap.
        let code = unsafe { frame_add_net(size, at, len, net_type, &mut relay, &mut number) };
        (Answer { code, number }, relay)
    }

    pub fn drop_net(&self, size: u16, map: &mut [u8], relay: u16) -> Answer {
        let (at, len) = (self.lend_mut(map), map.len());
        let mut number = STALE_32;
        // SAFETY: map and number are lent for the call and do not overlap.
        let code = unsafe { frame_drop_net(size, at, len, relay, &mut number) };
        Answer { code, number }
    }
}
