//! Lists by atomic words: a claim word and a first link for each list, and 256 slots and a next link for each chunk.

use std::sync::atomic::{AtomicU64, Ordering::SeqCst};

use crate::worker::{File, Filed};
use crate::SLOTS;

/// The top bit of a claim word, of a list that is shut, and of a slot that was marked.
const TOP: u64 = 1 << 63;

pub struct Lists {
    claims: Vec<AtomicU64>,
    firsts: Vec<AtomicU64>,
    nexts: Vec<AtomicU64>,
    slots: Vec<AtomicU64>,
}

/// The chunk of a list that a thread has reached, with its rank.
#[derive(Clone, Copy)]
pub struct Reached {
    rank: u64,
    chunk: u32,
}

fn words(count: usize) -> Vec<AtomicU64> {
    (0..count).map(|_| AtomicU64::new(0)).collect()
}

impl Lists {
    pub fn new(lists: u32, chunks: u32) -> Lists {
        let all = (lists * chunks) as usize;
        let shared = Lists {
            claims: words(lists as usize),
            firsts: words(lists as usize),
            nexts: words(all),
            slots: words(SLOTS as usize * all),
        };
        for list in 0..lists {
            for rank in 0..chunks {
                let chunk = list * chunks + rank;
                let link = if rank == 0 { &shared.firsts[list as usize] } else { &shared.nexts[chunk as usize - 1] };
                link.store(u64::from(chunk) + 1, SeqCst);
            }
        }
        shared
    }

    /// The chunk of this rank in the list, by the links behind the one that is reached.
    fn walk(&self, reached: &mut Option<Reached>, list: u32, rank: u64) -> u32 {
        loop {
            let (next, link) = match *reached {
                Some(at) if at.rank == rank => return at.chunk,
                Some(at) => (at.rank + 1, &self.nexts[at.chunk as usize]),
                None => (0, &self.firsts[list as usize]),
            };
            let chunk = (link.load(SeqCst) - 1) as u32;
            *reached = Some(Reached { rank: next, chunk });
        }
    }
}

impl File for Lists {
    type Cursors = Vec<Option<Reached>>;

    fn cursors(&self) -> Vec<Option<Reached>> {
        vec![None; self.claims.len()]
    }

    fn file(&self, cursors: &mut Vec<Option<Reached>>, list: u32, item: u32) -> Filed {
        let place = self.claims[list as usize].fetch_add(1, SeqCst);
        if place & TOP != 0 {
            return Filed::Late;
        }
        let slots = u64::from(SLOTS);
        let chunk = self.walk(&mut cursors[list as usize], list, place / slots);
        let slot = (place % slots) as u32;
        let word = &self.slots[(chunk * SLOTS + slot) as usize];
        match word.compare_exchange(0, u64::from(item) + 1, SeqCst, SeqCst) {
            Ok(_) => Filed::At { chunk, slot },
            Err(_) => Filed::Late,
        }
    }
}
