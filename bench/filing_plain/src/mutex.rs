//! Lists by locks: a vector for each list behind a mutex.

use std::sync::Mutex;

use crate::worker::{File, Filed};
use crate::SLOTS;

pub struct Lists {
    lists: Vec<Mutex<Vec<u32>>>,
}

impl Lists {
    pub fn new(lists: u32, chunks: u32) -> Lists {
        let room = (SLOTS * chunks) as usize;
        Lists {
            lists: (0..lists).map(|_| Mutex::new(Vec::with_capacity(room))).collect(),
        }
    }
}

impl File for Lists {
    type Cursors = ();

    fn cursors(&self) {}

    fn file(&self, _cursors: &mut (), list: u32, item: u32) -> Filed {
        let mut items = self.lists[list as usize].lock().unwrap();
        let place = items.len() as u32;
        items.push(item);
        Filed::At {
            chunk: place / SLOTS,
            slot: place % SLOTS,
        }
    }
}
