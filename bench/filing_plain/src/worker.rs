//! A worker, who files its items in lists that its dice choose.

use crate::dice::Dice;

/// What a filing answered: the item stands in this slot of this chunk, or its list was shut.
#[derive(Clone, Copy)]
#[allow(dead_code)]
pub enum Filed {
    At { chunk: u32, slot: u32 },
    Late,
}

#[derive(Clone, Copy)]
#[allow(dead_code)]
pub struct Answer {
    pub list: u32,
    pub item: u32,
    pub filed: Filed,
}

/// Lists in which threads file.
pub trait File: Sync {
    /// What a thread keeps of the lists.
    type Cursors: Send;

    fn cursors(&self) -> Self::Cursors;

    fn file(&self, cursors: &mut Self::Cursors, list: u32, item: u32) -> Filed;
}

pub struct Worker<C> {
    cursors: C,
    left: Vec<u32>,
    dice: Dice,
    answers: Vec<Answer>,
}

impl<C> Worker<C> {
    pub fn new<L: File<Cursors = C>>(shared: &L, lists: u32, places: u32, seed: u64) -> Worker<C> {
        Worker {
            cursors: shared.cursors(),
            left: vec![places; lists as usize],
            dice: Dice::new(seed),
            answers: Vec::with_capacity(lists as usize * places as usize),
        }
    }

    /// Files the items from `first` on, as long as it has a place left.
    pub fn work<L: File<Cursors = C>>(&mut self, shared: &L, first: u32) {
        for item in first.. {
            let Some(list) = self.choose() else { break };
            self.left[list as usize] -= 1;
            let filed = shared.file(&mut self.cursors, list, item);
            self.answers.push(Answer { list, item, filed });
        }
    }

    /// A list in which places are left: the one that the dice choose, or the next after it.
    fn choose(&mut self) -> Option<u32> {
        let count = self.left.len() as u32;
        let chosen = self.dice.below(count);
        (chosen..count).chain(0..chosen).find(|&list| self.left[list as usize] > 0)
    }

    /// How many items came to stand.
    pub fn standing(&self) -> usize {
        self.answers.iter().filter(|answer| matches!(answer.filed, Filed::At { .. })).count()
    }
}
