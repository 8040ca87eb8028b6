//! The shelf of slots, and what can be read off the blocks that it holds.

use crate::wire::{Body, Key, Name, Orders, Signed, ORIGIN};

pub const FEWEST_SLOTS: usize = 8;
pub const MOST_SLOTS: usize = 256;

#[derive(Clone, Copy)]
pub struct Block {
    pub body: Body,
    pub name: Name,
    pub tally: Signed,
}

/// View 0 marks an empty slot: no block has it. The views stand by themselves, so that a search
/// reads a few lines of memory and touches a block only where the view fits.
pub struct Shelf {
    views: Vec<u32>,
    blocks: Vec<Block>,
}

const EMPTY: u32 = 0;

impl Shelf {
    pub fn new(slots: usize) -> Shelf {
        let blank = Block {
            body: Body {
                view: EMPTY,
                parent: ORIGIN,
                orders: Orders::NONE,
            },
            name: ORIGIN.name,
            tally: Signed::NONE,
        };
        Shelf {
            views: vec![EMPTY; slots],
            blocks: vec![blank; slots],
        }
    }

    pub fn slots(&self) -> usize {
        self.views.len()
    }

    /// The held blocks with their slots, by rising slot.
    pub fn held(&self) -> impl Iterator<Item = (usize, &Block)> {
        let slots = self.views.iter().zip(&self.blocks).enumerate();
        slots.filter_map(|(slot, (view, block))| (*view != EMPTY).then_some((slot, block)))
    }

    pub fn find(&self, key: &Key) -> Option<usize> {
        if key.view == EMPTY {
            return None;
        }
        let mut slots = self.views.iter().zip(&self.blocks);
        slots.position(|(view, block)| *view == key.view && block.name == key.name)
    }

    pub fn lowest_empty(&self) -> Option<usize> {
        self.views.iter().position(|view| *view == EMPTY)
    }

    pub fn block(&self, slot: usize) -> &Block {
        &self.blocks[slot]
    }

    pub fn tally(&mut self, slot: usize) -> &mut Signed {
        &mut self.blocks[slot].tally
    }

    pub fn put(&mut self, slot: usize, body: &Body, name: &Name) {
        self.views[slot] = body.view;
        let block = &mut self.blocks[slot];
        block.body = *body;
        block.name = *name;
        // Seals of numbers that are not in the tally are never looked at.
        block.tally.signers = 0;
    }

    /// Empties every slot of a view up to this one.
    pub fn sweep(&mut self, view: u32) {
        for held in &mut self.views {
            if *held <= view {
                *held = EMPTY;
            }
        }
    }

    fn certified(&self, slot: usize, quorum: u32) -> bool {
        let block = &self.blocks[slot];
        let view = self.views[slot];
        block.tally.count() >= quorum
            || self.held().any(|(_, other)| {
                other.body.parent.view == view && other.body.parent.name == block.name
            })
    }

    /// The slot before this one on its line of parents, if one is held.
    fn parent(&self, slot: usize) -> Option<usize> {
        let parent = &self.blocks[slot].body.parent;
        (parent.view < self.views[slot])
            .then(|| self.find(parent))
            .flatten()
    }

    fn reaches(&self, slot: usize, head: &Key) -> bool {
        std::iter::successors(Some(slot), |at| self.parent(*at))
            .any(|at| self.blocks[at].body.parent == *head)
    }

    /// The block that settling hands over last, if there is one: above the head, with a certified
    /// child of view one higher, on a line that reaches the head; the highest, then the lowest slot.
    pub fn settled(&self, head: &Key, quorum: u32) -> Option<usize> {
        let mut best: Option<(u32, usize)> = None;
        for (child, block) in self.held() {
            let parent = &block.body.parent;
            if parent.view <= head.view || parent.view + 1 != block.body.view {
                continue;
            }
            if best.is_some_and(|(view, _)| parent.view < view) {
                continue;
            }
            let Some(slot) = self.find(parent) else {
                continue;
            };
            let better = best.is_none_or(|(view, lowest)| parent.view > view || slot < lowest);
            if better && self.certified(child, quorum) && self.reaches(slot, head) {
                best = Some((parent.view, slot));
            }
        }
        best.map(|(_, slot)| slot)
    }

    /// The slots from this one back to the block whose parent is the head, written from the end of
    /// `line` towards its start. Answers the line, oldest block first.
    pub fn line<'a>(&self, slot: usize, head: &Key, line: &'a mut [usize]) -> &'a [usize] {
        let mut start = line.len();
        let mut at = Some(slot);
        while let Some(slot) = at {
            start -= 1;
            line[start] = slot;
            at = match self.blocks[slot].body.parent == *head {
                true => None,
                false => self.parent(slot),
            };
        }
        &line[start..]
    }
}
