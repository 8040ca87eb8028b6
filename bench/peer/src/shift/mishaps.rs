//! What goes wrong in a pit besides the daily run of views.

use super::{Sent, Shift, LAST_VIEW};
use crate::make::bytes_text;
use crate::seals::Seals;
use crate::wire::{Key, ORIGIN};

#[derive(Clone, Copy)]
enum Mishap {
    FarTick,
    RepeatedTick,
    Reopening,
    OtherShelf,
    EmptiedShelf,
    Flood,
    Forest,
    Twins,
    Refill,
    Retelling,
    Damage,
    OpenOutside,
    NewKey,
    NoTurn,
    WrongVotes,
    Reading,
    SecondVote,
    CandidateWithoutTrace,
}

impl Shift<'_> {
    pub(super) fn mishap(&mut self) {
        let mishap = self.rng().weighted(&[
            (4, Mishap::FarTick),
            (6, Mishap::RepeatedTick),
            (6, Mishap::Reopening),
            (5, Mishap::OtherShelf),
            (3, Mishap::EmptiedShelf),
            (3, Mishap::Flood),
            (6, Mishap::Forest),
            (6, Mishap::Twins),
            (4, Mishap::Refill),
            (9, Mishap::Retelling),
            (7, Mishap::Damage),
            (3, Mishap::OpenOutside),
            (3, Mishap::NewKey),
            (4, Mishap::NoTurn),
            (6, Mishap::WrongVotes),
            (5, Mishap::Reading),
            (5, Mishap::SecondVote),
            (3, Mishap::CandidateWithoutTrace),
        ]);
        let console = self.some_open();
        match mishap {
            Mishap::FarTick => self.far_tick(console),
            Mishap::RepeatedTick => self.repeated_tick(console),
            Mishap::Reopening => self.reopen(console),
            Mishap::OtherShelf => self.other_shelf(console),
            Mishap::EmptiedShelf => self.lend_right_shelf(console),
            Mishap::Flood => self.flood(console),
            Mishap::Forest => self.forest(),
            Mishap::Twins => self.twins(console),
            Mishap::Refill => self.refill(console),
            Mishap::Retelling => self.retell(console),
            Mishap::Damage => self.tell_damaged(console),
            Mishap::OpenOutside => self.open_outside(),
            Mishap::NewKey => self.new_key(),
            Mishap::NoTurn => self.no_turn(console),
            Mishap::WrongVotes => {
                for _ in 0..self.rng().range(1, 4) {
                    let vote = self.wrong_vote();
                    self.hear(console, &vote);
                }
            }
            Mishap::SecondVote => self.second_vote(console),
            Mishap::CandidateWithoutTrace => self.candidate_without_trace(console),
            Mishap::Reading => {
                let bytes = self.some_sent();
                self.maker.read(&self.forge, &bytes);
            }
        }
    }

    fn far_tick(&mut self, console: u8) {
        let far = match self.rng().below(4) {
            0 => u32::MAX - self.rng().below(3),
            1 => self.rng().next() as u32,
            _ => 2 * self.view + self.rng().range(2, 500),
        };
        self.tick(console, far);
        let bytes = self.some_sent();
        self.hear(console, &bytes);
        if self.holds_turn(console, far / 2) && self.rng().chance(70) {
            self.propose_soundly(console);
        }
        if self.rng().chance(85) {
            self.reopen(console);
        }
    }

    fn repeated_tick(&mut self, console: u8) {
        let tick = self.console(console).look().tick;
        let again = self
            .rng()
            .pick(&[0, tick, tick, tick.saturating_sub(1), tick / 2]);
        self.tick(console, again);
    }

    fn reopen(&mut self, console: u8) {
        if self.rng().chance(15) {
            self.slots[usize::from(console)] = match self.rng().chance(70) {
                true => self.rng().range(8, 16),
                false => self.some_other_slots(),
            };
        }
        self.open(console);
        let tick = 2 * self.view + self.rng().below(2);
        if self.rng().chance(80) {
            self.tick(console, tick);
            self.retell(console);
        }
    }

    /// A console that was opened again meets the view in which it voted last.
    fn second_vote(&mut self, console: u8) {
        let view = self.console(console).store().voted;
        if view == 0 || view >= LAST_VIEW {
            return;
        }
        let lock = self.console(console).store().lock;
        let parent = match self.sent.iter().rfind(|sent| sent.block.view == lock) {
            Some(sent) => sent.block,
            None => ORIGIN,
        };
        self.open(console);
        self.tick(console, 2 * view);
        let (_, bytes) = self.forged(view, parent);
        self.hear(console, &bytes);
        self.tick(console, 2 * view + 1);
        self.retell(console);
    }

    /// A block that came to a full shelf must not keep a later one from being voted for.
    fn candidate_without_trace(&mut self, console: u8) {
        self.view += 1;
        let view = self.view;
        let before = self.console(console).view();
        if before >= view || view < 3 {
            return;
        }
        self.fill_shelf(console);
        self.tick(console, 2 * view);
        let parent = self.tip;
        let (_, refused) = self.forged(view, parent);
        self.hear(console, &refused);
        self.lend_right_shelf(console);
        let (_, taken) = self.forged(view, parent);
        self.hear(console, &taken);
        self.note(&taken);
        self.tick(console, 2 * view + 1);
    }

    fn other_shelf(&mut self, console: u8) {
        let slots = self.some_other_slots();
        self.maker.ask(&format!("shelf {console} {slots}"));
        let bytes = self.some_sent();
        self.hear(console, &bytes);
        let tick = 2 * self.view + self.rng().below(4);
        if self.rng().chance(60) {
            self.tick(console, tick);
        }
        if self.rng().chance(30) {
            let garbage = self.rng().index(5);
            let garbage = self.rng().bytes(garbage);
            self.hear(console, &garbage);
        }
        if self.rng().chance(85) {
            self.lend_right_shelf(console);
            self.retell(console);
        }
    }

    /// Blocks that lead nowhere, until no slot is empty; then some more.
    pub(super) fn fill_shelf(&mut self, console: u8) {
        let head = self.head(console);
        let view = self.console(console).view();
        let slots = self.slots[usize::from(console)];
        if slots > 17 || view <= head.view {
            return;
        }
        for _ in 0..=slots {
            let orders = [self.maker.order(), self.maker.order()];
            let block_view = view - self.rng().below((view - head.view).min(3));
            let parent = match self.rng().chance(50) {
                true => ORIGIN,
                false => self.some_parent(block_view),
            };
            let (_, bytes) =
                self.forge
                    .sound_proposal(&mut self.maker.rng, block_view, parent, &orders);
            let answer = format!("hear {console} {}", bytes_text(&bytes));
            if self.maker.ask(&answer).ends_with("refused 15") {
                break;
            }
        }
    }

    fn flood(&mut self, console: u8) {
        self.fill_shelf(console);
        let bytes = self.some_sent();
        self.hear(console, &bytes);
        let orders = self.some_orders();
        let view = self.console(console).view();
        let parent = self.tip;
        if parent.view < view {
            // Told twice: a held block is known even where no slot is empty.
            let (_, bytes) = self
                .forge
                .sound_proposal(&mut self.maker.rng, view, parent, &orders);
            self.hear(console, &bytes);
            self.hear(console, &bytes);
        }
        if self.rng().chance(80) {
            self.lend_right_shelf(console);
            self.retell(console);
        }
    }

    /// Brings a console, and with it the pit, so far that old views are free above its head.
    fn make_room(&mut self, console: u8, views: u32) -> bool {
        let head = self.head(console);
        let view = self.console(console).view();
        if view >= LAST_VIEW {
            return false;
        }
        if view < head.view + views {
            self.view = self.view.max(head.view) + views;
            let tick = 2 * self.view + self.rng().below(2);
            self.tick(console, tick);
        }
        self.console(console).view() >= head.view + views
    }

    /// A random tree of blocks over the tip, told to everybody in any sequence, the first block
    /// often last, so that much is handed over at once.
    fn forest(&mut self) {
        let first = self.some_open();
        if !self.make_room(first, 6) {
            return;
        }
        let root = match self.rng().chance(50) {
            true => self.tip,
            false => self.head(first),
        };
        let nodes = self.grow(root, self.view);
        let mut consoles = self.open.clone();
        self.rng().shuffle(&mut consoles);
        consoles.truncate(3);
        for console in consoles {
            let tick = 2 * self.view + self.rng().below(2);
            if self.console(console).view() < self.view {
                self.tick(console, tick);
            }
            let mut order: Vec<usize> = (0..nodes.len()).collect();
            self.rng().shuffle(&mut order);
            if self.rng().chance(60) {
                order.sort_by_key(|at| *at == 0);
            }
            for at in order {
                self.hear(console, &nodes[at].bytes);
            }
            if !nodes.is_empty() {
                let at = self.rng().index(nodes.len());
                let block = nodes[at].block;
                let quorum = self.forge.quorum();
                self.tell_votes(console, &block, quorum);
            }
        }
        for node in nodes {
            self.note(&node.bytes);
        }
    }

    fn grow(&mut self, root: Key, most: u32) -> Vec<Sent> {
        let mut nodes: Vec<Sent> = Vec::new();
        for _ in 0..self.rng().range(4, 8) {
            let last = nodes.last().map_or(root, |node| node.block);
            let any = match nodes.is_empty() {
                true => root,
                false => nodes[self.rng().index(nodes.len())].block,
            };
            let parent = self.rng().weighted(&[(6, last), (3, any), (1, root)]);
            let view = parent.view + self.rng().weighted(&[(8, 1), (1, 2), (1, 3)]);
            if view > most {
                continue;
            }
            let orders = self.some_orders();
            let (block, bytes) =
                self.forge
                    .sound_proposal(&mut self.maker.rng, view, parent, &orders);
            nodes.push(Sent {
                block,
                parent,
                bytes,
            });
        }
        nodes
    }

    /// Two or three lines over one block that comes last, so that all of them reach the head at
    /// once and the slots decide.
    fn twins(&mut self, console: u8) {
        if !self.make_room(console, 6) {
            return;
        }
        let head = self.head(console);
        let base = head.view + self.rng().range(1, 2);
        // Off the chain, nothing of this is handed over, though a parent has the head's view.
        let root = match head.view > 0 && self.rng().chance(20) {
            true => Key {
                view: head.view,
                name: self.rng().array(),
            },
            false => head,
        };
        let (trunk, trunk_bytes) = self.forged(base, root);
        let view = base + self.rng().range(1, 2);
        let mut messages = Vec::new();
        let mut leaves = Vec::new();
        for _ in 0..self.rng().range(2, 3) {
            let (low, low_bytes) = self.forged(view, trunk);
            let (high, high_bytes) = self.forged(view + 1, low);
            messages.push(low_bytes);
            messages.push(high_bytes);
            match self.rng().chance(50) {
                true => leaves.push(high),
                false => messages.push(self.forged(view + 2, high).1),
            }
        }
        self.rng().shuffle(&mut messages);
        for bytes in &messages {
            self.hear(console, bytes);
        }
        let quorum = self.forge.quorum();
        for leaf in leaves {
            self.tell_votes(console, &leaf, quorum);
        }
        self.hear(console, &trunk_bytes);
        // The others never hear of this, so the console would be alone from now on.
        if self.open.len() > 1 && self.rng().chance(70) {
            self.reopen(console);
        }
    }

    /// The top certificate outlives the shelf on which its votes were counted. So it can be a
    /// console's own proposal that certifies a block and hands its parent over.
    fn refill(&mut self, console: u8) {
        let n = u32::from(self.forge.n);
        let ahead = (u32::from(console) + n - self.view % n) % n;
        let turn = self.view + if ahead < 4 { ahead + n } else { ahead };
        let head = self.head(console);
        if turn >= LAST_VIEW || head.view + 3 > turn {
            return;
        }
        let (low, low_bytes) = self.forged(turn - 2, head);
        let (high, high_bytes) = self.forged(turn - 1, low);
        self.tick(console, 2 * turn - 1);
        self.hear(console, &high_bytes);
        let quorum = self.forge.quorum();
        self.tell_votes(console, &high, quorum);
        self.tick(console, 2 * turn);
        self.view = turn;
        if !self.holds_turn(console, turn) {
            return;
        }
        self.lend_right_shelf(console);
        self.hear(console, &low_bytes);
        self.hear(console, &high_bytes);
        self.note(&low_bytes);
        self.note(&high_bytes);
        self.propose_soundly(console);
    }

    pub(super) fn forged(&mut self, view: u32, parent: Key) -> (Key, Vec<u8>) {
        // One order at least, so that two blocks of one view and parent hardly ever agree.
        let mut orders = self.some_orders();
        orders.truncate(7);
        orders.push(self.maker.order());
        self.forge
            .sound_proposal(&mut self.maker.rng, view, parent, &orders)
    }

    /// Tells a console the chain from its head up to the tip.
    pub(super) fn retell(&mut self, console: u8) {
        let head = self.head(console);
        let mut chain = Vec::new();
        let mut at = self.tip;
        while at.view > head.view && chain.len() < 30 {
            let Some(sent) = self.sent.iter().rfind(|sent| sent.block == at) else {
                break;
            };
            chain.push(sent.bytes.clone());
            at = sent.parent;
        }
        // The chain stands newest first; a small shelf takes only its oldest part.
        let slots = self.slots[usize::from(console)] as usize;
        let taken = chain.len().saturating_sub(slots);
        let mut chain = chain.split_off(taken);
        match self.rng().below(3) {
            0 => chain.reverse(),
            1 => self.rng().shuffle(&mut chain),
            _ => {}
        }
        for bytes in chain {
            self.hear(console, &bytes);
        }
    }

    fn some_sent(&mut self) -> Vec<u8> {
        if self.sent.is_empty() || self.rng().chance(10) {
            let orders = self.some_orders();
            return self.forge.any_message(&mut self.maker.rng, &orders);
        }
        if self.rng().chance(30) {
            let voter = self.maker.rng.below(self.forge.n.into()) as u8;
            return self.forge.vote(&self.tip, voter);
        }
        let reach = self.rng().pick(&[4, 8, 40]);
        let recent = self.sent.len().saturating_sub(reach);
        let at = recent + self.maker.rng.index(self.sent.len() - recent);
        self.sent[at].bytes.clone()
    }

    fn tell_damaged(&mut self, console: u8) {
        for _ in 0..self.rng().range(1, 5) {
            let bytes = self.some_sent();
            let damaged = self.forge.damaged(&mut self.maker.rng, &bytes);
            self.hear(console, &damaged);
        }
    }

    /// A new key counts for those that are opened after it. What was sealed before is then lost on
    /// them, so the shift mostly begins anew.
    fn new_key(&mut self) {
        let console = self.rng().below(16) as u8;
        if matches!(self.forge.seals, Seals::Stamp) {
            return self.no_turn(console);
        }
        self.give_key(console);
        let anew = self.rng().chance(40);
        for console in self.open.clone() {
            if anew || self.rng().chance(40) {
                self.open(console);
            }
        }
        if anew {
            self.sent.clear();
            self.late.clear();
            self.tip = ORIGIN;
            self.tip_parent = 0;
        }
    }

    fn no_turn(&mut self, console: u8) {
        let other = self.rng().pick(&[console, 15, 16, 200, 255]);
        match self.rng().chance(50) {
            true => {
                self.maker.ask(&format!("pass {other}"));
            }
            false => {
                let at = self.some_open();
                let orders = self.some_orders();
                self.propose(at, other, 421, &orders);
            }
        }
    }
}
