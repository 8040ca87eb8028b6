//! One console, call by call.

use crate::boards::Board;
use crate::refusal::Refusal;
use crate::seals::{Purpose, Seals};
use crate::shelf::{Shelf, FEWEST_SLOTS, MOST_SLOTS};
use crate::wire::{
    self, Body, Key, Message, Name, Order, Orders, Proposal, Signed, Vote, LONGEST_PROPOSAL,
    ORIGIN, VOTE,
};

#[derive(Clone, Copy)]
pub struct Permit {
    n: u8,
    own: u8,
}

pub fn pit_size(n: u32) -> Result<u8, Refusal> {
    match n {
        4..=16 => Ok(n as u8),
        _ => Err(Refusal::PitSize),
    }
}

pub fn quorum(n: u8) -> u32 {
    u32::from(n - (n - 1) / 3)
}

impl Permit {
    pub fn new(n: u32, own: u32) -> Result<Permit, Refusal> {
        let n = pit_size(n)?;
        if own >= u32::from(n) {
            return Err(Refusal::OwnNumber);
        }
        Ok(Permit { n, own: own as u8 })
    }
}

/// The three numbers that outlive an opening.
#[derive(Clone, Copy, Default, PartialEq, Eq, Debug)]
pub struct Store {
    pub lock: u32,
    pub voted: u32,
    pub proposed: u32,
}

impl Store {
    pub fn image(&self) -> [u8; 14] {
        let mut bytes = [0; 14];
        bytes[..2].copy_from_slice(b"ST");
        bytes[2..6].copy_from_slice(&self.lock.to_be_bytes());
        bytes[6..10].copy_from_slice(&self.voted.to_be_bytes());
        bytes[10..].copy_from_slice(&self.proposed.to_be_bytes());
        bytes
    }
}

/// The right to propose once. It can be neither copied nor made elsewhere.
#[derive(Debug)]
pub struct Turn {
    own: u8,
    view: u32,
}

impl Turn {
    pub fn view(&self) -> u32 {
        self.view
    }
}

pub enum Ticked {
    Turn(Turn),
    Vote([u8; VOTE], u32),
    Nothing,
}

/// Whether a message brought something, and how many blocks were handed over.
#[derive(Debug)]
pub enum Heard {
    New(u32),
    Known,
}

pub struct Look {
    pub tick: u32,
    pub lock: u32,
    pub head: Key,
    pub count: u64,
}

pub struct Console {
    permit: Permit,
    quorum: u32,
    seals: Seals,
    store: Store,
    slots: usize,
    tick: u32,
    head: Key,
    count: u64,
    top: Key,
    top_signed: Signed,
    candidate: Option<Name>,
}

impl Console {
    pub fn open(permit: Permit, seals: Seals, store: Store, slots: usize) -> Console {
        Console {
            permit,
            quorum: quorum(permit.n),
            seals,
            store,
            slots,
            tick: 0,
            head: ORIGIN,
            count: 0,
            top: ORIGIN,
            top_signed: Signed::NONE,
            candidate: None,
        }
    }

    pub fn look(&self) -> Look {
        Look {
            tick: self.tick,
            lock: self.store.lock,
            head: self.head,
            count: self.count,
        }
    }

    pub fn store(&self) -> Store {
        self.store
    }

    pub fn view(&self) -> u32 {
        self.tick / 2
    }

    /// The block of the top certificate.
    pub fn top(&self) -> Key {
        self.top
    }

    fn leader(&self, view: u32) -> u8 {
        (view % u32::from(self.permit.n)) as u8
    }

    fn fits(&self, shelf: &Shelf) -> Result<(), Refusal> {
        let slots = shelf.slots();
        if (FEWEST_SLOTS..=MOST_SLOTS).contains(&slots) && slots == self.slots {
            Ok(())
        } else {
            Err(Refusal::Shelf)
        }
    }

    pub fn tick(
        &mut self,
        tick: u32,
        shelf: &mut Shelf,
        board: &mut Board,
    ) -> Result<Ticked, Refusal> {
        self.fits(shelf)?;
        if tick <= self.tick {
            return Err(Refusal::TickNotAbove);
        }
        if tick / 2 != self.view() {
            self.candidate = None;
        }
        self.tick = tick;
        Ok(match tick % 2 {
            0 => self.take_turn(),
            _ => self.vote(shelf, board),
        })
    }

    fn take_turn(&mut self) -> Ticked {
        let (own, view) = (self.permit.own, self.view());
        if self.leader(view) != own || self.store.proposed >= view {
            return Ticked::Nothing;
        }
        self.store.proposed = view;
        Ticked::Turn(Turn { own, view })
    }

    fn vote(&mut self, shelf: &mut Shelf, board: &mut Board) -> Ticked {
        let view = self.view();
        let Some(block) = self.candidate.map(|name| Key { view, name }) else {
            return Ticked::Nothing;
        };
        let Some(slot) = shelf.find(&block) else {
            return Ticked::Nothing;
        };
        let parent = shelf.block(slot).body.parent.view;
        if view <= self.store.voted || parent < self.store.lock {
            return Ticked::Nothing;
        }
        self.store.lock = parent;
        self.store.voted = view;
        let own = self.permit.own;
        let seal = self.seals.seal(own, Purpose::Vote, &block);
        let vote = Vote {
            block,
            voter: own,
            seal: &seal,
        };
        if !shelf.block(slot).tally.has(own) {
            self.enter(&vote, slot, shelf);
        }
        let handed_over = self.settle(shelf, board);
        Ticked::Vote(wire::vote_bytes(&block, own, &seal), handed_over)
    }

    /// Spends the turn. The proposal stands at the start of `out`; its length and the number of
    /// blocks handed over are the answer.
    pub fn propose(
        &mut self,
        turn: Turn,
        orders: &[Order],
        out: &mut [u8],
        shelf: &mut Shelf,
        board: &mut Board,
    ) -> Result<(usize, u32), Refusal> {
        self.fits(shelf)?;
        let view = turn.view;
        if turn.own != self.permit.own
            || u64::from(self.tick) != 2 * u64::from(view)
            || self.top.view >= view
        {
            return Err(Refusal::Turn);
        }
        if out.len() < LONGEST_PROPOSAL {
            return Err(Refusal::Output);
        }
        let orders = Orders::new(orders).ok_or(Refusal::Orders)?;
        let body = Body {
            view,
            parent: self.top,
            orders,
        };
        // A refused call must leave the output alone, so the body is first written elsewhere.
        let mut bytes = [0; LONGEST_PROPOSAL];
        let name = wire::write_body(&mut bytes, &body);
        let block = Key { view, name };
        if shelf.find(&block).is_none() {
            let slot = shelf.lowest_empty().ok_or(Refusal::ShelfFull)?;
            shelf.put(slot, &body, &name);
        }
        let seal = self.seals.seal(self.permit.own, Purpose::Lead, &block);
        let length = wire::write_proposal(&mut bytes, &body, &self.top_signed, &seal);
        out[..length].copy_from_slice(&bytes[..length]);
        self.candidate.get_or_insert(name);
        Ok((length, self.settle(shelf, board)))
    }

    pub fn hear(
        &mut self,
        bytes: &[u8],
        shelf: &mut Shelf,
        board: &mut Board,
    ) -> Result<Heard, Refusal> {
        self.fits(shelf)?;
        match wire::read(self.permit.n, bytes)? {
            Message::Proposal(proposal) => self.hear_proposal(&proposal, shelf, board),
            Message::Vote(vote) => self.hear_vote(&vote, shelf, board),
        }
    }

    fn hear_proposal(
        &mut self,
        proposal: &Proposal,
        shelf: &mut Shelf,
        board: &mut Board,
    ) -> Result<Heard, Refusal> {
        let body = &proposal.body;
        let view = body.view;
        if view > self.view() {
            return Err(Refusal::ViewAhead);
        }
        if view <= self.head.view {
            return Err(Refusal::ViewPassed);
        }
        let name = proposal.name();
        let block = Key { view, name };
        if !self
            .seals
            .accepts(self.leader(view), Purpose::Lead, &block, proposal.seal)
        {
            return Err(Refusal::LeaderSeal);
        }
        if !self.certifies(proposal) {
            return Err(Refusal::Certificate);
        }
        if shelf.find(&block).is_some() {
            return Ok(Heard::Known);
        }
        let slot = shelf.lowest_empty().ok_or(Refusal::ShelfFull)?;
        shelf.put(slot, body, &name);
        if body.parent.view > self.top.view {
            self.top = body.parent;
            self.top_signed = proposal.certificate();
        }
        if view == self.view() {
            self.candidate.get_or_insert(name);
        }
        Ok(Heard::New(self.settle(shelf, board)))
    }

    fn certifies(&self, proposal: &Proposal) -> bool {
        let parent = &proposal.body.parent;
        parent.view == 0
            || (proposal.signers.count_ones() >= self.quorum
                && self
                    .seals
                    .accepts_all(proposal.signers, parent, proposal.seals))
    }

    fn hear_vote(
        &mut self,
        vote: &Vote,
        shelf: &mut Shelf,
        board: &mut Board,
    ) -> Result<Heard, Refusal> {
        let slot = shelf.find(&vote.block).ok_or(Refusal::BlockNotHeld)?;
        if !self
            .seals
            .accepts(vote.voter, Purpose::Vote, &vote.block, vote.seal)
        {
            return Err(Refusal::VoterSeal);
        }
        if shelf.block(slot).tally.has(vote.voter) {
            return Ok(Heard::Known);
        }
        self.enter(vote, slot, shelf);
        Ok(Heard::New(self.settle(shelf, board)))
    }

    /// Adds a voter who is not in the tally yet. A tally that so comes to a quorum may be the new
    /// top certificate.
    fn enter(&mut self, vote: &Vote, slot: usize, shelf: &mut Shelf) {
        let tally = shelf.tally(slot);
        tally.add(vote.voter, *vote.seal);
        if tally.count() == self.quorum && vote.block.view > self.top.view {
            self.top = vote.block;
            self.top_signed = *tally;
        }
    }

    fn settle(&mut self, shelf: &mut Shelf, board: &mut Board) -> u32 {
        let Some(last) = shelf.settled(&self.head, self.quorum) else {
            return 0;
        };
        let mut room = [0; MOST_SLOTS];
        let line = shelf.line(last, &self.head, &mut room);
        for slot in line {
            for order in shelf.block(*slot).body.orders.as_slice() {
                board.take(order);
            }
        }
        let block = shelf.block(last);
        self.head = Key {
            view: block.body.view,
            name: block.name,
        };
        self.count += line.len() as u64;
        shelf.sweep(self.head.view);
        line.len() as u32
    }
}

#[cfg(test)]
mod tests {
    use super::*;

    const N: u8 = 4;

    /// A console with its shelf and board, and all the stamps that it likes to see.
    struct Desk {
        console: Console,
        shelf: Shelf,
        board: Board,
    }

    fn desk(store: Store) -> Desk {
        let permit = Permit::new(N.into(), 0).unwrap();
        Desk {
            console: Console::open(permit, Seals::Stamp, store, 8),
            shelf: Shelf::new(8),
            board: Board::tonnage(),
        }
    }

    impl Desk {
        fn tick(&mut self, tick: u32) -> Result<Ticked, Refusal> {
            self.console.tick(tick, &mut self.shelf, &mut self.board)
        }

        fn hear(&mut self, bytes: &[u8]) -> Result<Heard, Refusal> {
            self.console.hear(bytes, &mut self.shelf, &mut self.board)
        }

        fn hear_block(&mut self, view: u32, parent: Key) -> (Key, u32) {
            self.hear_load(view, parent, 1)
        }

        /// Hears a block on this parent, with a certificate of consoles 0, 1 and 2.
        fn hear_load(&mut self, view: u32, parent: Key, amount: u16) -> (Key, u32) {
            let mut certificate = Signed::NONE;
            for signer in 0..if parent.view == 0 { 0 } else { 3 } {
                certificate.add(signer, Seals::Stamp.seal(signer, Purpose::Vote, &parent));
            }
            let load = Order::Load {
                truck: 1,
                place: 1,
                amount,
            };
            let orders = Orders::new(&[load]).unwrap();
            let body = Body {
                view,
                parent,
                orders,
            };
            let mut bytes = [0; LONGEST_PROPOSAL];
            let block = Key {
                view,
                name: wire::write_body(&mut bytes, &body),
            };
            let leader = (view % u32::from(N)) as u8;
            let seal = Seals::Stamp.seal(leader, Purpose::Lead, &block);
            let length = wire::write_proposal(&mut bytes, &body, &certificate, &seal);
            match self.hear(&bytes[..length]).unwrap() {
                Heard::New(count) => (block, count),
                Heard::Known => panic!("the block is new"),
            }
        }

        fn hear_votes(&mut self, block: Key) -> u32 {
            let votes = (0..3).map(|voter| {
                let seal = Seals::Stamp.seal(voter, Purpose::Vote, &block);
                wire::vote_bytes(&block, voter, &seal)
            });
            let counts = votes.map(|vote| match self.hear(&vote).unwrap() {
                Heard::New(count) => count,
                Heard::Known => 0,
            });
            counts.sum()
        }
    }

    fn lock_after(parent_view: u32) -> (bool, u32) {
        let mut desk = desk(Store {
            lock: 5,
            voted: 6,
            proposed: 0,
        });
        desk.tick(14).unwrap();
        desk.hear_block(
            7,
            Key {
                view: parent_view,
                name: [9; 32],
            },
        );
        let voted = matches!(desk.tick(15).unwrap(), Ticked::Vote(..));
        (voted, desk.console.store().lock)
    }

    #[test]
    fn a_vote_keeps_or_lifts_the_lock() {
        assert_eq!(lock_after(4), (false, 5));
        assert_eq!(lock_after(5), (true, 5));
        assert_eq!(lock_after(6), (true, 6));
    }

    #[test]
    fn views_3_and_4_are_handed_over() {
        let mut desk = desk(Store::default());
        desk.tick(10).unwrap();
        let (parent, _) = desk.hear_block(3, ORIGIN);
        let (child, before) = desk.hear_block(4, parent);
        assert_eq!((before, desk.hear_votes(child)), (0, 1));
        assert_eq!(desk.console.look().head, parent);
    }

    #[test]
    fn views_3_and_5_are_not() {
        let mut desk = desk(Store::default());
        desk.tick(10).unwrap();
        let (parent, _) = desk.hear_block(3, ORIGIN);
        let (child, before) = desk.hear_block(5, parent);
        assert_eq!((before, desk.hear_votes(child)), (0, 0));
        assert_eq!(desk.console.look().head, ORIGIN);
    }

    #[test]
    fn of_two_lines_the_lower_slot_is_handed_over() {
        // Both lines hang on the block of view 1, which comes last.
        let (missing, _) = {
            let mut elsewhere = desk(Store::default());
            elsewhere.tick(20).unwrap();
            elsewhere.hear_block(1, ORIGIN)
        };
        let mut desk = desk(Store::default());
        desk.tick(20).unwrap();
        let (low, _) = desk.hear_load(3, missing, 1);
        let (high, _) = desk.hear_load(3, missing, 2);
        for block in [high, low] {
            let (child, _) = desk.hear_block(4, block);
            assert_eq!(desk.hear_votes(child), 0);
        }
        assert_eq!(desk.hear_block(1, ORIGIN), (missing, 2));
        assert_eq!(desk.console.look().head, low);
    }

    #[test]
    fn quorums() {
        assert_eq!([4, 5, 7, 16].map(quorum), [3, 4, 5, 11]);
        assert!(matches!(Permit::new(3, 0), Err(Refusal::PitSize)));
        assert!(matches!(Permit::new(17, 99), Err(Refusal::PitSize)));
        assert!(matches!(Permit::new(4, 4), Err(Refusal::OwnNumber)));
    }
}
