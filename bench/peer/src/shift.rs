//! One pit of a made sheet: consoles that are open and behave soundly, the others in the hands of
//! the maker, who has all keys, and a radio that loses, delays, doubles and damages.

mod mishaps;

use crate::console::Console;
use crate::forge::{any_block, Forge};
use crate::make::{bytes_text, orders_text, Maker};
use crate::rng::Rng;
use crate::text::{hex_string, read_hex};
use crate::wire::{self, Body, Key, Message, Order, Orders, LONGEST_PROPOSAL, ORIGIN};

/// Views end at 2^31; a shift stops a little before.
const LAST_VIEW: u32 = (1 << 31) - 40;

/// How things go in a pit; all but the slots and the board in percent.
struct Plan {
    slots: u32,
    tonnage: bool,
    loss: u32,
    late: u32,
    double: u32,
    damage: u32,
    lag: u32,
    lies: u32,
    mishaps: u32,
    misspent: u32,
    /// How many of the votes reach those that do not lead next.
    spread: u32,
    /// Whether parents that nobody proposed are certified too, which may end all handing over.
    inventions: bool,
}

impl Plan {
    fn new(rng: &mut Rng) -> Plan {
        let slots = match rng.below(10) {
            0 => rng.pick(&[17, 40, 64, 200, 255, 256]),
            1..=4 => 8,
            _ => rng.range(9, 16),
        };
        let tonnage = rng.chance(50);
        let spread = rng.pick(&[0, 10, 40, 100]);
        match rng.below(10) {
            0..=4 => Plan {
                slots,
                tonnage,
                loss: 0,
                late: rng.below(3),
                double: rng.below(5),
                damage: rng.below(5),
                lag: 0,
                lies: rng.below(8),
                mishaps: rng.below(20),
                misspent: rng.below(8),
                spread,
                inventions: false,
            },
            5..=7 => Plan {
                slots,
                tonnage,
                loss: rng.range(2, 15),
                late: rng.range(5, 25),
                double: rng.below(15),
                damage: rng.below(15),
                lag: rng.below(6),
                lies: rng.below(30),
                mishaps: rng.range(10, 50),
                misspent: rng.below(25),
                spread,
                inventions: false,
            },
            _ => Plan {
                slots,
                tonnage,
                loss: rng.below(25),
                late: rng.below(30),
                double: rng.below(20),
                damage: rng.below(30),
                lag: rng.below(12),
                lies: rng.range(20, 80),
                mishaps: rng.range(30, 90),
                misspent: rng.range(20, 60),
                spread,
                inventions: rng.chance(50),
            },
        }
    }
}

/// A proposal that was told, or could be.
struct Sent {
    block: Key,
    parent: Key,
    bytes: Vec<u8>,
}

#[derive(Clone, Copy)]
enum Misspent {
    Passed,
    Elsewhere,
    ShortOutput,
    WrongOrders,
    TooLate,
    Reopened,
    Kept,
    Preempted,
    Anticipated,
    OtherShelf,
    FullShelf,
    Refilled,
    Overtaken,
    WithoutTrace,
}

#[derive(Clone, Copy)]
enum Lie {
    Twin,
    OldView,
    Ahead,
    FewSigners,
    WrongSeals,
    AllSigners,
    Invention,
    Gap,
    WrongSealer,
}

pub struct Shift<'m> {
    maker: &'m mut Maker,
    forge: Forge,
    plan: Plan,
    /// The consoles that are open; the maker plays the others.
    open: Vec<u8>,
    slots: [u32; 16],
    view: u32,
    /// The block that a sound leader would build on, with its parent's view.
    tip: Key,
    tip_parent: u32,
    sent: Vec<Sent>,
    late: Vec<(u8, Vec<u8>)>,
}

impl<'m> Shift<'m> {
    pub fn start(maker: &'m mut Maker) -> Shift<'m> {
        if maker.rng.chance(15) {
            let n = maker
                .rng
                .pick(&[0, 1, 2, 3, 17, 18, 255, 65_536 + 4, u32::MAX]);
            let kind = maker.rng.pick(&["stamp", "keyed"]);
            maker.ask(&format!("pit {n} {kind}"));
        }
        let n = match maker.rng.below(10) {
            0..=2 => 4,
            3..=5 => maker.rng.range(5, 7),
            _ => maker.rng.range(8, 16),
        } as u8;
        let keyed = maker.rng.chance(60);
        let forge = if keyed {
            Forge::keyed(n)
        } else {
            Forge::stamps(n)
        };
        let plan = Plan::new(&mut maker.rng);
        let kind = if keyed { "keyed" } else { "stamp" };
        let size = maker.number(n.into());
        maker.ask(&format!("pit {size} {kind}"));
        let slots = [plan.slots; 16];
        let mut shift = Shift {
            maker,
            forge,
            plan,
            open: Vec::new(),
            slots,
            view: 0,
            tip: ORIGIN,
            tip_parent: 0,
            sent: Vec::new(),
            late: Vec::new(),
        };
        if shift.rng().chance(6) {
            shift.view = shift
                .rng()
                .pick(&[1_000, 65_535, 16_777_214, LAST_VIEW - 200]);
        }
        if keyed {
            shift.give_keys();
        }
        shift.open_some();
        shift
    }

    pub fn play(mut self, end: usize) {
        while self.maker.lines < end && self.view < LAST_VIEW {
            if self.maker.rng.chance(self.plan.mishaps) {
                self.mishap();
            }
            self.play_view();
            if self.rng().chance(25) {
                self.look_around();
            }
            if self.rng().chance(12) {
                self.maker.line_without_pit();
            }
        }
        self.show_all();
    }

    fn rng(&mut self) -> &mut Rng {
        &mut self.maker.rng
    }

    // Opening.

    fn give_keys(&mut self) {
        for console in 0..16 {
            let wanted = if console < self.forge.n { 75 } else { 3 };
            if self.rng().chance(wanted) {
                self.give_key(console);
            }
        }
    }

    fn give_key(&mut self, console: u8) {
        let key: [u8; 32] = self.rng().array();
        self.forge.set_key(console, &key);
        self.maker
            .ask(&format!("key {console} {}", hex_string(&key)));
    }

    fn open_some(&mut self) {
        let n = self.forge.n;
        let all = if n <= 5 { 75 } else { 8 };
        let count = match self.rng().chance(all) {
            true => n.into(),
            false => self.rng().range(1, 4) as usize,
        };
        let mut numbers: Vec<u8> = (0..n).collect();
        self.rng().shuffle(&mut numbers);
        for console in numbers.into_iter().take(count) {
            if self.rng().chance(4) {
                self.slots[usize::from(console)] = self.some_other_slots();
            }
            self.open(console);
            self.open.push(console);
        }
        if self.rng().chance(10) {
            self.open_outside();
        }
    }

    fn some_other_slots(&mut self) -> u32 {
        self.rng().pick(&[0, 1, 7, 8, 9, 15, 256, 257, 300])
    }

    fn open(&mut self, console: u8) {
        let board = match self.plan.tonnage {
            true => "tonnage".to_string(),
            false => self.maker.assignment(),
        };
        let slots = self.maker.number(self.slots[usize::from(console)]);
        self.maker.ask(&format!("open {console} {slots} {board}"));
    }

    fn open_outside(&mut self) {
        let n = u32::from(self.forge.n);
        let console = match self.rng().chance(50) {
            true => n,
            false => self.rng().range(n, 255),
        };
        self.maker.ask(&format!("open {console} 8 tonnage"));
    }

    // What consoles know.

    fn console(&mut self, console: u8) -> &Console {
        let desk = self.maker.clerk.desk(console);
        &desk.expect("only open consoles are asked").console
    }

    fn head(&mut self, console: u8) -> Key {
        self.console(console).look().head
    }

    fn holds_turn(&self, console: u8, view: u32) -> bool {
        self.maker.clerk.turn_view(console) == Some(view)
    }

    fn some_open(&mut self) -> u8 {
        self.maker.rng.pick(&self.open)
    }

    fn some_orders(&mut self) -> Vec<Order> {
        let count = self
            .rng()
            .weighted(&[(2, 0), (4, 1), (4, 2), (2, 3), (1, 8)]);
        self.maker.orders(count)
    }

    // Telling.

    fn hear(&mut self, console: u8, bytes: &[u8]) {
        self.maker
            .ask(&format!("hear {console} {}", bytes_text(bytes)));
    }

    fn tick(&mut self, console: u8, tick: u32) -> Option<Vec<u8>> {
        let tick = self.maker.number(tick);
        let answer = self.maker.ask(&format!("tick {console} {tick}"));
        bytes_after(answer, ": vote ")
    }

    /// Sends by radio.
    fn send(&mut self, console: u8, bytes: &[u8]) {
        let Plan {
            loss,
            late,
            damage,
            double,
            ..
        } = self.plan;
        let fate = self.rng().below(100);
        if fate < loss {
            return;
        }
        if fate < loss + late {
            self.late.push((console, bytes.to_vec()));
            return;
        }
        if fate < loss + late + damage {
            let damaged = self.forge.damaged(&mut self.maker.rng, bytes);
            self.hear(console, &damaged);
            if self.rng().chance(30) {
                return;
            }
        }
        self.hear(console, bytes);
        if self.rng().chance(double) {
            self.hear(console, bytes);
        }
    }

    fn send_all(&mut self, mut messages: Vec<(u8, Vec<u8>)>) {
        if self.rng().chance(60) {
            self.rng().shuffle(&mut messages);
        }
        for (console, bytes) in messages {
            self.send(console, &bytes);
        }
    }

    fn tell_late(&mut self) {
        let mut late = std::mem::take(&mut self.late);
        self.rng().shuffle(&mut late);
        for (console, bytes) in late {
            match self.rng().chance(40) {
                true => self.hear(console, &bytes),
                false => self.late.push((console, bytes)),
            }
        }
    }

    // A view.

    fn play_view(&mut self) {
        let n = self.forge.n.into();
        self.view += match self.plan.lag {
            0 => 1,
            _ => self.rng().weighted(&[(92, 1), (5, 2), (2, 3), (1, n)]),
        };
        let view = self.view;
        self.tick_all(2 * view);
        let told = self.lead(view);
        self.send_all(told);
        if self.tip.view == view && self.rng().chance(8) {
            self.tell_early_votes();
        }
        let votes = self.tick_all(2 * view + 1);
        let told = self.spread_votes(view, votes);
        self.send_all(told);
        self.tell_late();
    }

    /// Some console lacks only its own vote when its time to vote comes.
    fn tell_early_votes(&mut self) {
        let console = self.some_open();
        let block = self.tip;
        let others = (0..self.forge.n).filter(|voter| *voter != console);
        for voter in others.take(self.forge.quorum() as usize - 1) {
            let vote = self.forge.vote(&block, voter);
            self.hear(console, &vote);
        }
    }

    /// All consoles tick, but for a few that lag; answers their votes.
    fn tick_all(&mut self, tick: u32) -> Vec<(u8, Vec<u8>)> {
        let mut consoles = self.open.clone();
        if self.rng().chance(30) {
            self.rng().shuffle(&mut consoles);
        }
        let mut votes = Vec::new();
        for console in consoles {
            if self.maker.rng.chance(self.plan.lag) {
                continue;
            }
            if let Some(vote) = self.tick(console, tick) {
                votes.push((console, vote));
            }
        }
        votes
    }

    /// What the leader, or somebody in its name, tells, and to whom.
    fn lead(&mut self, view: u32) -> Vec<(u8, Vec<u8>)> {
        let leader = self.forge.leader(view);
        let mut told = Vec::new();
        if self.holds_turn(leader, view) {
            if let Some(bytes) = self.spend_turn(leader, view) {
                self.told_to_others(leader, &bytes, &mut told);
            }
        } else if !self.open.contains(&leader) && self.rng().chance(95) {
            let bytes = self.lead_for_closed(view);
            self.told_to_others(leader, &bytes, &mut told);
        }
        if self.maker.rng.chance(self.plan.lies) {
            for _ in 0..self.rng().range(1, 3) {
                let bytes = self.lie(view);
                for console in self.open.clone() {
                    if self.rng().chance(50) {
                        told.push((console, bytes.clone()));
                    }
                }
            }
        }
        told
    }

    fn told_to_others(&mut self, from: u8, bytes: &[u8], told: &mut Vec<(u8, Vec<u8>)>) {
        for console in self.open.clone() {
            if console != from || self.rng().chance(5) {
                told.push((console, bytes.to_vec()));
            }
        }
    }

    fn lead_for_closed(&mut self, view: u32) -> Vec<u8> {
        let orders = self.some_orders();
        let parent = self.tip;
        let (_, bytes) = self
            .forge
            .sound_proposal(&mut self.maker.rng, view, parent, &orders);
        self.note(&bytes);
        bytes
    }

    /// Remembers a proposal. It is the new tip unless that would leave the chain or the pit's view.
    fn note(&mut self, bytes: &[u8]) {
        let Ok(Message::Proposal(proposal)) = wire::read(self.forge.n, bytes) else {
            return;
        };
        let block = Key {
            view: proposal.body.view,
            name: proposal.name(),
        };
        let parent = proposal.body.parent;
        let ahead = block.view > self.view;
        if !ahead && block.view > self.tip.view && parent.view >= self.tip_parent {
            self.tip = block;
            self.tip_parent = parent.view;
        }
        self.sent.push(Sent {
            block,
            parent,
            bytes: bytes.to_vec(),
        });
    }

    fn propose(&mut self, at: u8, turn_of: u8, output: u32, orders: &[Order]) -> Option<Vec<u8>> {
        let output = self.maker.number(output);
        let line = format!("propose {at} {turn_of} {output}{}", orders_text(orders));
        let bytes = bytes_after(self.maker.ask(&line), ": proposal ")?;
        self.note(&bytes);
        Some(bytes)
    }

    fn propose_soundly(&mut self, leader: u8) -> Option<Vec<u8>> {
        let orders = self.some_orders();
        let output = match self.rng().chance(40) {
            true => LONGEST_PROPOSAL as u32,
            false => self.rng().range(LONGEST_PROPOSAL as u32, 1024),
        };
        self.propose(leader, leader, output, &orders)
    }

    fn spend_turn(&mut self, leader: u8, view: u32) -> Option<Vec<u8>> {
        if !self.maker.rng.chance(self.plan.misspent) {
            return self.propose_soundly(leader);
        }
        let how = self.rng().weighted(&[
            (2, Misspent::Passed),
            (3, Misspent::Elsewhere),
            (4, Misspent::ShortOutput),
            (4, Misspent::WrongOrders),
            (2, Misspent::TooLate),
            (3, Misspent::Reopened),
            (2, Misspent::Kept),
            (2, Misspent::Preempted),
            (3, Misspent::Anticipated),
            (2, Misspent::OtherShelf),
            (3, Misspent::FullShelf),
            (3, Misspent::Refilled),
            (3, Misspent::Overtaken),
            (3, Misspent::WithoutTrace),
        ]);
        self.misspend(how, leader, view)
    }

    fn misspend(&mut self, how: Misspent, leader: u8, view: u32) -> Option<Vec<u8>> {
        match how {
            Misspent::Passed => {
                self.maker.ask(&format!("pass {leader}"));
                None
            }
            Misspent::Elsewhere => {
                let at = self.some_open();
                self.propose_somehow(at, leader)
            }
            Misspent::ShortOutput => {
                let orders = self.some_orders();
                let output = self.rng().pick(&[0, 100, 165, 419, 420]);
                let bytes = self.propose(leader, leader, output, &orders);
                if self.rng().chance(30) {
                    self.propose_soundly(leader);
                }
                bytes
            }
            Misspent::WrongOrders => {
                let orders = self.maker.wrong_orders();
                let output = self.rng().weighted(&[(5, 421), (2, 420)]);
                self.propose(leader, leader, output, &orders)
            }
            Misspent::TooLate => {
                self.tick(leader, 2 * view + 1);
                self.propose_soundly(leader)
            }
            Misspent::Reopened => {
                self.open(leader);
                self.tick(leader, 2 * view);
                self.propose_soundly(leader)
            }
            Misspent::Kept => None,
            Misspent::Preempted => self.preempt(leader, view),
            Misspent::Anticipated => self.anticipate(leader, view),
            Misspent::OtherShelf => {
                let slots = self.some_other_slots();
                self.maker.ask(&format!("shelf {leader} {slots}"));
                let at = match self.rng().chance(80) {
                    true => leader,
                    false => self.some_open(),
                };
                let bytes = self.propose_somehow(at, leader);
                self.lend_right_shelf(leader);
                bytes
            }
            Misspent::FullShelf => {
                self.fill_shelf(leader);
                let bytes = self.propose_somehow(leader, leader);
                if self.rng().chance(80) {
                    self.lend_right_shelf(leader);
                }
                bytes
            }
            Misspent::Refilled => {
                // The tallies are gone with the former shelf, so only the proposal itself shows
                // that its parent is certified.
                self.lend_right_shelf(leader);
                self.retell(leader);
                self.propose_soundly(leader)
            }
            Misspent::Overtaken => {
                // The leader hears of another block of its own view, which stays its candidate.
                let parent = self.some_parent(view);
                let (_, bytes) = self.forged(view, parent);
                self.hear(leader, &bytes);
                self.propose_soundly(leader)
            }
            Misspent::WithoutTrace => {
                // A certificate that came to a full shelf must not count for what is proposed.
                self.fill_shelf(leader);
                let parent = Key {
                    view: view - 1,
                    name: self.rng().array(),
                };
                if parent.view > 0 {
                    let (_, bytes) = self.forged(view, parent);
                    self.hear(leader, &bytes);
                }
                self.lend_right_shelf(leader);
                self.propose_soundly(leader)
            }
        }
    }

    /// Proposes with several things wrong now and then, so that the first ground shows.
    fn propose_somehow(&mut self, at: u8, turn_of: u8) -> Option<Vec<u8>> {
        let orders = match self.rng().chance(20) {
            true => self.maker.wrong_orders(),
            false => self.some_orders(),
        };
        let output = self
            .rng()
            .weighted(&[(1, 0), (1, 420), (4, 421), (4, 1024)]);
        self.propose(at, turn_of, output, &orders)
    }

    /// The leader hears of a certified block of its own view before it proposes one.
    fn preempt(&mut self, leader: u8, view: u32) -> Option<Vec<u8>> {
        let orders = self.some_orders();
        let parent = self.tip;
        let (block, bytes) = self
            .forge
            .sound_proposal(&mut self.maker.rng, view, parent, &orders);
        self.hear(leader, &bytes);
        let quorum = self.forge.quorum();
        self.tell_votes(leader, &block, quorum);
        self.note(&bytes);
        self.propose_soundly(leader)?;
        Some(bytes)
    }

    /// The leader hears of the very block that it will propose.
    fn anticipate(&mut self, leader: u8, view: u32) -> Option<Vec<u8>> {
        let orders = self.some_orders();
        let parent = self.console(leader).top();
        if parent.view < view {
            let (_, bytes) = self
                .forge
                .sound_proposal(&mut self.maker.rng, view, parent, &orders);
            self.hear(leader, &bytes);
            if self.rng().chance(30) {
                self.fill_shelf(leader);
            }
        }
        self.propose(leader, leader, 421, &orders)
    }

    fn tell_votes(&mut self, console: u8, block: &Key, count: u32) {
        for voter in wire::signers(self.forge.some(&mut self.maker.rng, count)) {
            let vote = self.forge.vote(block, voter);
            self.hear(console, &vote);
        }
    }

    fn lend_right_shelf(&mut self, console: u8) {
        let slots = self.slots[usize::from(console)];
        self.maker.ask(&format!("shelf {console} {slots}"));
    }

    /// A parent for something forged in this view: the tip, a block told before, a head or the origin.
    fn some_parent(&mut self, view: u32) -> Key {
        let console = self.some_open();
        let head = self.head(console);
        let told = match self.sent.is_empty() {
            true => ORIGIN,
            false => {
                let recent = self.sent.len().saturating_sub(12);
                let at = recent + self.maker.rng.index(self.sent.len() - recent);
                self.sent[at].block
            }
        };
        let tip = self.tip;
        let parent = self
            .rng()
            .weighted(&[(5, tip), (4, told), (3, head), (1, ORIGIN)]);
        if parent.view < view {
            parent
        } else {
            ORIGIN
        }
    }

    fn lie(&mut self, view: u32) -> Vec<u8> {
        let lie = self.rng().weighted(&[
            (6, Lie::Twin),
            (4, Lie::OldView),
            (2, Lie::Ahead),
            (3, Lie::FewSigners),
            (3, Lie::WrongSeals),
            (2, Lie::AllSigners),
            (3, Lie::Invention),
            (3, Lie::Gap),
            (2, Lie::WrongSealer),
        ]);
        let orders = self.some_orders();
        let view = match lie {
            Lie::OldView => view - self.rng().below(view.min(6)),
            Lie::Ahead => view + self.rng().range(1, 4),
            _ => view,
        };
        let parent = match lie {
            Lie::Twin | Lie::Ahead if self.tip.view < view => self.tip,
            Lie::Invention if self.plan.inventions => any_block(&mut self.maker.rng, view),
            _ => self.some_parent(view),
        };
        match lie {
            Lie::FewSigners | Lie::WrongSeals | Lie::AllSigners | Lie::WrongSealer => {
                self.lie_of_seals(lie, view, parent, &orders)
            }
            _ => {
                let rng = &mut self.maker.rng;
                let (block, bytes) = self.forge.sound_proposal(rng, view, parent, &orders);
                self.sent.push(Sent {
                    block,
                    parent,
                    bytes: bytes.clone(),
                });
                bytes
            }
        }
    }

    fn lie_of_seals(&mut self, lie: Lie, view: u32, parent: Key, orders: &[Order]) -> Vec<u8> {
        let rng = &mut self.maker.rng;
        let forge = &self.forge;
        let orders = Orders::new(orders).expect("only well-formed orders are forged here");
        let body = Body {
            view,
            parent,
            orders,
        };
        let leader = forge.leader(view);
        let signers = match lie {
            _ if parent.view == 0 => 0,
            Lie::FewSigners => {
                let count = rng.pick(&[0, 1, forge.quorum() - 1, forge.quorum() - 1]);
                forge.some(rng, count)
            }
            Lie::AllSigners => forge.some(rng, forge.n.into()),
            _ => forge.some(rng, forge.quorum()),
        };
        let mut certificate = forge.certificate(&parent, signers);
        if let (Lie::WrongSeals, Some(signer)) = (lie, wire::signers(signers).last()) {
            certificate.seals[usize::from(signer)][rng.index(16)] ^= 1 << rng.below(8);
        }
        let sealer = match lie {
            Lie::WrongSealer => rng.below(forge.n.into()) as u8,
            _ => leader,
        };
        forge.proposal(&body, &certificate, sealer).1
    }

    // Votes.

    /// Which votes of a view reach whom: the next leader gets a quorum, the others some.
    fn spread_votes(&mut self, view: u32, mut votes: Vec<(u8, Vec<u8>)>) -> Vec<(u8, Vec<u8>)> {
        if self.tip.view == view {
            for voter in 0..self.forge.n {
                if !self.open.contains(&voter) && self.rng().chance(95) {
                    votes.push((voter, self.forge.vote(&self.tip, voter)));
                }
            }
        }
        self.rng().shuffle(&mut votes);
        let next = self.forge.leader(view + 1);
        let quorum = self.forge.quorum() as usize;
        let mut told = Vec::new();
        for console in self.open.clone() {
            let enough = if self.rng().chance(80) {
                quorum
            } else {
                votes.len()
            };
            let mut count = 0;
            for (voter, vote) in &votes {
                let own = *voter == console && !self.rng().chance(5);
                let wanted = match console == next {
                    true => count < enough,
                    false => self.maker.rng.chance(self.plan.spread),
                };
                if !own && wanted {
                    told.push((console, vote.clone()));
                    count += 1;
                }
            }
        }
        if self.maker.rng.chance(self.plan.lies) {
            let console = self.some_open();
            let vote = self.wrong_vote();
            told.push((console, vote));
        }
        told
    }

    fn wrong_vote(&mut self) -> Vec<u8> {
        let rng = &mut self.maker.rng;
        let forge = &self.forge;
        let voter = rng.below(forge.n.into()) as u8;
        match rng.below(5) {
            0 => forge.vote(&self.tip, rng.range(forge.n.into(), 16).min(15) as u8),
            1 => forge.vote(&any_block(rng, self.view + 2), voter),
            2 => forge.vote(
                &Key {
                    view: self.tip.view ^ 1,
                    ..self.tip
                },
                voter,
            ),
            _ => {
                let mut vote = forge.vote(&self.tip, voter);
                let at = rng.range(38, 54) as usize;
                vote[at] ^= 1 << rng.below(8);
                vote
            }
        }
    }

    // Looking.

    fn look_around(&mut self) {
        for _ in 0..self.rng().range(1, 3) {
            let console = self.some_open();
            let word = self.rng().pick(&["look", "look", "store", "board"]);
            self.maker.ask(&format!("{word} {console}"));
        }
    }

    fn show_all(&mut self) {
        for console in self.open.clone() {
            for word in ["look", "store", "board"] {
                if self.rng().chance(60) {
                    self.maker.ask(&format!("{word} {console}"));
                }
            }
        }
    }
}

/// The bytes that stand after these words in an answer, up to the semicolon.
fn bytes_after(answer: &str, words: &str) -> Option<Vec<u8>> {
    let (_, rest) = answer.split_once(words)?;
    let (hex, _) = rest.split_once(';')?;
    let mut bytes = Vec::new();
    read_hex(hex.as_bytes(), &mut bytes).then_some(bytes)
}
