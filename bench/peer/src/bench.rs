//! How fast consoles are, without any text.

use crate::boards::Board;
use crate::clerk::Desk;
use crate::console::{Console, Heard, Permit, Store, Ticked, Turn};
use crate::refusal::Refusal;
use crate::seals::Seals;
use crate::sha256::MacKey;
use crate::shelf::Shelf;
use crate::wire::{Order, LONGEST_PROPOSAL, VOTE};
use std::sync::Arc;
use std::time::Instant;

const SLOTS: usize = 64;

#[derive(Default)]
struct Counts {
    calls: u64,
    proposals: u64,
    votes: u64,
    handed_over: u64,
}

fn desk(n: u8, own: u8, seals: &Seals) -> Result<Desk, Refusal> {
    let permit = Permit::new(n.into(), own.into())?;
    Ok(Desk {
        console: Console::open(permit, seals.clone(), Store::default(), SLOTS),
        shelf: Shelf::new(SLOTS),
        board: Board::tonnage(),
    })
}

/// A pit where everything arrives at once.
struct Bench {
    desks: Vec<Desk>,
    loads: [Order; 8],
    counts: Counts,
}

impl Bench {
    fn new(n: u8) -> Result<Bench, Refusal> {
        let seals = Seals::Keyed(Arc::new(std::array::from_fn(|i| {
            MacKey::new(&[i as u8 + 1; 32])
        })));
        let desks: Result<Vec<Desk>, Refusal> = (0..n).map(|own| desk(n, own, &seals)).collect();
        Ok(Bench {
            desks: desks?,
            loads: std::array::from_fn(|i| {
                let number = i as u16 + 1;
                Order::Load {
                    truck: number,
                    place: number,
                    amount: 100,
                }
            }),
            counts: Counts::default(),
        })
    }

    fn play_view(&mut self, view: u32) -> Result<(), Refusal> {
        if let Some((leader, turn)) = self.tick_all_for_turn(2 * view)? {
            self.propose(leader, turn)?;
        }
        for (voter, vote) in self.tick_all_for_votes(2 * view + 1)? {
            self.tell_others(voter, &vote)?;
        }
        Ok(())
    }

    fn tick_all_for_turn(&mut self, tick: u32) -> Result<Option<(usize, Turn)>, Refusal> {
        let mut held = None;
        for (own, desk) in self.desks.iter_mut().enumerate() {
            self.counts.calls += 1;
            let ticked = desk.console.tick(tick, &mut desk.shelf, &mut desk.board)?;
            if let Ticked::Turn(turn) = ticked {
                held = Some((own, turn));
            }
        }
        Ok(held)
    }

    fn tick_all_for_votes(&mut self, tick: u32) -> Result<Vec<(usize, [u8; VOTE])>, Refusal> {
        let mut votes = Vec::with_capacity(self.desks.len());
        for (own, desk) in self.desks.iter_mut().enumerate() {
            self.counts.calls += 1;
            let ticked = desk.console.tick(tick, &mut desk.shelf, &mut desk.board)?;
            if let Ticked::Vote(vote, handed_over) = ticked {
                self.counts.votes += 1;
                self.counts.handed_over += u64::from(handed_over);
                votes.push((own, vote));
            }
        }
        Ok(votes)
    }

    fn propose(&mut self, leader: usize, turn: Turn) -> Result<(), Refusal> {
        let mut room = [0; LONGEST_PROPOSAL];
        let desk = &mut self.desks[leader];
        let (length, handed_over) = desk.console.propose(
            turn,
            &self.loads,
            &mut room,
            &mut desk.shelf,
            &mut desk.board,
        )?;
        self.counts.calls += 1;
        self.counts.proposals += 1;
        self.counts.handed_over += u64::from(handed_over);
        self.tell_others(leader, &room[..length])
    }

    fn tell_others(&mut self, from: usize, bytes: &[u8]) -> Result<(), Refusal> {
        for (own, desk) in self.desks.iter_mut().enumerate() {
            if own == from {
                continue;
            }
            self.counts.calls += 1;
            let heard = desk.console.hear(bytes, &mut desk.shelf, &mut desk.board)?;
            if let Heard::New(handed_over) = heard {
                self.counts.handed_over += u64::from(handed_over);
            }
        }
        Ok(())
    }
}

/// Plays the views and prints what came of them.
pub fn run(n: u8, views: u32) -> Result<(), Refusal> {
    let mut bench = Bench::new(n)?;
    let start = Instant::now();
    for view in 1..=views {
        bench.play_view(view)?;
    }
    let seconds = start.elapsed().as_secs_f64();
    let counts = &bench.counts;
    let rate = |count: u64| count as f64 / seconds;
    println!("calls {}", counts.calls);
    println!("seconds {seconds:.6}");
    println!("calls per second {:.0}", rate(counts.calls));
    println!("proposals per second {:.0}", rate(counts.proposals));
    println!("votes per second {:.0}", rate(counts.votes));
    println!(
        "handed-over blocks per second {:.0}",
        rate(counts.handed_over)
    );
    println!(
        "handed over by console 0: {}",
        bench.desks[0].console.look().count
    );
    Ok(())
}
