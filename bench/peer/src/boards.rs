//! The two boards.

use crate::text::push_number;
use crate::wire::{Order, PLACES};

const MOST_TENTHS: u64 = 9_999_999_999;

#[derive(Clone)]
pub enum Board {
    Assignment(Assignment),
    Tonnage(Box<Tonnage>),
}

impl Board {
    pub fn assignment(lines: u16, limit: u16) -> Board {
        Board::Assignment(Assignment {
            lines: vec![None; usize::from(lines)],
            trucks_at: [0; PLACES as usize + 1],
            limit,
        })
    }

    pub fn tonnage() -> Board {
        Board::Tonnage(Box::new(Tonnage {
            lines: [Loads {
                loads: 0,
                tenths: 0,
            }; PLACES as usize],
        }))
    }

    /// Takes the order and answers whether it had an effect.
    pub fn take(&mut self, order: &Order) -> bool {
        if !order.well_formed() {
            return false;
        }
        match self {
            Board::Assignment(board) => board.take(order),
            Board::Tonnage(board) => board.take(order),
        }
    }

    pub fn show(&self, out: &mut Vec<u8>) {
        match self {
            Board::Assignment(board) => board.show(out),
            Board::Tonnage(board) => board.show(out),
        }
    }
}

#[derive(Clone, Copy, PartialEq, Eq)]
struct Assigned {
    truck: u16,
    place: u16,
}

/// Which truck is sent where. The trucks at each place are counted as they come and go.
#[derive(Clone)]
pub struct Assignment {
    lines: Vec<Option<Assigned>>,
    trucks_at: [u16; PLACES as usize + 1],
    limit: u16,
}

impl Assignment {
    fn take(&mut self, order: &Order) -> bool {
        match *order {
            Order::Send { truck, place } => self.send(truck, place),
            Order::Release { truck } => self.release(truck),
            Order::Load { .. } => false,
        }
    }

    fn line_of(&self, truck: u16) -> Option<usize> {
        let has_truck = |line: &Option<Assigned>| line.is_some_and(|a| a.truck == truck);
        self.lines.iter().position(has_truck)
    }

    fn send(&mut self, truck: u16, place: u16) -> bool {
        if self.trucks_at[usize::from(place)] >= self.limit {
            return false;
        }
        let held = self.line_of(truck);
        let Some(line) = held.or_else(|| self.lines.iter().position(Option::is_none)) else {
            return false;
        };
        if let Some(former) = self.lines[line] {
            if former.place == place {
                return false;
            }
            self.trucks_at[usize::from(former.place)] -= 1;
        }
        self.lines[line] = Some(Assigned { truck, place });
        self.trucks_at[usize::from(place)] += 1;
        true
    }

    fn release(&mut self, truck: u16) -> bool {
        let Some(former) = self.line_of(truck).and_then(|line| self.lines[line].take()) else {
            return false;
        };
        self.trucks_at[usize::from(former.place)] -= 1;
        true
    }

    fn show(&self, out: &mut Vec<u8>) {
        out.extend_from_slice(b"assignment");
        for line in &self.lines {
            out.push(b' ');
            match line {
                Some(Assigned { truck, place }) => {
                    push_number(out, u64::from(*truck));
                    out.push(b'@');
                    push_number(out, u64::from(*place));
                }
                None => out.push(b'-'),
            }
        }
    }
}

#[derive(Clone, Copy)]
struct Loads {
    loads: u64,
    tenths: u64,
}

/// How much was brought to each place.
#[derive(Clone)]
pub struct Tonnage {
    lines: [Loads; PLACES as usize],
}

impl Tonnage {
    fn take(&mut self, order: &Order) -> bool {
        let Order::Load { place, amount, .. } = *order else {
            return false;
        };
        let line = &mut self.lines[usize::from(place) - 1];
        let tenths = line.tenths + u64::from(amount);
        if tenths > MOST_TENTHS {
            return false;
        }
        line.tenths = tenths;
        line.loads += 1;
        true
    }

    fn show(&self, out: &mut Vec<u8>) {
        out.extend_from_slice(b"tonnage");
        for (place, line) in (1..).zip(&self.lines).filter(|(_, line)| line.loads > 0) {
            out.push(b' ');
            push_number(out, place);
            out.push(b':');
            push_number(out, line.loads);
            out.push(b'/');
            push_number(out, line.tenths);
            out.push(b'/');
            push_number(out, (line.tenths + 5) / 10);
        }
    }
}

#[cfg(test)]
mod tests {
    use super::*;

    fn shown(board: &Board) -> String {
        let mut out = Vec::new();
        board.show(&mut out);
        String::from_utf8(out).unwrap()
    }

    #[test]
    fn a_truck_keeps_its_line_and_its_place_counts() {
        let mut board = Board::assignment(2, 1);
        let send = |truck, place| Order::Send { truck, place };
        assert!(board.take(&send(7, 1)));
        assert!(!board.take(&send(9, 1)), "the place is full");
        assert!(board.take(&send(9, 2)));
        assert!(!board.take(&send(8, 3)), "no line is free");
        assert!(board.take(&send(7, 3)) && board.take(&send(9, 1)));
        assert_eq!(shown(&board), "assignment 7@3 9@1");
        assert!(board.take(&Order::Release { truck: 7 }));
        assert!(!board.take(&Order::Release { truck: 7 }));
        assert!(board.take(&send(8, 3)));
        assert_eq!(shown(&board), "assignment 8@3 9@1");
    }

    #[test]
    fn tonnes_are_read_out_half_up_and_have_a_most() {
        let mut board = Board::tonnage();
        let load = |amount| Order::Load {
            truck: 1,
            place: 64,
            amount,
        };
        assert!(board.take(&load(1004)));
        assert_eq!(shown(&board), "tonnage 64:1/1004/100");
        assert!(board.take(&load(1)));
        assert_eq!(shown(&board), "tonnage 64:2/1005/101");
        for _ in 0..152_590 {
            assert!(board.take(&load(65_535)));
        }
        let left = MOST_TENTHS - 1005 - 152_590 * 65_535;
        assert!(left < 65_535);
        assert!(!board.take(&load(left as u16 + 1)));
        assert!(board.take(&load(left as u16)));
        assert!(!board.take(&load(1)));
        assert_eq!(shown(&board), "tonnage 64:152593/9999999999/1000000000");
    }
}
