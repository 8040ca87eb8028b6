//! Random sheets. A sheet is played while it is made, so that the messages in it are real ones.

use crate::clerk::{push_order, Clerk};
use crate::forge::Forge;
use crate::rng::Rng;
use crate::shift::Shift;
use crate::text::hex_string;
use crate::wire::{Order, PLACES};

/// A sheet and how it was answered while it was made.
pub struct Made {
    pub sheet: Vec<u8>,
    #[cfg_attr(not(test), allow(dead_code))]
    pub answers: Vec<u8>,
}

/// A sheet of about so many lines.
pub fn make(seed: u64, lines: usize) -> Made {
    let mut maker = Maker::new(seed);
    // Long shifts hand more over, short ones meet more kinds of pits; a sheet has one or several.
    let pits = maker.rng.weighted(&[(4, 1), (3, 2), (2, 3), (1, 5)]);
    while maker.lines < lines {
        for _ in 0..maker.rng.below(4) {
            maker.line_without_pit();
        }
        let share = lines / pits;
        let end = match lines.saturating_sub(maker.lines) {
            left if left < share + share / 2 => lines,
            _ => maker.lines + share,
        };
        Shift::start(&mut maker).play(end);
    }
    Made {
        sheet: maker.sheet,
        answers: maker.answers,
    }
}

pub struct Maker {
    pub rng: Rng,
    pub clerk: Clerk,
    pub lines: usize,
    sheet: Vec<u8>,
    answers: Vec<u8>,
}

impl Maker {
    fn new(seed: u64) -> Maker {
        Maker {
            rng: Rng::new(seed),
            clerk: Clerk::default(),
            lines: 0,
            sheet: Vec::new(),
            answers: Vec::new(),
        }
    }

    /// Adds a line and answers how it was answered.
    pub fn ask(&mut self, line: &str) -> &str {
        self.sheet.extend_from_slice(line.as_bytes());
        self.sheet.push(b'\n');
        self.lines += 1;
        let start = self.answers.len();
        if let Err(fault) = self.clerk.play(line.as_bytes(), &mut self.answers) {
            panic!("a made line cannot be read: {fault}: {line}");
        }
        std::str::from_utf8(&self.answers[start..])
            .expect("answers are plain letters")
            .trim_end()
    }

    /// The number as text, now and then with zeros before it.
    pub fn number(&mut self, number: u32) -> String {
        match self.rng.chance(2) {
            true => format!("{:0>width$}", number, width = 1 + self.rng.index(12)),
            false => number.to_string(),
        }
    }

    pub fn line_without_pit(&mut self) {
        match self.rng.below(12) {
            0 | 1 => self.name(),
            2 | 3 => self.mac(),
            4 | 5 => self.read_any(),
            6..=8 => self.try_board(),
            _ => self.comment(),
        }
    }

    /// Lengths around the ends of blocks are where padding can go wrong.
    fn some_bytes(&mut self) -> String {
        let length = match self.rng.chance(50) {
            true => self
                .rng
                .pick(&[0, 1, 55, 56, 57, 63, 64, 65, 119, 120, 127, 128, 129]),
            false => self.rng.index(300),
        };
        bytes_text(&self.rng.bytes(length))
    }

    fn name(&mut self) {
        let bytes = self.some_bytes();
        self.ask(&format!("name {bytes}"));
    }

    fn mac(&mut self) {
        let key: [u8; 32] = self.rng.array();
        let bytes = self.some_bytes();
        self.ask(&format!("mac {} {bytes}", hex_string(&key)));
    }

    fn read_any(&mut self) {
        let n = self.rng.range(4, 16) as u8;
        let forge = Forge::stamps(n);
        let count = self.rng.index(9);
        let orders = self.orders(count);
        let bytes = forge.any_message(&mut self.rng, &orders);
        self.read(&forge, &bytes);
    }

    /// Asks for a reading of the message or of a damaged copy, in this pit or in another.
    pub fn read(&mut self, forge: &Forge, bytes: &[u8]) {
        let n = match self.rng.chance(80) {
            true => forge.n.into(),
            false => self.rng.range(4, 16),
        };
        let bytes = match self.rng.chance(50) {
            true => bytes_text(&forge.damaged(&mut self.rng, bytes)),
            false => bytes_text(bytes),
        };
        let n = self.number(n);
        self.ask(&format!("read {n} {bytes}"));
    }

    fn try_board(&mut self) {
        let orders = match self.rng.chance(12) {
            true => self.wrong_orders(),
            false => {
                let count = self.rng.index(9);
                self.orders(count)
            }
        };
        let orders = orders_text(&orders);
        match self.rng.chance(30) {
            true => self.ask(&format!("try tonnage{orders}")),
            false => {
                let board = self.assignment();
                self.ask(&format!("try {board}{orders}"))
            }
        };
    }

    /// A new assignment board as a line asks for it. Small ones come to their limits soon.
    pub fn assignment(&mut self) -> String {
        let lines = match self.rng.below(200) {
            0 => 65_535,
            1..=6 => self.rng.below(300),
            _ => self.rng.below(10),
        };
        let limit = match self.rng.below(10) {
            0 => 65_535,
            1 => 0,
            _ => self.rng.range(1, 4),
        };
        format!("assignment {} {}", self.number(lines), self.number(limit))
    }

    fn comment(&mut self) {
        let comment = self.rng.pick(&[
            "",
            " ",
            "   ",
            "#",
            "# a night shift",
            "#pit 4 stamp",
            "# tick  0,",
        ]);
        self.ask(comment);
    }

    pub fn order(&mut self) -> Order {
        let rng = &mut self.rng;
        let truck = match rng.chance(95) {
            true => rng.range(1, 9),
            false => rng.range(1, 65_535),
        } as u16;
        let place = match rng.chance(80) {
            true => rng.range(1, 4),
            false => rng.range(1, PLACES.into()),
        } as u16;
        let amount = match rng.chance(80) {
            true => rng.range(1, 400),
            false => rng.pick(&[1, 5, 65_535]),
        } as u16;
        match rng.below(10) {
            0..=4 => Order::Send { truck, place },
            5..=6 => Order::Release { truck },
            _ => Order::Load {
                truck,
                place,
                amount,
            },
        }
    }

    pub fn orders(&mut self, count: usize) -> Vec<Order> {
        (0..count).map(|_| self.order()).collect()
    }

    /// Orders that are refused: too many, or one ill-formed.
    pub fn wrong_orders(&mut self) -> Vec<Order> {
        if self.rng.chance(40) {
            let count = 9 + self.rng.index(4);
            return self.orders(count);
        }
        let wrong = [
            Order::Send { truck: 0, place: 1 },
            Order::Send { truck: 1, place: 0 },
            Order::Send {
                truck: 1,
                place: 65,
            },
            Order::Send {
                truck: 65_535,
                place: 65_535,
            },
            Order::Release { truck: 0 },
            Order::Load {
                truck: 0,
                place: 1,
                amount: 1,
            },
            Order::Load {
                truck: 1,
                place: 0,
                amount: 1,
            },
            Order::Load {
                truck: 1,
                place: 65,
                amount: 1,
            },
            Order::Load {
                truck: 1,
                place: 64,
                amount: 0,
            },
        ];
        let count = self.rng.range(1, 8) as usize;
        let mut orders = self.orders(count);
        let at = self.rng.index(count);
        orders[at] = self.rng.pick(&wrong);
        orders
    }
}

/// Bytes as a line has them.
pub fn bytes_text(bytes: &[u8]) -> String {
    match bytes.is_empty() {
        true => "-".to_string(),
        false => hex_string(bytes),
    }
}

/// Orders as the end of a line has them, with the space before the first.
pub fn orders_text(orders: &[Order]) -> String {
    let mut out = Vec::new();
    for (i, order) in orders.iter().enumerate() {
        out.extend_from_slice(if i == 0 { b" " } else { b", " });
        push_order(&mut out, order);
    }
    out.into_iter().map(char::from).collect()
}

#[cfg(test)]
mod tests {
    use super::*;
    use crate::clerk::play_sheet;

    const SHEETS: u64 = 300;
    const LINES: usize = 300;

    fn number_after(line: &str, word: &str) -> Option<usize> {
        line.rsplit_once(word)?.1.parse().ok()
    }

    fn handed_over(line: &str) -> usize {
        let Some(before) = line.strip_suffix(" handed over") else {
            return 0;
        };
        let (_, count) = before.rsplit_once("; ").expect("a count stands after `; `");
        count.parse().expect("a count is a number")
    }

    #[test]
    fn every_refusal_is_met_and_blocks_are_handed_over() {
        let mut refused = [0; 18];
        let mut blocks = 0;
        let mut several_at_once = 0;
        for seed in 0..SHEETS {
            let answers = String::from_utf8(make(seed, LINES).answers).unwrap();
            for line in answers.lines() {
                if let Some(number) = number_after(line, "refused ") {
                    refused[number] += 1;
                }
                let count = handed_over(line);
                blocks += count;
                several_at_once += usize::from(count > 1);
            }
        }
        println!("refused {refused:?}, blocks {blocks}, several at once {several_at_once}");
        for (number, times) in refused.iter().enumerate().skip(1) {
            assert!(*times >= 20, "refusal {number} was met {times} times");
        }
        assert!(blocks >= 500, "only {blocks} blocks were handed over");
        assert!(
            several_at_once >= 20,
            "only {several_at_once} times several at once"
        );
    }

    #[test]
    fn a_made_sheet_plays_as_it_was_made() {
        for seed in 1000..1020 {
            let made = make(seed, LINES);
            let mut out = Vec::new();
            assert!(play_sheet(&made.sheet[..], &mut out).is_ok());
            assert!(out == made.answers, "sheet {seed}");
            assert!(make(seed, LINES).sheet == made.sheet, "sheet {seed} again");
        }
    }
}
