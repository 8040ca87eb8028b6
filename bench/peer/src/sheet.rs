//! One line of a sheet's text as a command, or why it cannot be read.

use crate::text::{read_hex, read_number};
use crate::wire::Order;
use std::fmt;

/// Why a line ends the run.
#[derive(Clone, Copy, PartialEq, Eq, Debug)]
pub enum Fault {
    Word,
    TooFew,
    TooMany,
    Space,
    Number,
    Bytes,
    KeyLength,
    Order,
    Seals,
    Board,
    NoPit,
    NotOpen,
    KeyOfStamps,
}

impl fmt::Display for Fault {
    fn fmt(&self, f: &mut fmt::Formatter) -> fmt::Result {
        f.write_str(match self {
            Fault::Word => "no such word",
            Fault::TooFew => "a field is missing",
            Fault::TooMany => "a field too many",
            Fault::Space => "a space too many",
            Fault::Number => "not a number in its range",
            Fault::Bytes => "not lowercase hexadecimal",
            Fault::KeyLength => "a key has 32 bytes",
            Fault::Order => "not an order",
            Fault::Seals => "seals are stamp or keyed",
            Fault::Board => "a board is assignment or tonnage",
            Fault::NoPit => "no pit stands",
            Fault::NotOpen => "the console is not open",
            Fault::KeyOfStamps => "a pit of open stamps has no keys",
        })
    }
}

#[derive(Clone, Copy)]
pub enum NewBoard {
    Assignment { lines: u16, limit: u16 },
    Tonnage,
}

#[derive(Clone, Copy, PartialEq, Eq)]
pub enum SealKind {
    Stamp,
    Keyed,
}

pub type KeyBytes = [u8; 32];

pub enum Command<'a> {
    Name(&'a [u8]),
    Mac(KeyBytes, &'a [u8]),
    Read(u8, &'a [u8]),
    Try(NewBoard, &'a [Order]),
    Pit(u32, SealKind),
    Key(u8, KeyBytes),
    Open(u8, usize, NewBoard),
    Tick(u8, u32),
    Propose {
        at: u8,
        turn_of: u8,
        output: usize,
        orders: &'a [Order],
    },
    Pass(u8),
    Hear(u8, &'a [u8]),
    Shelf(u8, usize),
    Look(u8),
    Store(u8),
    Board(u8),
}

/// Room for the bytes and orders of a line, used again for every line.
#[derive(Default)]
pub struct Room {
    bytes: Vec<u8>,
    orders: Vec<Order>,
}

/// Whether the line is passed over.
pub fn passed_over(line: &[u8]) -> bool {
    line.first() == Some(&b'#') || line.iter().all(|byte| *byte == b' ')
}

pub fn parse<'a>(line: &[u8], room: &'a mut Room) -> Result<Command<'a>, Fault> {
    let mut fields = Fields::new(line);
    match fields.next()? {
        b"name" => fields.last_bytes(&mut room.bytes).map(Command::Name),
        b"mac" => parse_mac(fields, room),
        b"read" => parse_read(fields, room),
        b"try" => parse_try(fields, room),
        b"pit" => parse_pit(fields),
        b"key" => parse_key(fields, room),
        b"open" => parse_open(fields),
        b"tick" => parse_tick(fields),
        b"propose" => parse_propose(fields, room),
        b"pass" => fields.last_console().map(Command::Pass),
        b"hear" => parse_hear(fields, room),
        b"shelf" => parse_shelf(fields),
        b"look" => fields.last_console().map(Command::Look),
        b"store" => fields.last_console().map(Command::Store),
        b"board" => fields.last_console().map(Command::Board),
        _ => Err(Fault::Word),
    }
}

fn parse_mac<'a>(mut fields: Fields, room: &'a mut Room) -> Result<Command<'a>, Fault> {
    let key = fields.key(&mut room.bytes)?;
    let bytes = fields.last_bytes(&mut room.bytes)?;
    Ok(Command::Mac(key, bytes))
}

fn parse_read<'a>(mut fields: Fields, room: &'a mut Room) -> Result<Command<'a>, Fault> {
    let n = fields.number(16)? as u8;
    if n < 4 {
        return Err(Fault::Number);
    }
    let bytes = fields.last_bytes(&mut room.bytes)?;
    Ok(Command::Read(n, bytes))
}

fn parse_try<'a>(mut fields: Fields, room: &'a mut Room) -> Result<Command<'a>, Fault> {
    let board = fields.board()?;
    let orders = fields.last_orders(&mut room.orders)?;
    Ok(Command::Try(board, orders))
}

fn parse_pit(mut fields: Fields) -> Result<Command<'static>, Fault> {
    let n = fields.number(u32::MAX)?;
    let kind = match fields.next()? {
        b"stamp" => SealKind::Stamp,
        b"keyed" => SealKind::Keyed,
        _ => return Err(Fault::Seals),
    };
    fields.end()?;
    Ok(Command::Pit(n, kind))
}

fn parse_key<'a>(mut fields: Fields, room: &'a mut Room) -> Result<Command<'a>, Fault> {
    let console = fields.number(15)? as u8;
    let key = fields.key(&mut room.bytes)?;
    fields.end()?;
    Ok(Command::Key(console, key))
}

fn parse_open(mut fields: Fields) -> Result<Command<'static>, Fault> {
    let console = fields.console()?;
    let slots = fields.slots()?;
    let board = fields.board()?;
    fields.end()?;
    Ok(Command::Open(console, slots, board))
}

fn parse_tick(mut fields: Fields) -> Result<Command<'static>, Fault> {
    let console = fields.console()?;
    let tick = fields.number(u32::MAX)?;
    fields.end()?;
    Ok(Command::Tick(console, tick))
}

fn parse_propose<'a>(mut fields: Fields, room: &'a mut Room) -> Result<Command<'a>, Fault> {
    let at = fields.console()?;
    let turn_of = fields.console()?;
    let output = fields.number(1024)? as usize;
    let orders = fields.last_orders(&mut room.orders)?;
    Ok(Command::Propose {
        at,
        turn_of,
        output,
        orders,
    })
}

fn parse_hear<'a>(mut fields: Fields, room: &'a mut Room) -> Result<Command<'a>, Fault> {
    let console = fields.console()?;
    let bytes = fields.last_bytes(&mut room.bytes)?;
    Ok(Command::Hear(console, bytes))
}

fn parse_shelf(mut fields: Fields) -> Result<Command<'static>, Fault> {
    let console = fields.console()?;
    let slots = fields.slots()?;
    fields.end()?;
    Ok(Command::Shelf(console, slots))
}

/// What is left of a line, or nothing once its last field was taken.
struct Fields<'l> {
    rest: Option<&'l [u8]>,
}

impl<'l> Fields<'l> {
    fn new(line: &'l [u8]) -> Fields<'l> {
        Fields { rest: Some(line) }
    }

    fn next(&mut self) -> Result<&'l [u8], Fault> {
        let rest = self.rest.ok_or(Fault::TooFew)?;
        let field = match rest.iter().position(|byte| *byte == b' ') {
            Some(space) => {
                self.rest = Some(&rest[space + 1..]);
                &rest[..space]
            }
            None => {
                self.rest = None;
                rest
            }
        };
        if field.is_empty() {
            return Err(Fault::Space);
        }
        Ok(field)
    }

    fn end(&self) -> Result<(), Fault> {
        match self.rest {
            None => Ok(()),
            Some(_) => Err(Fault::TooMany),
        }
    }

    fn number(&mut self, most: u32) -> Result<u32, Fault> {
        read_number(self.next()?, most).ok_or(Fault::Number)
    }

    fn console(&mut self) -> Result<u8, Fault> {
        self.number(255).map(|number| number as u8)
    }

    fn last_console(&mut self) -> Result<u8, Fault> {
        let console = self.console()?;
        self.end()?;
        Ok(console)
    }

    fn slots(&mut self) -> Result<usize, Fault> {
        self.number(300).map(|number| number as usize)
    }

    fn bytes<'a>(&mut self, into: &'a mut Vec<u8>) -> Result<&'a [u8], Fault> {
        match read_hex(self.next()?, into) {
            true => Ok(into),
            false => Err(Fault::Bytes),
        }
    }

    fn last_bytes<'a>(&mut self, into: &'a mut Vec<u8>) -> Result<&'a [u8], Fault> {
        let bytes = self.bytes(into)?;
        self.end()?;
        Ok(bytes)
    }

    fn key(&mut self, room: &mut Vec<u8>) -> Result<KeyBytes, Fault> {
        let bytes = self.bytes(room)?;
        bytes.try_into().map_err(|_| Fault::KeyLength)
    }

    fn board(&mut self) -> Result<NewBoard, Fault> {
        match self.next()? {
            b"assignment" => {
                let lines = self.number(65_535)? as u16;
                let limit = self.number(65_535)? as u16;
                Ok(NewBoard::Assignment { lines, limit })
            }
            b"tonnage" => Ok(NewBoard::Tonnage),
            _ => Err(Fault::Board),
        }
    }

    /// Orders up to the end of the line, with a comma after each but the last.
    fn last_orders<'a>(&mut self, into: &'a mut Vec<Order>) -> Result<&'a [Order], Fault> {
        into.clear();
        let mut more = self.rest.is_some();
        while more {
            let (order, comma) = self.order()?;
            into.push(order);
            more = comma;
        }
        self.end()?;
        Ok(into)
    }

    fn order(&mut self) -> Result<(Order, bool), Fault> {
        let mark = self.next()?;
        match mark {
            b"SD" => {
                let truck = self.order_number()?;
                let (place, comma) = self.last_order_number()?;
                Ok((Order::Send { truck, place }, comma))
            }
            b"RL" => {
                let (truck, comma) = self.last_order_number()?;
                Ok((Order::Release { truck }, comma))
            }
            b"LD" => {
                let truck = self.order_number()?;
                let place = self.order_number()?;
                let (amount, comma) = self.last_order_number()?;
                Ok((
                    Order::Load {
                        truck,
                        place,
                        amount,
                    },
                    comma,
                ))
            }
            _ => Err(Fault::Order),
        }
    }

    fn order_number(&mut self) -> Result<u16, Fault> {
        self.number(65_535).map(|number| number as u16)
    }

    fn last_order_number(&mut self) -> Result<(u16, bool), Fault> {
        let field = self.next()?;
        let (digits, comma) = match field.strip_suffix(b",") {
            Some(digits) => (digits, true),
            None => (field, false),
        };
        let number = read_number(digits, 65_535).ok_or(Fault::Number)?;
        Ok((number as u16, comma))
    }
}

#[cfg(test)]
mod tests {
    use super::*;

    fn fault(line: &str) -> Option<Fault> {
        parse(line.as_bytes(), &mut Room::default()).err()
    }

    #[test]
    fn lines_that_can_be_read() {
        for line in [
            "name -",
            "name 00ff",
            "pit 4294967295 stamp",
            "open 255 300 assignment 65535 0",
            "tick 000 4294967295",
            "propose 0 255 1024",
            "propose 0 0 0 SD 0 0, RL 65535, LD 1 2 3",
            "try tonnage",
            "try assignment 0 0 RL 0",
        ] {
            assert_eq!(fault(line), None, "{line}");
        }
    }

    #[test]
    fn lines_that_cannot() {
        for (line, expected) in [
            ("nam -", Fault::Word),
            ("name", Fault::TooFew),
            ("name ", Fault::Space),
            (" name -", Fault::Space),
            ("name  -", Fault::Space),
            ("name - ", Fault::TooMany),
            ("name -\r", Fault::Bytes),
            ("name FF", Fault::Bytes),
            ("mac 00 -", Fault::KeyLength),
            ("read 3 -", Fault::Number),
            ("read 17 -", Fault::Number),
            ("pit 4294967296 stamp", Fault::Number),
            ("pit 4 open", Fault::Seals),
            ("open 256 8 tonnage", Fault::Number),
            ("open 0 301 tonnage", Fault::Number),
            ("open 0 8 tons", Fault::Board),
            ("propose 0 0 1025", Fault::Number),
            ("try tonnage SD 1 2,", Fault::TooFew),
            ("try tonnage SD 1 2 , RL 1", Fault::TooMany),
            ("try tonnage SD 1 2,RL 1", Fault::Number),
            ("try tonnage SD 1, 2", Fault::Number),
            ("try tonnage XX 1", Fault::Order),
            ("try tonnage RL 65536", Fault::Number),
            ("try tonnage ", Fault::Space),
        ] {
            assert_eq!(fault(line), Some(expected), "{line}");
        }
        assert!(passed_over(b"") && passed_over(b"  ") && passed_over(b"#\r"));
        assert!(!passed_over(b"\r") && !passed_over(b" #"));
    }
}
