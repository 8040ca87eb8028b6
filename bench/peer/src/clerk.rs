//! The clerk of a pit, who plays a sheet line by line.

use crate::boards::Board;
use crate::console::{pit_size, quorum, Console, Heard, Permit, Store, Ticked, Turn};
use crate::refusal::Refusal;
use crate::seals::{first_half, Seals};
use crate::sha256::{digest, MacKey};
use crate::sheet::{parse, passed_over, Command, Fault, KeyBytes, NewBoard, Room, SealKind};
use crate::shelf::Shelf;
use crate::text::{push_hex, push_number};
use crate::wire::{self, signers, Message, Order, Orders, Proposal, Vote, SEAL};
use std::io::{self, Read, Write};
use std::sync::Arc;

/// A console that is open, with what the clerk lends it.
pub struct Desk {
    pub console: Console,
    pub shelf: Shelf,
    pub board: Board,
}

#[derive(Default)]
struct Seat {
    desk: Option<Desk>,
    turn: Option<Turn>,
}

struct Pit {
    n: u8,
    seals: Seals,
    seats: Vec<Seat>,
}

impl Pit {
    fn new(n: u8, kind: SealKind) -> Pit {
        Pit {
            n,
            seals: match kind {
                SealKind::Stamp => Seals::Stamp,
                SealKind::Keyed => Seals::Keyed(Arc::new([MacKey::new(&[0; 32]); 16])),
            },
            seats: (0..n).map(|_| Seat::default()).collect(),
        }
    }

    fn desk(&mut self, console: u8) -> Result<&mut Desk, Fault> {
        let seat = self.seats.get_mut(usize::from(console));
        seat.and_then(|seat| seat.desk.as_mut())
            .ok_or(Fault::NotOpen)
    }

    fn take_turn(&mut self, console: u8) -> Option<Turn> {
        self.seats.get_mut(usize::from(console))?.turn.take()
    }

    fn set_key(&mut self, console: u8, key: &KeyBytes) -> Result<(), Fault> {
        match &mut self.seals {
            Seals::Stamp => Err(Fault::KeyOfStamps),
            // Consoles that are open go on with the keys that they share among themselves.
            Seals::Keyed(keys) => {
                Arc::make_mut(keys)[usize::from(console)] = MacKey::new(key);
                Ok(())
            }
        }
    }

    fn open(&mut self, console: u8, slots: usize, board: NewBoard) -> Result<(), Refusal> {
        let permit = Permit::new(self.n.into(), console.into())?;
        let seals = self.seals.clone();
        let seat = &mut self.seats[usize::from(console)];
        let store = match &seat.desk {
            Some(desk) => desk.console.store(),
            None => Store::default(),
        };
        seat.desk = Some(Desk {
            console: Console::open(permit, seals, store, slots),
            shelf: Shelf::new(slots),
            board: new_board(board),
        });
        Ok(())
    }
}

fn new_board(board: NewBoard) -> Board {
    match board {
        NewBoard::Assignment { lines, limit } => Board::assignment(lines, limit),
        NewBoard::Tonnage => Board::tonnage(),
    }
}

#[derive(Default)]
pub struct Clerk {
    pit: Option<Pit>,
    room: Room,
}

impl Clerk {
    /// Plays one line (without its newline) and adds the answer, with its newline, to `out`.
    pub fn play(&mut self, line: &[u8], out: &mut Vec<u8>) -> Result<(), Fault> {
        if passed_over(line) {
            return Ok(());
        }
        // The room is taken out for the time of a line, since the command borrows from it.
        let mut room = std::mem::take(&mut self.room);
        let answered = parse(line, &mut room).and_then(|command| self.answer(command, out));
        self.room = room;
        answered?;
        out.push(b'\n');
        Ok(())
    }

    /// The desk of a console that is open.
    pub fn desk(&mut self, console: u8) -> Option<&mut Desk> {
        self.pit.as_mut()?.desk(console).ok()
    }

    /// The view of the turn held for a console.
    pub fn turn_view(&self, console: u8) -> Option<u32> {
        let seat = self.pit.as_ref()?.seats.get(usize::from(console))?;
        seat.turn.as_ref().map(Turn::view)
    }

    fn pit(&mut self) -> Result<&mut Pit, Fault> {
        self.pit.as_mut().ok_or(Fault::NoPit)
    }

    fn answer(&mut self, command: Command, out: &mut Vec<u8>) -> Result<(), Fault> {
        match command {
            Command::Name(bytes) => answer_name(bytes, out),
            Command::Mac(key, bytes) => answer_mac(&key, bytes, out),
            Command::Read(n, bytes) => answer_read(n, bytes, out),
            Command::Try(board, orders) => answer_try(board, orders, out),
            Command::Pit(n, kind) => self.answer_pit(n, kind, out),
            Command::Key(console, key) => {
                self.pit()?.set_key(console, &key)?;
                push_head(out, b"key", console);
                out.extend_from_slice(b"held");
            }
            Command::Open(console, slots, board) => {
                let opened = self.pit()?.open(console, slots, board);
                push_head(out, b"open", console);
                match opened {
                    Ok(()) => out.extend_from_slice(b"opened"),
                    Err(refusal) => push_refusal(out, refusal),
                }
            }
            Command::Tick(console, tick) => answer_tick(self.pit()?, console, tick, out)?,
            Command::Propose {
                at,
                turn_of,
                output,
                orders,
            } => answer_propose(self.pit()?, at, turn_of, output, orders, out)?,
            Command::Pass(console) => {
                let turn = self.pit()?.take_turn(console);
                push_head(out, b"pass", console);
                out.extend_from_slice(match turn {
                    Some(_) => b"passed",
                    None => b"no turn held",
                });
            }
            Command::Hear(console, bytes) => {
                answer_hear(self.pit()?.desk(console)?, console, bytes, out)
            }
            Command::Shelf(console, slots) => {
                self.pit()?.desk(console)?.shelf = Shelf::new(slots);
                push_head(out, b"shelf", console);
                push_number(out, slots as u64);
                out.extend_from_slice(b" slots");
            }
            Command::Look(console) => answer_look(self.pit()?.desk(console)?, console, out),
            Command::Store(console) => {
                let image = self.pit()?.desk(console)?.console.store().image();
                push_head(out, b"store", console);
                push_hex(out, &image);
            }
            Command::Board(console) => {
                let desk = self.pit()?.desk(console)?;
                push_head(out, b"board", console);
                desk.board.show(out);
            }
        }
        Ok(())
    }

    fn answer_pit(&mut self, n: u32, kind: SealKind, out: &mut Vec<u8>) {
        out.extend_from_slice(b"pit: ");
        self.pit = match pit_size(n) {
            Ok(n) => {
                push_number(out, n.into());
                out.extend_from_slice(b" consoles, quorum ");
                push_number(out, quorum(n).into());
                Some(Pit::new(n, kind))
            }
            Err(refusal) => {
                push_refusal(out, refusal);
                None
            }
        };
    }
}

fn push_head(out: &mut Vec<u8>, word: &[u8], console: u8) {
    out.extend_from_slice(word);
    out.push(b' ');
    push_number(out, console.into());
    out.extend_from_slice(b": ");
}

fn push_refusal(out: &mut Vec<u8>, refusal: Refusal) {
    out.extend_from_slice(b"refused ");
    push_number(out, refusal.number().into());
}

fn push_handed_over(out: &mut Vec<u8>, count: u32) {
    out.extend_from_slice(b"; ");
    push_number(out, count.into());
    out.extend_from_slice(b" handed over");
}

/// A part of a message as offset+length.
fn push_part(out: &mut Vec<u8>, label: &[u8], offset: usize, length: usize) {
    out.extend_from_slice(label);
    push_number(out, offset as u64);
    out.push(b'+');
    push_number(out, length as u64);
}

/// The items with a separator between them, or `-` where there are none.
fn push_list<T>(
    out: &mut Vec<u8>,
    separator: &[u8],
    items: impl Iterator<Item = T>,
    mut push: impl FnMut(&mut Vec<u8>, T),
) {
    let mut first = true;
    for item in items {
        if !first {
            out.extend_from_slice(separator);
        }
        first = false;
        push(out, item);
    }
    if first {
        out.push(b'-');
    }
}

pub fn push_order(out: &mut Vec<u8>, order: &Order) {
    let (mark, numbers, count) = match *order {
        Order::Send { truck, place } => (b"SD", [truck, place, 0], 2),
        Order::Release { truck } => (b"RL", [truck, 0, 0], 1),
        Order::Load {
            truck,
            place,
            amount,
        } => (b"LD", [truck, place, amount], 3),
    };
    out.extend_from_slice(mark);
    for number in &numbers[..count] {
        out.push(b' ');
        push_number(out, u64::from(*number));
    }
}

fn answer_name(bytes: &[u8], out: &mut Vec<u8>) {
    out.extend_from_slice(b"name: ");
    push_hex(out, &digest(bytes));
}

fn answer_mac(key: &KeyBytes, bytes: &[u8], out: &mut Vec<u8>) {
    out.extend_from_slice(b"mac: ");
    push_hex(out, &first_half(MacKey::new(key).mac(bytes)));
}

fn answer_read(n: u8, bytes: &[u8], out: &mut Vec<u8>) {
    out.extend_from_slice(b"read: ");
    match wire::read(n, bytes) {
        Ok(Message::Proposal(proposal)) => push_proposal(out, &proposal, bytes.len()),
        Ok(Message::Vote(vote)) => push_vote(out, &vote),
        Err(refusal) => push_refusal(out, refusal),
    }
}

fn push_proposal(out: &mut Vec<u8>, proposal: &Proposal, length: usize) {
    let body = &proposal.body;
    let certificate = 2 + proposal.body_bytes.len();
    let seal = length - SEAL;
    out.extend_from_slice(b"proposal ");
    push_number(out, body.view.into());
    out.extend_from_slice(b", name ");
    push_hex(out, &proposal.name());
    out.extend_from_slice(b", parent ");
    push_number(out, body.parent.view.into());
    out.push(b' ');
    push_hex(out, &body.parent.name);
    out.extend_from_slice(b", signers ");
    push_list(out, b" ", signers(proposal.signers), |out, signer| {
        push_number(out, signer.into())
    });
    push_part(out, b", body ", 2, proposal.body_bytes.len());
    push_part(out, b", certificate ", certificate, seal - certificate);
    push_part(out, b", seal ", seal, SEAL);
    out.extend_from_slice(b", orders ");
    push_list(out, b", ", body.orders.as_slice().iter(), push_order);
}

fn push_vote(out: &mut Vec<u8>, vote: &Vote) {
    out.extend_from_slice(b"vote ");
    push_number(out, vote.block.view.into());
    out.extend_from_slice(b", name ");
    push_hex(out, &vote.block.name);
    out.extend_from_slice(b", voter ");
    push_number(out, vote.voter.into());
    push_part(out, b", seal ", 39, SEAL);
}

fn answer_try(board: NewBoard, orders: &[Order], out: &mut Vec<u8>) {
    out.extend_from_slice(b"try: ");
    let Some(orders) = Orders::new(orders) else {
        return push_refusal(out, Refusal::Orders);
    };
    let mut board = new_board(board);
    push_list(out, b" ", orders.as_slice().iter(), |out, order| {
        let effect = board.take(order);
        out.extend_from_slice(if effect { b"yes" } else { b"no" });
    });
    out.extend_from_slice(b"; ");
    board.show(out);
}

fn answer_tick(pit: &mut Pit, console: u8, tick: u32, out: &mut Vec<u8>) -> Result<(), Fault> {
    let desk = pit.desk(console)?;
    let ticked = desk.console.tick(tick, &mut desk.shelf, &mut desk.board);
    out.extend_from_slice(b"tick ");
    push_number(out, console.into());
    out.push(b' ');
    push_number(out, tick.into());
    out.extend_from_slice(b": ");
    match ticked {
        Ok(Ticked::Turn(turn)) => {
            out.extend_from_slice(b"turn ");
            push_number(out, turn.view().into());
            push_handed_over(out, 0);
            pit.seats[usize::from(console)].turn = Some(turn);
        }
        Ok(Ticked::Vote(vote, handed_over)) => {
            out.extend_from_slice(b"vote ");
            push_hex(out, &vote);
            push_handed_over(out, handed_over);
        }
        Ok(Ticked::Nothing) => {
            out.extend_from_slice(b"nothing");
            push_handed_over(out, 0);
        }
        Err(refusal) => push_refusal(out, refusal),
    }
    Ok(())
}

fn answer_propose(
    pit: &mut Pit,
    at: u8,
    turn_of: u8,
    output: usize,
    orders: &[Order],
    out: &mut Vec<u8>,
) -> Result<(), Fault> {
    pit.desk(at)?;
    let turn = pit.take_turn(turn_of);
    let desk = pit.desk(at)?;
    push_head(out, b"propose", at);
    let Some(turn) = turn else {
        out.extend_from_slice(b"no turn held");
        return Ok(());
    };
    let mut room = [0; 1024];
    let room = &mut room[..output];
    match desk
        .console
        .propose(turn, orders, room, &mut desk.shelf, &mut desk.board)
    {
        Ok((length, handed_over)) => {
            out.extend_from_slice(b"proposal ");
            push_hex(out, &room[..length]);
            push_handed_over(out, handed_over);
        }
        Err(refusal) => push_refusal(out, refusal),
    }
    Ok(())
}

fn answer_hear(desk: &mut Desk, console: u8, bytes: &[u8], out: &mut Vec<u8>) {
    let heard = desk.console.hear(bytes, &mut desk.shelf, &mut desk.board);
    push_head(out, b"hear", console);
    match heard {
        Ok(Heard::New(handed_over)) => {
            out.extend_from_slice(b"new");
            push_handed_over(out, handed_over);
        }
        Ok(Heard::Known) => {
            out.extend_from_slice(b"known");
            push_handed_over(out, 0);
        }
        Err(refusal) => push_refusal(out, refusal),
    }
}

fn answer_look(desk: &Desk, console: u8, out: &mut Vec<u8>) {
    let look = desk.console.look();
    push_head(out, b"look", console);
    out.extend_from_slice(b"tick ");
    push_number(out, look.tick.into());
    out.extend_from_slice(b", lock ");
    push_number(out, look.lock.into());
    out.extend_from_slice(b", head ");
    push_number(out, look.head.view.into());
    out.push(b' ');
    push_hex(out, &look.head.name);
    out.extend_from_slice(b", count ");
    push_number(out, look.count);
}

/// Why a run ended before its sheet did.
pub enum Stop {
    Fault(u64, Fault),
    Io(io::Error),
}

impl From<io::Error> for Stop {
    fn from(error: io::Error) -> Stop {
        Stop::Io(error)
    }
}

/// Plays a sheet. Whatever was answered is written before more is waited for, so that somebody who
/// asks line by line is answered line by line.
pub fn play_sheet(mut input: impl Read, output: impl Write) -> Result<(), Stop> {
    let mut player = Player {
        clerk: Clerk::default(),
        lines: 0,
        answers: Vec::new(),
        output,
    };
    let mut text = vec![0; 1 << 16];
    let mut filled = 0;
    loop {
        player.flush()?;
        if filled == text.len() {
            text.resize(2 * filled, 0);
        }
        let got = match input.read(&mut text[filled..]) {
            Err(error) if error.kind() == io::ErrorKind::Interrupted => continue,
            got => got?,
        };
        if got == 0 {
            return player.finish(&text[..filled]);
        }
        let left = player.play_lines(&text[..filled + got], filled)?;
        text.copy_within(filled + got - left..filled + got, 0);
        filled = left;
    }
}

struct Player<W: Write> {
    clerk: Clerk,
    lines: u64,
    answers: Vec<u8>,
    output: W,
}

impl<W: Write> Player<W> {
    /// Answers are handed on in larger pieces than a line.
    const PIECE: usize = 1 << 16;

    fn flush(&mut self) -> io::Result<()> {
        self.output.write_all(&self.answers)?;
        self.answers.clear();
        self.output.flush()
    }

    fn play_line(&mut self, line: &[u8]) -> Result<(), Stop> {
        self.lines += 1;
        if let Err(fault) = self.clerk.play(line, &mut self.answers) {
            self.flush()?;
            return Err(Stop::Fault(self.lines, fault));
        }
        if self.answers.len() >= Self::PIECE {
            self.flush()?;
        }
        Ok(())
    }

    /// Plays all lines that end in the text and answers how many bytes are left after them. The
    /// first `seen` bytes are known to hold no newline.
    fn play_lines(&mut self, text: &[u8], seen: usize) -> Result<usize, Stop> {
        let mut rest = text;
        let mut from = seen;
        while let Some(newline) = rest[from..].iter().position(|byte| *byte == b'\n') {
            self.play_line(&rest[..from + newline])?;
            rest = &rest[from + newline + 1..];
            from = 0;
        }
        Ok(rest.len())
    }

    fn finish(&mut self, last: &[u8]) -> Result<(), Stop> {
        if !last.is_empty() {
            self.play_line(last)?;
        }
        Ok(self.flush()?)
    }
}

#[cfg(test)]
mod tests {
    use super::*;

    fn played(sheet: &str) -> (String, Option<u64>) {
        let mut out = Vec::new();
        let line = match play_sheet(sheet.as_bytes(), &mut out) {
            Ok(()) => None,
            Err(Stop::Fault(line, _)) => Some(line),
            Err(Stop::Io(error)) => panic!("{error}"),
        };
        (String::from_utf8(out).unwrap(), line)
    }

    #[test]
    fn the_board_example() {
        let (out, line) = played("try assignment 3 2 SD 7 12, SD 9 3, SD 7 12, RL 7");
        assert_eq!(out, "try: yes yes no yes; assignment - 9@3 -\n");
        assert_eq!(line, None);
    }

    #[test]
    fn boards_without_anything_to_show() {
        let (out, _) = played("try tonnage\ntry assignment 0 5 RL 1\ntry tonnage RL 0\n");
        assert_eq!(
            out,
            "try: -; tonnage\ntry: no; assignment\ntry: refused 7\n"
        );
    }

    #[test]
    fn a_line_that_cannot_be_read_ends_the_run() {
        let (out, line) = played("# a\n\npit 4 stamp\nopen 4 8 tonnage\nlook 0\npit 4 stamp\n");
        assert_eq!(out, "pit: 4 consoles, quorum 3\nopen 4: refused 2\n");
        assert_eq!(line, Some(5));
    }

    #[test]
    fn a_refused_pit_leaves_none() {
        let (out, line) = played("pit 4 stamp\npit 17 stamp\npass 0\n");
        assert_eq!(out, "pit: 4 consoles, quorum 3\npit: refused 1\n");
        assert_eq!(line, Some(3));
    }

    #[test]
    fn stores_and_turns_outlive_an_opening() {
        let (out, line) = played(
            "pit 4 keyed\nopen 1 8 tonnage\nstore 1\ntick 1 2\nopen 1 8 tonnage\nstore 1\ntick 1 2\n\
             propose 1 1 420\npropose 1 1 421\npass 200\npropose 1 200 0 RL 0\n",
        );
        assert_eq!(
            out,
            "pit: 4 consoles, quorum 3\nopen 1: opened\n\
             store 1: 5354000000000000000000000000\ntick 1 2: turn 1; 0 handed over\nopen 1: opened\n\
             store 1: 5354000000000000000000000001\ntick 1 2: nothing; 0 handed over\n\
             propose 1: refused 6\npropose 1: no turn held\npass 200: no turn held\n\
             propose 1: no turn held\n"
        );
        assert_eq!(line, None);
    }

    #[test]
    fn long_lines_and_a_last_line_without_its_newline() {
        let long = "00".repeat(200_000);
        let (out, line) = played(&format!("name {long}\nname -"));
        assert_eq!(out.lines().count(), 2);
        assert_eq!(line, None);
    }
}
