//! Messages by somebody who has every key of the pit: sound ones, and damaged ones.

use crate::console::quorum;
use crate::rng::Rng;
use crate::seals::{Purpose, Seals};
use crate::sha256::{digest, MacKey};
use crate::wire::{
    self, Body, Key, Order, Orders, Signed, LONGEST_PROPOSAL, MOST_ORDERS, ORDER, ORIGIN, SEAL,
    VOTE,
};
use std::sync::Arc;

/// Offsets in a proposal.
const VIEW: usize = 4;
const PARENT_VIEW: usize = 8;
const PARENT_NAME: usize = 12;
const COUNT: usize = 44;
const ORDERS: usize = 45;
/// Offsets in a certificate.
const CERTIFIED_VIEW: usize = 2;
const CERTIFIED_NAME: usize = 6;
const SIGNERS: usize = 38;
const SEALS: usize = 40;
/// Offsets in a vote.
const VOTED_VIEW: usize = 2;
const VOTED_NAME: usize = 6;
const VOTER: usize = 38;

pub struct Forge {
    pub n: u8,
    pub seals: Seals,
}

impl Forge {
    pub fn stamps(n: u8) -> Forge {
        Forge {
            n,
            seals: Seals::Stamp,
        }
    }

    pub fn keyed(n: u8) -> Forge {
        let keys = [MacKey::new(&[0; 32]); 16];
        Forge {
            n,
            seals: Seals::Keyed(Arc::new(keys)),
        }
    }

    pub fn set_key(&mut self, console: u8, key: &[u8; 32]) {
        if let Seals::Keyed(keys) = &mut self.seals {
            Arc::make_mut(keys)[usize::from(console)] = MacKey::new(key);
        }
    }

    pub fn quorum(&self) -> u32 {
        quorum(self.n)
    }

    pub fn leader(&self, view: u32) -> u8 {
        (view % u32::from(self.n)) as u8
    }

    /// So many random consoles of the pit.
    pub fn some(&self, rng: &mut Rng, count: u32) -> u16 {
        let mut numbers: Vec<u8> = (0..self.n).collect();
        rng.shuffle(&mut numbers);
        numbers
            .iter()
            .take(count as usize)
            .fold(0, |mask, number| mask | 1 << number)
    }

    pub fn certificate(&self, block: &Key, mask: u16) -> Signed {
        let mut signed = Signed::NONE;
        for signer in wire::signers(mask) {
            signed.add(signer, self.seals.seal(signer, Purpose::Vote, block));
        }
        signed
    }

    /// A certificate that every console accepts, now and then of more than a quorum.
    pub fn sound_certificate(&self, rng: &mut Rng, block: &Key) -> Signed {
        if block.view == 0 {
            return Signed::NONE;
        }
        let count = match rng.chance(70) {
            true => self.quorum(),
            false => rng.range(self.quorum(), self.n.into()),
        };
        let mask = self.some(rng, count);
        self.certificate(block, mask)
    }

    pub fn proposal(&self, body: &Body, certificate: &Signed, sealer: u8) -> (Key, Vec<u8>) {
        // Seals of more signers than a pit has make a proposal no longer than this.
        let mut bytes = [0; LONGEST_PROPOSAL];
        let name = wire::write_body(&mut bytes, body);
        let block = Key {
            view: body.view,
            name,
        };
        let seal = self.seals.seal(sealer, Purpose::Lead, &block);
        let length = wire::write_proposal(&mut bytes, body, certificate, &seal);
        (block, bytes[..length].to_vec())
    }

    /// A proposal that nobody refuses for its form or its seals.
    pub fn sound_proposal(
        &self,
        rng: &mut Rng,
        view: u32,
        parent: Key,
        orders: &[Order],
    ) -> (Key, Vec<u8>) {
        let orders = Orders::new(orders).expect("only well-formed orders are forged here");
        let body = Body {
            view,
            parent,
            orders,
        };
        let certificate = self.sound_certificate(rng, &parent);
        self.proposal(&body, &certificate, self.leader(view))
    }

    pub fn vote(&self, block: &Key, voter: u8) -> Vec<u8> {
        let seal = self.seals.seal(voter, Purpose::Vote, block);
        wire::vote_bytes(block, voter, &seal).to_vec()
    }

    /// Some message that has nothing to do with any shift.
    pub fn any_message(&self, rng: &mut Rng, orders: &[Order]) -> Vec<u8> {
        let view = rng.range(1, 300);
        if rng.chance(35) {
            let block = Key {
                view,
                name: rng.array(),
            };
            let voter = rng.below(self.n.into()) as u8;
            return self.vote(&block, voter);
        }
        let parent = match rng.chance(30) {
            true => ORIGIN,
            false => any_block(rng, view),
        };
        self.sound_proposal(rng, view, parent, orders).1
    }

    /// Seals the body of a proposal anew for the leader of its view, whatever the body holds.
    fn reseal(&self, bytes: &mut [u8]) {
        let Some(end) = body_end(bytes).filter(|end| end + SEAL <= bytes.len()) else {
            return;
        };
        let block = Key {
            view: number_at(bytes, VIEW),
            name: digest(&bytes[2..end]),
        };
        let seal = self
            .seals
            .seal(self.leader(block.view), Purpose::Lead, &block);
        let at = bytes.len() - SEAL;
        bytes[at..].copy_from_slice(&seal);
    }

    /// A copy of a message with some damage.
    pub fn damaged(&self, rng: &mut Rng, bytes: &[u8]) -> Vec<u8> {
        let mut bytes = bytes.to_vec();
        if rng.chance(25) || bytes.len() < VOTE {
            damage_anything(rng, &mut bytes);
        } else if bytes.starts_with(b"VT") {
            self.damage_vote(rng, &mut bytes);
        } else {
            self.damage_proposal(rng, &mut bytes);
        }
        // Of several things that are wrong, the first ground has to show.
        match rng.chance(20) {
            true => self.damaged(rng, &bytes),
            false => bytes,
        }
    }

    fn damage_vote(&self, rng: &mut Rng, bytes: &mut [u8]) {
        match rng.below(6) {
            0 => bytes[VOTER] = rng.range(self.n.into(), 255) as u8,
            1 => bytes[VOTER] = rng.below(self.n.into()) as u8,
            2 => put_number(bytes, VOTED_VIEW, rng.pick(&[0, 1, 2, u32::MAX])),
            3 => flip(rng, &mut bytes[VOTED_NAME..VOTER]),
            _ => flip(rng, &mut bytes[VOTER + 1..]),
        }
    }

    fn damage_proposal(&self, rng: &mut Rng, bytes: &mut Vec<u8>) {
        let Some(certificate) = body_end(bytes).filter(|end| end + SEALS + SEAL <= bytes.len())
        else {
            return damage_anything(rng, bytes);
        };
        match rng.below(12) {
            0 => {
                let at = bytes.len() - SEAL;
                flip(rng, &mut bytes[at..]);
            }
            1 => self.change_views(rng, bytes, certificate),
            2 => self.change_parent_name(rng, bytes, certificate),
            3 if rng.chance(50) => self.add_orders(rng, bytes, certificate),
            3 => self.change_count(rng, bytes),
            4 => self.change_order(rng, bytes, certificate),
            5 => self.change_marks(rng, bytes, certificate),
            6 | 7 => self.change_signers(rng, bytes, certificate),
            8 => {
                let at = certificate + SIGNERS + rng.index(2);
                bytes[at] ^= 1 << rng.below(8);
            }
            9 => {
                // Another console takes the leader's part.
                let sealer = rng.below(self.n.into()) as u8;
                let block = Key {
                    view: number_at(bytes, VIEW),
                    name: digest(&bytes[2..certificate]),
                };
                let at = bytes.len() - SEAL;
                bytes[at..].copy_from_slice(&self.seals.seal(sealer, Purpose::Lead, &block));
            }
            _ => {
                let end = bytes.len() - SEAL;
                match certificate + SEALS < end {
                    true => flip(rng, &mut bytes[certificate + SEALS..end]),
                    false => damage_anything(rng, bytes),
                }
            }
        }
    }

    fn change_views(&self, rng: &mut Rng, bytes: &mut [u8], certificate: usize) {
        let view = number_at(bytes, VIEW);
        let parent = number_at(bytes, PARENT_VIEW);
        let other = rng.pick(&[
            0,
            1,
            parent,
            parent.wrapping_add(1),
            parent.wrapping_sub(1),
            view.wrapping_add(1),
            view.wrapping_sub(1),
            view,
            u32::MAX,
        ]);
        let places = [VIEW, PARENT_VIEW, certificate + CERTIFIED_VIEW];
        match rng.below(4) {
            0 => put_number(bytes, VIEW, other),
            1 => {
                put_number(bytes, PARENT_VIEW, other);
                put_number(bytes, certificate + CERTIFIED_VIEW, other);
            }
            _ => put_number(bytes, rng.pick(&places), other),
        }
        self.reseal(bytes);
    }

    fn change_parent_name(&self, rng: &mut Rng, bytes: &mut [u8], certificate: usize) {
        let at = rng.index(wire::NAME);
        let bit = 1 << rng.below(8);
        let both = rng.chance(50);
        if both || rng.chance(50) {
            bytes[PARENT_NAME + at] ^= bit;
        } else {
            bytes[certificate + CERTIFIED_NAME + at] ^= bit;
        }
        if both {
            bytes[certificate + CERTIFIED_NAME + at] ^= bit;
        }
        self.reseal(bytes);
    }

    fn change_count(&self, rng: &mut Rng, bytes: &mut [u8]) {
        bytes[COUNT] = match rng.chance(60) {
            true => rng.range(0, MOST_ORDERS as u32 + 1) as u8,
            false => rng.next() as u8,
        };
        self.reseal(bytes);
    }

    /// More orders, mostly more than a body may have, at a length that fits.
    fn add_orders(&self, rng: &mut Rng, bytes: &mut Vec<u8>, certificate: usize) {
        let count = (certificate - ORDERS) / ORDER;
        let wanted = rng.weighted(&[
            (4, MOST_ORDERS + 1),
            (2, MOST_ORDERS),
            (1, count + 1),
            (1, 16),
        ]);
        for _ in count..wanted {
            bytes.splice(certificate..certificate, *b"RL\0\x01\0\0\0\0");
        }
        bytes[COUNT] = count.max(wanted) as u8;
        self.reseal(bytes);
    }

    fn change_order(&self, rng: &mut Rng, bytes: &mut [u8], certificate: usize) {
        let count = (certificate - ORDERS) / ORDER;
        if count == 0 {
            return self.change_count(rng, bytes);
        }
        let at = ORDERS + ORDER * rng.index(count);
        let mark = rng.pick(&[b"SD", b"RL", b"LD", b"XX", b"sd"]);
        match rng.below(5) {
            0 => bytes[at..at + 2].copy_from_slice(mark),
            1 => bytes[at + 2..at + 4].copy_from_slice(&[0, 0]),
            2 => bytes[at + 4..at + 6].copy_from_slice(rng.pick(&[
                &[0, 0],
                &[0, 64],
                &[0, 65],
                &[1, 1],
            ])),
            3 => bytes[at + 6..at + 8].copy_from_slice(rng.pick(&[&[0, 0], &[0, 1], &[255, 255]])),
            _ => bytes[at + 3] ^= 4,
        }
        self.reseal(bytes);
    }

    fn change_marks(&self, rng: &mut Rng, bytes: &mut [u8], certificate: usize) {
        let at = rng.pick(&[2, certificate]);
        bytes[at + rng.index(2)] ^= 1 << rng.below(8);
        self.reseal(bytes);
    }

    /// Other signers, with a right number of seals, each right for its signer or not.
    fn change_signers(&self, rng: &mut Rng, bytes: &mut Vec<u8>, certificate: usize) {
        let block = Key {
            view: number_at(bytes, certificate + CERTIFIED_VIEW),
            name: bytes[certificate + CERTIFIED_NAME..certificate + SIGNERS]
                .try_into()
                .expect("a name has 32 bytes"),
        };
        let mask = match rng.below(4) {
            0 => self.some(rng, self.quorum() - 1),
            1 => self.some(rng, self.n.into()),
            2 => self.some(rng, self.quorum()) | 1 << rng.below(16),
            _ => rng.next() as u16,
        };
        let mut signed = self.certificate(&block, mask);
        if rng.chance(20) {
            flip(
                rng,
                &mut signed.seals[usize::from(mask.trailing_zeros() as u8 & 15)],
            );
        }
        let leader_seal = bytes.split_off(bytes.len() - SEAL);
        let mut room = [0; SEALS + 16 * SEAL];
        let length = wire::write_certificate(&mut room, &block, &signed);
        bytes.truncate(certificate);
        bytes.extend_from_slice(&room[..length]);
        bytes.extend_from_slice(&leader_seal);
    }
}

/// A block that nobody ever proposed, below this view.
pub fn any_block(rng: &mut Rng, below: u32) -> Key {
    match rng.below(below) {
        0 => ORIGIN,
        view => Key {
            view,
            name: rng.array(),
        },
    }
}

fn body_end(bytes: &[u8]) -> Option<usize> {
    let count = usize::from(*bytes.get(COUNT)?);
    let end = ORDERS + ORDER * count;
    (end <= bytes.len()).then_some(end)
}

fn number_at(bytes: &[u8], at: usize) -> u32 {
    u32::from_be_bytes([bytes[at], bytes[at + 1], bytes[at + 2], bytes[at + 3]])
}

fn put_number(bytes: &mut [u8], at: usize, number: u32) {
    bytes[at..at + 4].copy_from_slice(&number.to_be_bytes());
}

fn flip(rng: &mut Rng, bytes: &mut [u8]) {
    let at = rng.index(bytes.len());
    bytes[at] ^= 1 << rng.below(8);
}

fn damage_anything(rng: &mut Rng, bytes: &mut Vec<u8>) {
    match rng.below(6) {
        0 | 1 if !bytes.is_empty() => flip(rng, bytes),
        2 => bytes.truncate(rng.index(bytes.len() + 1)),
        3 => bytes.truncate(rng.index(48)),
        4 if bytes.len() >= 2 => bytes[rng.index(2)] ^= 1 << rng.below(8),
        _ => {
            let more = 1 + rng.index(20);
            bytes.extend(rng.bytes(more));
        }
    }
}
