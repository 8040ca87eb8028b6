//! Seals over statements: keyed ones, and the open stamp.

use crate::sha256::{short_block, Block, MacKey};
use crate::wire::{signers, Key, Seal, SEAL, STATEMENT};
use std::sync::Arc;

/// What a seal is for.
#[derive(Clone, Copy, PartialEq, Eq)]
pub enum Purpose {
    Lead,
    Vote,
}

fn statement(purpose: Purpose, block: &Key) -> [u8; STATEMENT] {
    let mut bytes = [0; STATEMENT];
    bytes[..2].copy_from_slice(match purpose {
        Purpose::Lead => b"PR",
        Purpose::Vote => b"VT",
    });
    bytes[2..6].copy_from_slice(&block.view.to_be_bytes());
    bytes[6..].copy_from_slice(&block.name);
    bytes
}

/// The seals of a pit. Consoles of one pit share the keys, which are fixed once a console holds them.
#[derive(Clone)]
pub enum Seals {
    Stamp,
    Keyed(Arc<[MacKey; 16]>),
}

/// A statement made ready for sealing, so that a certificate's seals share that work.
enum Ready {
    Stamp([u8; STATEMENT]),
    Keyed(Block),
}

impl Seals {
    fn ready(&self, purpose: Purpose, block: &Key) -> Ready {
        let bytes = statement(purpose, block);
        match self {
            Seals::Stamp => Ready::Stamp(bytes),
            Seals::Keyed(_) => Ready::Keyed(short_block(&bytes)),
        }
    }

    fn seal_ready(&self, signer: u8, ready: &Ready) -> Seal {
        match (self, ready) {
            (Seals::Keyed(keys), Ready::Keyed(block)) => {
                first_half(keys[usize::from(signer)].mac_block(block))
            }
            (_, Ready::Stamp(bytes)) => stamp(signer, bytes),
            (Seals::Stamp, Ready::Keyed(_)) => {
                unreachable!("a statement is made ready by its seals")
            }
        }
    }

    pub fn seal(&self, signer: u8, purpose: Purpose, block: &Key) -> Seal {
        self.seal_ready(signer, &self.ready(purpose, block))
    }

    pub fn accepts(&self, signer: u8, purpose: Purpose, block: &Key, seal: &Seal) -> bool {
        same(&self.seal(signer, purpose, block), seal)
    }

    /// Whether every seal of a certificate is accepted as its signer's vote.
    pub fn accepts_all(&self, mask: u16, block: &Key, seals: &[Seal]) -> bool {
        let ready = self.ready(Purpose::Vote, block);
        signers(mask)
            .zip(seals)
            .all(|(signer, seal)| same(&self.seal_ready(signer, &ready), seal))
    }
}

/// A keyed seal is the first half of the MAC.
pub fn first_half(mac: [u8; 32]) -> Seal {
    let (half, _) = mac.split_first_chunk().expect("a MAC has 32 bytes");
    *half
}

fn stamp(signer: u8, statement: &[u8; STATEMENT]) -> Seal {
    let mut seal = [0; SEAL];
    seal[..6].copy_from_slice(&statement[..6]);
    seal[6] = signer;
    seal[7..].copy_from_slice(&statement[6..15]);
    seal
}

/// Equality that does not stop at the first difference.
fn same(a: &Seal, b: &Seal) -> bool {
    a.iter().zip(b).fold(0, |differ, (x, y)| differ | (x ^ y)) == 0
}
