//! The records that consoles send one another.

use crate::refusal::Refusal;
use crate::sha256;

pub const NAME: usize = 32;
pub const SEAL: usize = 16;
pub const ORDER: usize = 8;
pub const MOST_ORDERS: usize = 8;
pub const PLACES: u16 = 64;
pub const VOTE: usize = 55;
pub const LONGEST_PROPOSAL: usize = 421;
pub const STATEMENT: usize = 38;

const BODY: usize = 43;
const CERTIFICATE: usize = 40;
const MARK: usize = 2;

pub type Name = [u8; NAME];
pub type Seal = [u8; SEAL];

/// What a block is known by.
#[derive(Clone, Copy, PartialEq, Eq, Debug)]
pub struct Key {
    pub view: u32,
    pub name: Name,
}

/// The block before the first one.
pub const ORIGIN: Key = Key {
    view: 0,
    name: [0; NAME],
};

/// An order as its numbers stand; they may make it ill-formed.
#[derive(Clone, Copy, PartialEq, Eq, Debug)]
pub enum Order {
    Send { truck: u16, place: u16 },
    Release { truck: u16 },
    Load { truck: u16, place: u16, amount: u16 },
}

impl Order {
    pub fn well_formed(&self) -> bool {
        let at_place = |place| (1..=PLACES).contains(&place);
        match *self {
            Order::Send { truck, place } => truck >= 1 && at_place(place),
            Order::Release { truck } => truck >= 1,
            Order::Load {
                truck,
                place,
                amount,
            } => truck >= 1 && at_place(place) && amount >= 1,
        }
    }

    /// The well-formed order that the bytes spell.
    fn read(bytes: &[u8; ORDER]) -> Option<Order> {
        let [m0, m1, t0, t1, p0, p1, a0, a1] = *bytes;
        let truck = u16::from_be_bytes([t0, t1]);
        let place = u16::from_be_bytes([p0, p1]);
        let amount = u16::from_be_bytes([a0, a1]);
        let order = match (&[m0, m1], place, amount) {
            (b"SD", _, 0) => Order::Send { truck, place },
            (b"RL", 0, 0) => Order::Release { truck },
            (b"LD", _, _) => Order::Load {
                truck,
                place,
                amount,
            },
            _ => return None,
        };
        order.well_formed().then_some(order)
    }

    fn bytes(&self) -> [u8; ORDER] {
        let (mark, truck, place, amount) = match *self {
            Order::Send { truck, place } => (b"SD", truck, place, 0),
            Order::Release { truck } => (b"RL", truck, 0, 0),
            Order::Load {
                truck,
                place,
                amount,
            } => (b"LD", truck, place, amount),
        };
        let ([t0, t1], [p0, p1]) = (truck.to_be_bytes(), place.to_be_bytes());
        let [a0, a1] = amount.to_be_bytes();
        [mark[0], mark[1], t0, t1, p0, p1, a0, a1]
    }
}

/// Up to eight well-formed orders.
#[derive(Clone, Copy)]
pub struct Orders {
    count: u8,
    list: [Order; MOST_ORDERS],
}

impl Orders {
    pub const NONE: Orders = Orders {
        count: 0,
        list: [Order::Release { truck: 0 }; MOST_ORDERS],
    };

    /// None if there are more than eight or one is ill-formed.
    pub fn new(orders: &[Order]) -> Option<Orders> {
        if orders.len() > MOST_ORDERS || !orders.iter().all(Order::well_formed) {
            return None;
        }
        let mut list = Orders::NONE.list;
        list[..orders.len()].copy_from_slice(orders);
        Some(Orders {
            count: orders.len() as u8,
            list,
        })
    }

    fn read(bytes: &[u8]) -> Option<Orders> {
        let (chunks, _) = bytes.as_chunks::<ORDER>();
        let mut orders = Orders::NONE;
        for (order, chunk) in orders.list.iter_mut().zip(chunks) {
            *order = Order::read(chunk)?;
        }
        orders.count = chunks.len() as u8;
        Some(orders)
    }

    pub fn as_slice(&self) -> &[Order] {
        &self.list[..usize::from(self.count)]
    }
}

#[derive(Clone, Copy)]
pub struct Body {
    pub view: u32,
    pub parent: Key,
    pub orders: Orders,
}

impl Body {
    pub fn length(&self) -> usize {
        BODY + ORDER * usize::from(self.orders.count)
    }

    /// Writes the body at the start of `out` and answers its length.
    pub fn write(&self, out: &mut [u8]) -> usize {
        out[..2].copy_from_slice(b"BD");
        out[2..6].copy_from_slice(&self.view.to_be_bytes());
        out[6..10].copy_from_slice(&self.parent.view.to_be_bytes());
        out[10..42].copy_from_slice(&self.parent.name);
        out[42] = self.orders.count;
        let places = out[BODY..].as_chunks_mut::<ORDER>().0.iter_mut();
        for (place, order) in places.zip(self.orders.as_slice()) {
            *place = order.bytes();
        }
        self.length()
    }
}

/// A set of consoles with a seal of each: a tally of votes, and a certificate made from it.
#[derive(Clone, Copy)]
pub struct Signed {
    pub signers: u16,
    pub seals: [Seal; 16],
}

impl Signed {
    pub const NONE: Signed = Signed {
        signers: 0,
        seals: [[0; SEAL]; 16],
    };

    pub fn has(&self, signer: u8) -> bool {
        self.signers >> signer & 1 == 1
    }

    pub fn count(&self) -> u32 {
        self.signers.count_ones()
    }

    pub fn add(&mut self, signer: u8, seal: Seal) {
        self.signers |= 1 << signer;
        self.seals[usize::from(signer)] = seal;
    }
}

/// The numbers of the ones, rising.
pub fn signers(mut mask: u16) -> impl Iterator<Item = u8> {
    std::iter::from_fn(move || {
        let lowest = mask.trailing_zeros() as u8;
        (mask != 0).then(|| {
            mask &= mask - 1;
            lowest
        })
    })
}

/// A proposal as it was read; seals stay in the message.
pub struct Proposal<'a> {
    pub body: Body,
    pub body_bytes: &'a [u8],
    pub signers: u16,
    pub seals: &'a [Seal],
    pub seal: &'a Seal,
}

impl Proposal<'_> {
    pub fn name(&self) -> Name {
        sha256::digest(self.body_bytes)
    }

    /// The certificate, with each seal under its signer's number.
    pub fn certificate(&self) -> Signed {
        let mut signed = Signed::NONE;
        for (signer, seal) in signers(self.signers).zip(self.seals) {
            signed.add(signer, *seal);
        }
        signed
    }
}

pub struct Vote<'a> {
    pub block: Key,
    pub voter: u8,
    pub seal: &'a Seal,
}

pub enum Message<'a> {
    Proposal(Proposal<'a>),
    Vote(Vote<'a>),
}

/// Fixed pieces of a message. The lengths have been looked at before any is taken, so a piece that
/// is not there is a fault of this program.
fn piece<const N: usize>(bytes: &[u8], at: usize) -> &[u8; N] {
    bytes[at..]
        .first_chunk()
        .expect("the length of a message is tested before its pieces are taken")
}

fn number(bytes: &[u8], at: usize) -> u32 {
    u32::from_be_bytes(*piece(bytes, at))
}

/// Reads a message in a pit of n consoles.
pub fn read(n: u8, bytes: &[u8]) -> Result<Message<'_>, Refusal> {
    match bytes.first_chunk() {
        Some(b"PR") => read_proposal(n, bytes).map(Message::Proposal),
        Some(b"VT") => read_vote(n, bytes).map(Message::Vote),
        _ => Err(Refusal::Mark),
    }
}

fn read_vote(n: u8, bytes: &[u8]) -> Result<Vote<'_>, Refusal> {
    if bytes.len() != VOTE {
        return Err(Refusal::Length);
    }
    let block = Key {
        view: number(bytes, 2),
        name: *piece(bytes, 6),
    };
    let voter = bytes[38];
    if block.view == 0 || voter >= n {
        return Err(Refusal::Form);
    }
    Ok(Vote {
        block,
        voter,
        seal: piece(bytes, 39),
    })
}

fn read_proposal(n: u8, bytes: &[u8]) -> Result<Proposal<'_>, Refusal> {
    let (body, certificate, seal) = parts(bytes).ok_or(Refusal::Length)?;
    read_parts(n, body, certificate, seal).ok_or(Refusal::Form)
}

/// Body, certificate and seal of a proposal, if its length fits.
fn parts(bytes: &[u8]) -> Option<(&[u8], &[u8], &Seal)> {
    let orders = usize::from(*bytes.get(MARK + BODY - 1)?);
    if orders > MOST_ORDERS {
        return None;
    }
    let (body, rest) = bytes[MARK..].split_at_checked(BODY + ORDER * orders)?;
    let signers = u16::from_be_bytes(*rest.get(38..)?.first_chunk()?);
    let (certificate, seal) =
        rest.split_at_checked(CERTIFICATE + SEAL * signers.count_ones() as usize)?;
    Some((body, certificate, seal.try_into().ok()?))
}

fn read_parts<'a>(
    n: u8,
    body_bytes: &'a [u8],
    certificate: &'a [u8],
    seal: &'a Seal,
) -> Option<Proposal<'a>> {
    let parent = Key {
        view: number(body_bytes, 6),
        name: *piece(body_bytes, 10),
    };
    let body = Body {
        view: number(body_bytes, 2),
        parent,
        orders: Orders::read(&body_bytes[BODY..])?,
    };
    let certified = Key {
        view: number(certificate, 2),
        name: *piece(certificate, 6),
    };
    let signers = u16::from_be_bytes(*piece(certificate, 38));
    let sound = body_bytes.starts_with(b"BD")
        && certificate.starts_with(b"CT")
        && parent.view < body.view
        && certified == parent
        && u32::from(signers) < 1 << n
        && (parent.view > 0 || (parent == ORIGIN && signers == 0));
    sound.then(|| Proposal {
        body,
        body_bytes,
        signers,
        seals: certificate[CERTIFICATE..].as_chunks().0,
        seal,
    })
}

/// Writes a certificate at the start of `out` and answers its length.
pub fn write_certificate(out: &mut [u8], block: &Key, signed: &Signed) -> usize {
    out[..2].copy_from_slice(b"CT");
    out[2..6].copy_from_slice(&block.view.to_be_bytes());
    out[6..38].copy_from_slice(&block.name);
    out[38..40].copy_from_slice(&signed.signers.to_be_bytes());
    let places = out[CERTIFICATE..].as_chunks_mut::<SEAL>().0.iter_mut();
    for (place, signer) in places.zip(signers(signed.signers)) {
        *place = signed.seals[usize::from(signer)];
    }
    CERTIFICATE + SEAL * signed.count() as usize
}

/// Writes a proposal around a body that `out` holds from its third byte on, and answers its length.
pub fn write_proposal(out: &mut [u8], body: &Body, certificate: &Signed, seal: &Seal) -> usize {
    out[..MARK].copy_from_slice(b"PR");
    let mut at = MARK + body.length();
    at += write_certificate(&mut out[at..], &body.parent, certificate);
    out[at..at + SEAL].copy_from_slice(seal);
    at + SEAL
}

/// Writes the body where `write_proposal` wants it and answers its name.
pub fn write_body(out: &mut [u8], body: &Body) -> Name {
    let length = body.write(&mut out[MARK..]);
    sha256::digest(&out[MARK..MARK + length])
}

pub fn vote_bytes(block: &Key, voter: u8, seal: &Seal) -> [u8; VOTE] {
    let mut bytes = [0; VOTE];
    bytes[..2].copy_from_slice(b"VT");
    bytes[2..6].copy_from_slice(&block.view.to_be_bytes());
    bytes[6..38].copy_from_slice(&block.name);
    bytes[38] = voter;
    bytes[39..].copy_from_slice(seal);
    bytes
}
