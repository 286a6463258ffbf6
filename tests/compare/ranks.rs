//! Orders of the symbols, by the words of the request: 256 ranks, entry b being the rank of byte b. Smaller means smaller rank.
use crate::lent::Lent;
use crate::tally::Random;
use std::rc::Rc;

/// Exactly 256 entries holding each of 0 to 255 once.
pub fn is_order(ranks: &[u8]) -> bool {
    let mut times = [0; 256];
    for &rank in ranks {
        times[usize::from(rank)] += 1;
    }
    ranks.len() == 256 && times == [1; 256]
}

/// Whether the first byte has the smaller rank.
pub fn below(order: &[u8], first: u8, second: u8) -> bool {
    order[usize::from(first)] < order[usize::from(second)]
}

/// Each byte's value as its rank.
pub static BYTE_ORDER: [u8; 256] = {
    let mut ranks = [0; 256];
    let mut byte = 0;
    while byte < 256 {
        ranks[byte] = byte as u8;
        byte += 1;
    }
    ranks
};

/// Each byte's rank from the other end.
pub fn reverse_order() -> Vec<u8> {
    (0..=255).rev().collect()
}

/// Any order under which the bytes of the ranks 7F and 80 turn round.
fn drawn_order(r: &mut Random) -> Vec<u8> {
    let mut ranks = BYTE_ORDER.to_vec();
    for k in (1..256).rev() {
        ranks.swap(k, r.below(k + 1));
    }
    let place = |rank: u8| ranks.iter().position(|&other| other == rank).unwrap();
    let (low, high) = (place(0x7F), place(0x80));
    if low < high {
        ranks.swap(low, high);
    }
    ranks
}

/// Byte order, the reverse order, and one that is drawn.
pub fn three_orders(r: &mut Random) -> [Rc<Order>; 3] {
    let all = [("byte order", BYTE_ORDER.to_vec()), ("reverse order", reverse_order()), ("a drawn order", drawn_order(r))];
    all.map(|(name, ranks)| Rc::new(Order::new(name, &ranks)))
}

/// Ranks lent to the calls, in the middle of a longer row. They need not be an order.
pub struct Order {
    pub name: String,
    lent: Lent<u8>,
    /// The byte of each rank.
    bytes: Vec<u8>,
}

impl Order {
    pub fn new(name: impl Into<String>, ranks: &[u8]) -> Order {
        let mut bytes = vec![0; 256];
        for (&rank, byte) in ranks.iter().zip(0..=255) {
            bytes[usize::from(rank)] = byte;
        }
        Order { name: name.into(), lent: Lent::holding(ranks), bytes }
    }

    pub fn ranks(&self) -> &[u8] {
        self.lent.contents()
    }

    pub fn is_byte_order(&self) -> bool {
        self.ranks() == BYTE_ORDER
    }

    pub fn unchanged(&self) -> bool {
        self.lent.unchanged()
    }

    /// The word whose bytes have these ranks. Words are made of ranks, so that they are of the same kind under every order.
    pub fn spelled(&self, ranks: &[u8]) -> Vec<u8> {
        ranks.iter().map(|&rank| self.bytes[usize::from(rank)]).collect()
    }
}
