//! What is lent to the call of a case: made of a seed and the case's number.

use crate::cases::case::{Case, Filled, New};
use crate::cases::fields::Sent;
use crate::cases::fills::Fill;
use crate::cases::lists::Odd;
use crate::cases::loans::{Loan, Place, BUFFERS, LOST};
use crate::cases::written::WRITTEN;
use crate::random::Random;
use crate::second::call::{Answer, Call, Lent, Shape};
use crate::second::job;
use crate::second::shapes::Second;

/// The most bytes lent; a call that is told more is told of bytes that aren't there.
const MOST: u64 = 4 << 20;

/// How many bytes are lent to a call that is told of `claimed`.
fn lent_length(claimed: u64) -> usize {
    if claimed <= MOST {
        claimed as usize
    } else {
        64
    }
}

impl Case {
    /// Lends all that is lent on one side of an inaccessible page, and sealed.
    pub fn press(&mut self, side: Place) {
        for loan in self.loans.iter_mut().filter(|loan| loan.place != Place::Null) {
            *loan = Loan { place: side, sealed: true };
        }
    }

    /// What is lent to the call of case number `n`.
    pub fn filled(&self, second: &Second, seed: u64, n: usize) -> Filled {
        let mut random = Random::new(seed, n as u64);
        let whole = self.stripe(second, &mut random);
        let bytes = self.new_bytes(second, &whole, &mut random);
        let Shape { cell, .. } = self.call.shape;
        let another = || second.shelf(Shape::new(1, 5, 1)).expect("a good shape");
        let shelf = second.shelf(self.call.shape).unwrap_or_else(another);
        let cells = self.lost.cells(&self.call, shelf, &mut random);
        let lost = match self.fill {
            Fill::Written(n) => WRITTEN[n].lost.to_vec(),
            _ if self.tells_lost() => self.lost.list(&cells, shelf, &mut random),
            _ => Vec::new(),
        };
        let mut stripe = whole.clone();
        if (self.row.granted)(second, &self.call, &lost).is_ok() {
            self.lost.put_found(&cells, cell as usize, &mut stripe, &mut random);
        }
        let (count, spare) = (self.lost.count(&lost), self.spare(&mut random));
        let filled = Filled { lent: Lent { stripe, bytes, lost, spare }, count, whole };
        match self.sent {
            Some(sent) => self.send(sent, filled, second, &mut random),
            None => filled,
        }
    }

    /// Whether there is a list of lost cells, lent or in a job.
    fn tells_lost(&self) -> bool {
        self.row.lends.contains(&LOST) || self.sent.is_some()
    }

    /// A job and the room for its answer, made of what a rebuild would be lent.
    fn send(&self, sent: Sent, filled: Filled, second: &Second, random: &mut Random) -> Filled {
        let Filled { lent: Lent { stripe, bytes, lost, spare }, whole, .. } = filled;
        let (bytes, spare) = match self.fill {
            Fill::Written(_) => (bytes, spare),
            _ => {
                let bytes = sent.bytes(self.call.shape, &lost, &stripe, random);
                let answer = job::answer(second, &bytes).map_or(0, |answer| answer.len());
                let mut room = vec![0; sent.room.size(answer)];
                random.fill(&mut room);
                (bytes, room)
            }
        };
        Filled { lent: Lent { stripe: Vec::new(), bytes, lost: Vec::new(), spare }, count: 0, whole }
    }

    /// The lengths that the call is told; of a job they are as they are.
    pub fn claimed(&self, filled: &Filled) -> [u64; BUFFERS] {
        let Filled { lent, count, .. } = filled;
        match self.sent {
            Some(_) => [0, lent.bytes.len() as u64, 0, lent.spare.len() as u64],
            None => [self.call.length, self.call.bytes_length, *count, self.call.spare_length],
        }
    }

    fn spare(&self, random: &mut Random) -> Vec<u8> {
        if let Fill::Written(n) = self.fill {
            return WRITTEN[n].spare.to_vec();
        }
        self.random_bytes(self.call.spare_length, random)
    }

    /// Random ones, but none for a job, which is made last.
    fn random_bytes(&self, claimed: u64, random: &mut Random) -> Vec<u8> {
        let mut bytes = vec![0; if self.sent.is_some() { 0 } else { lent_length(claimed) }];
        random.fill(&mut bytes);
        bytes
    }

    fn stripe(&self, second: &Second, random: &mut Random) -> Vec<u8> {
        let cell = self.call.shape.cell as usize;
        let mut stripe = vec![0; lent_length(self.call.length)];
        match self.fill {
            Fill::Written(n) => stripe.copy_from_slice(WRITTEN[n].before),
            Fill::LoneByteInCell(n) => stripe[n * cell + random.below(cell)] = random.nonzero_byte(),
            Fill::Random => random.fill(&mut stripe),
            _ => {
                let shelf = second.shelf(self.call.shape).expect("a good shape");
                random.fill(&mut stripe);
                shelf.encode(cell, &mut stripe).expect("zeros stay");
                self.fill.damage(shelf, cell, &mut stripe, random);
            }
        }
        stripe
    }

    fn new_bytes(&self, second: &Second, stripe: &[u8], random: &mut Random) -> Vec<u8> {
        let Call { row, column, .. } = self.call;
        let mut bytes = self.random_bytes(self.call.bytes_length, random);
        if let Fill::Written(n) = self.fill {
            bytes = WRITTEN[n].bytes.to_vec();
        }
        if self.new == New::Random {
            return bytes;
        }
        if let Ok(shelf) = (self.row.granted)(second, &self.call, &[]) {
            let start = shelf.start((row as usize, column as usize), bytes.len());
            bytes = stripe[start..start + bytes.len()].to_vec();
        }
        if self.new == New::OneByte && !bytes.is_empty() {
            let (any, last) = (random.below(bytes.len()), bytes.len() - 1);
            bytes[random.one_of(&[0, any, last])] ^= random.nonzero_byte();
        }
        bytes
    }

    /// The answer, where it is known without computing.
    pub fn known(&self, second: &Second) -> Option<Answer> {
        let shelf = (self.row.granted)(second, &self.call, &[]).ok()?;
        (self.row.known)(self, shelf).filter(|_| self.lost.odd == Odd::Nothing)
    }
}
