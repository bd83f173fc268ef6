//! How the bytes of a job are made, and how much room there is for its answer.

use crate::random::Random;
use crate::second::call::Shape;
use crate::second::job::USUAL_CELL;

/// A job is made of a shape, a list of lost cells and a stripe, with or without the
/// field of the cell size; then something of it is changed.
#[derive(Clone, Copy, PartialEq, Debug)]
pub struct Sent {
    pub cell_told: bool,
    pub change: Change,
    pub room: Room,
}

/// Fields are named by their tags. `Told` tells a length that is so much more than there
/// is, `Long` makes the content so long and tells that. Cut bytes are the first so many
/// only, and more bytes come after the last field. A mutation changes, inserts or
/// removes a byte, or cuts.
#[derive(Clone, Copy, PartialEq, Debug)]
pub enum Change {
    Nothing,
    Without(u8),
    Twice(u8),
    Swapped(u8, u8),
    Tag(u8, u8),
    Told(u8, i32),
    LowFirst(u8),
    Long(u8, usize),
    Cut(usize),
    More(usize),
    Mutated(usize),
}

/// The room for the answer: as long as it is, some bytes more or less, or so many.
#[derive(Clone, Copy, PartialEq, Debug)]
pub enum Room {
    Enough,
    More(usize),
    Less(usize),
    Of(usize),
}

struct Field {
    tag: u8,
    told: u16,
    content: Vec<u8>,
}

impl Field {
    fn new(tag: u8, content: Vec<u8>) -> Field {
        Field { tag, told: content.len() as u16, content }
    }

    fn bytes(&self) -> Vec<u8> {
        let [high, low] = self.told.to_be_bytes();
        [&[self.tag, high, low], &self.content[..]].concat()
    }
}

impl Sent {
    pub const PLAIN: Sent = Sent { cell_told: true, change: Change::Nothing, room: Room::Enough };

    /// Whether what is sent says what it was made of.
    pub fn is_plain(&self, shape: Shape) -> bool {
        self.change == Change::Nothing && (self.cell_told || shape.cell == USUAL_CELL)
    }

    pub fn bytes(&self, shape: Shape, lost: &[u64], stripe: &[u8], random: &mut Random) -> Vec<u8> {
        let numbers = lost.iter().flat_map(|&n| (n as u16).to_be_bytes()).collect();
        let mut fields = vec![
            Field::new(1, vec![shape.code as u8]),
            Field::new(2, vec![shape.p as u8]),
            Field::new(3, (shape.cell as u16).to_be_bytes().to_vec()),
            Field::new(4, numbers),
            Field::new(5, stripe.to_vec()),
        ];
        if !self.cell_told {
            fields.remove(2);
        }
        self.change.fields(&mut fields);
        let mut bytes = fields.iter().flat_map(Field::bytes).collect();
        self.change.bytes(&mut bytes, random);
        bytes
    }
}

impl Change {
    fn fields(self, fields: &mut Vec<Field>) {
        let place = |tag: u8| fields.iter().position(|field| field.tag == tag);
        match self {
            Change::Without(tag) => fields.retain(|field| field.tag != tag),
            Change::Twice(tag) => {
                if let Some(at) = place(tag) {
                    let again = Field::new(tag, fields[at].content.clone());
                    fields.insert(at, again);
                }
            }
            Change::Swapped(one, other) => {
                if let (Some(a), Some(b)) = (place(one), place(other)) {
                    fields.swap(a, b);
                }
            }
            Change::Tag(tag, _) | Change::Told(tag, _) | Change::LowFirst(tag) | Change::Long(tag, _) => {
                fields.iter_mut().filter(|field| field.tag == tag).for_each(|field| self.field(field));
            }
            Change::Nothing | Change::Cut(_) | Change::More(_) | Change::Mutated(_) => {}
        }
    }

    fn field(self, field: &mut Field) {
        match self {
            Change::Tag(_, tag) => field.tag = tag,
            Change::Told(_, more) => field.told = (field.told as i32 + more) as u16,
            Change::LowFirst(_) => field.told = field.told.swap_bytes(),
            Change::Long(tag, length) => {
                let content = field.content.iter().copied().chain(field.content.is_empty().then_some(0));
                *field = Field::new(tag, content.cycle().take(length).collect());
            }
            _ => {}
        }
    }

    fn bytes(self, bytes: &mut Vec<u8>, random: &mut Random) {
        match self {
            Change::Cut(length) => bytes.truncate(length),
            Change::More(length) => {
                let mut more = vec![0; length];
                random.fill(&mut more);
                bytes.extend(more);
            }
            Change::Mutated(times) => (0..times).for_each(|_| mutate(bytes, random)),
            _ => {}
        }
    }
}

/// More often than elsewhere among the first bytes, where the heads of the fields are.
fn mutate(bytes: &mut Vec<u8>, random: &mut Random) {
    let end = if random.below(2) == 0 { bytes.len().min(24) } else { bytes.len() };
    let at = random.below(end + 1);
    match random.below(10) {
        0 => bytes.truncate(at),
        1 | 2 => bytes.insert(at, random.below(8) as u8),
        3 => bytes.insert(at, random.number() as u8),
        _ if at == bytes.len() => {}
        4 | 5 => drop(bytes.remove(at)),
        6 => bytes[at] = bytes[at].wrapping_add(1),
        7 => bytes[at] = bytes[at].wrapping_sub(1),
        8 => bytes[at] ^= 1 << random.below(8),
        _ => bytes[at] = random.number() as u8,
    }
}

impl Room {
    /// For an answer of so many bytes.
    pub fn size(self, length: usize) -> usize {
        match self {
            Room::Enough => length,
            Room::More(more) => length + more,
            Room::Less(less) => length.saturating_sub(less),
            Room::Of(size) => size,
        }
    }
}
