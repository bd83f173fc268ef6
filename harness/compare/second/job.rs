//! The second program's job: reads the fields, rebuilds and writes the answer.

use crate::second::call::{Answer, Call, Lent, Operation, Shape};
use crate::second::rebuild::{self, REBUILD_CELLS};
use crate::second::shapes::Second;

pub const JOB: Operation = Operation(10);

/// What the fields of a job say.
struct Job {
    shape: Shape,
    lost: Vec<u64>,
    stripe: Vec<u8>,
}

const MOST_LOST: usize = 2048;
const MOST_BYTES: usize = 32_768;
const NO_JOB: u8 = 13;

/// The cell size of a job that doesn't tell it.
pub const USUAL_CELL: u64 = 1024;

/// Tag and content of each field, of bytes that are fields to the end.
fn fields(mut bytes: &[u8]) -> Option<Vec<(u8, &[u8])>> {
    let mut fields = Vec::new();
    while !bytes.is_empty() {
        let (head, rest) = bytes.split_at_checked(3)?;
        let (content, rest) = rest.split_at_checked(number(&head[1..]) as usize)?;
        fields.push((head[0], content));
        bytes = rest;
    }
    Some(fields)
}

/// Of two bytes, high byte first.
fn number(bytes: &[u8]) -> u64 {
    bytes[0] as u64 * 256 + bytes[1] as u64
}

fn read(bytes: &[u8]) -> Option<Job> {
    let (code, p, cell, lost, stripe) = match fields(bytes)?[..] {
        [(1, code), (2, p), (3, cell), (4, lost), (5, stripe)] => (code, p, Some(cell), lost, stripe),
        [(1, code), (2, p), (4, lost), (5, stripe)] => (code, p, None, lost, stripe),
        _ => return None,
    };
    let sizes = [code.len() == 1, p.len() == 1, cell.is_none_or(|cell| cell.len() == 2)];
    let lists = [lost.len() % 2 == 0, lost.len() / 2 <= MOST_LOST, stripe.len() <= MOST_BYTES];
    if sizes.contains(&false) || lists.contains(&false) {
        return None;
    }
    let cell = cell.map_or(USUAL_CELL, number);
    let shape = Shape::new(code[0] as u64, p[0] as u64, cell);
    Some(Job { shape, lost: lost.chunks(2).map(number).collect(), stripe: stripe.to_vec() })
}

/// What a job is answered.
pub fn answer(second: &Second, bytes: &[u8]) -> Result<Vec<u8>, String> {
    let Some(Job { shape, lost, stripe }) = read(bytes) else {
        return Ok(vec![6, 0, 1, NO_JOB]);
    };
    let call = Call::new(REBUILD_CELLS, shape, stripe.len() as u64);
    let mut lent = Lent { stripe, bytes: Vec::new(), lost, spare: Vec::new() };
    let refusal = rebuild::cells(second, &call, &mut lent)?.refusal;
    let mut answer = vec![6, 0, 1, refusal as u8];
    if refusal == 0 {
        answer.extend([5, (lent.stripe.len() / 256) as u8, (lent.stripe.len() % 256) as u8]);
        answer.extend(lent.stripe);
    }
    Ok(answer)
}

/// Puts the answer where there is room for it.
pub fn job(second: &Second, _: &Call, lent: &mut Lent) -> Result<Answer, String> {
    let answer = answer(second, &lent.bytes)?;
    let room = answer.len() <= lent.spare.len();
    if room {
        lent.spare[..answer.len()].copy_from_slice(&answer);
    }
    Ok(Answer::answered(if room { answer[3] as u64 } else { 0 }, answer.len() as u64))
}
