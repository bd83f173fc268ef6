//! What is said of a difference.

use crate::cases::case::{Case, Filled, New, Pieces};
use crate::cases::lists::Lost;
use crate::cases::loans::{Loan, Place, BUFFERS};
use crate::second::call::Answer;

/// The names of the buffers that a case lends.
pub fn buffers(case: &Case) -> [&'static str; BUFFERS] {
    match case.sent {
        Some(_) => ["stripe", "job", "list of lost cells", "output"],
        None => ["stripe", "new bytes", "list of lost cells", "spare"],
    }
}

pub fn same_answer(who: &str, expected: Answer, came: Answer) -> Result<(), String> {
    if expected == came {
        return Ok(());
    }
    Err(format!("expected {expected}, {who} {came}"))
}

pub fn same_bytes(who: &str, what: &str, case: &Case, expected: &[u8], came: &[u8]) -> Result<(), String> {
    if expected == came {
        return Ok(());
    }
    let at = expected.iter().zip(came).take_while(|(expected, came)| expected == came).count();
    let byte = |bytes: &[u8]| bytes.get(at).map_or("nothing".into(), |byte| format!("{byte:02X}"));
    let cell = case.call.shape.cell.max(1);
    let place = match case.sent {
        Some(_) => format!("{what}: byte {at}"),
        None => format!("{what}: byte {at} (cell {}, its byte {})", at as u64 / cell, at as u64 % cell),
    };
    Err(format!("{place}: expected {}, {who} {}", byte(expected), byte(came)))
}

/// The one line about a call: the numbers that aren't 0, how the buffers are lent and
/// filled, and what was found.
pub fn difference(case: &Case, filled: &Filled, found: &str, replay: &str) -> String {
    let numbers = case.call.numbers().into_iter().filter(|(_, n)| *n != 0);
    let mut told: Vec<String> = numbers.map(|(name, n)| format!("{name}={n}")).collect();
    let loans = case.loans.iter().zip(buffers(case)).zip(case.claimed(filled));
    let lent = loans.filter(|((loan, _), claimed)| loan.place != Place::Null || *claimed != 0);
    told.extend(lent.map(|((loan, name), claimed)| format!("{name} of {claimed} ({})", lies(loan))));
    told.push(format!("{:?}", case.fill));
    told.extend((case.new != New::Random).then(|| format!("{:?}", case.new)));
    told.extend((case.lost != Lost::NONE).then(|| format!("{:?}", case.lost)));
    told.extend((case.pieces != Pieces::One).then(|| format!("pieces {:?}", case.pieces)));
    told.extend((!filled.lent.lost.is_empty()).then(|| format!("lost {}", shortened(&filled.lent.lost))));
    told.extend(case.sent.map(|sent| format!("{sent:?} {}", in_hexadecimal(&filled.lent.bytes))));
    format!("DIFFERENT: {} {}: {found}; replay: {replay}", case.row.name, told.join(", "))
}

fn lies(loan: &Loan) -> String {
    format!("{:?}{}", loan.place, if loan.sealed { ", sealed" } else { "" })
}

fn shortened(list: &[u64]) -> String {
    match list.get(..64) {
        Some(start) if list.len() > 64 => format!("{start:?} and so on"),
        _ => format!("{list:?}"),
    }
}

/// The first bytes, where there are many.
pub fn in_hexadecimal(bytes: &[u8]) -> String {
    let shown: Vec<String> = bytes.iter().take(80).map(|byte| format!("{byte:02X}")).collect();
    let rest = if bytes.len() > 80 { " and so on" } else { "" };
    format!("({} bytes) {}{rest}", bytes.len(), shown.join(" "))
}
