//! Stripes to try, with the answers that are known: the scope document's, and others made by
//! hand for what the requests after it ask.

use crate::cases::case::Cases;
use crate::cases::fields::Sent;
use crate::cases::fills::Fill;
use crate::cases::loans::LOST;
use crate::cases::shapes::NO_CODE;
use crate::second::balance::BALANCED_PLAN;
use crate::second::call::{Answer, Call, Operation, Shape, CLEAN, COLUMN, UNEXPLAINED};
use crate::second::encode::{BROKEN, ENCODE};
use crate::second::job::JOB;
use crate::second::rebuild::{BAD_COLUMN, REBUILD_CELLS, REBUILD_COLUMNS};
use crate::second::spare::{PLAN, RUN, SHOW};
use crate::second::write::WRITE;

impl Cases<'_> {
    pub fn written(&mut self) {
        for (n, written) in WRITTEN.iter().enumerate() {
            let mut case = self.case(written.call, Fill::Written(n));
            case.loans[LOST].place = self.list_place(written.lost.is_empty());
            case.sent = (written.call.operation == JOB).then_some(Sent::PLAIN);
            self.list.push(case);
        }
    }
}

pub struct Written {
    pub call: Call,
    pub before: &'static [u8],
    pub bytes: &'static [u8],
    pub lost: &'static [u64],
    pub answer: Answer,
    pub after: &'static [u8],
    pub spare: &'static [u8],
    pub spare_after: &'static [u8],
}

const P1: [u8; 8] = [0x01, 0x04, 0x02, 0x08, 0x03, 0x0C, 0x0D, 0x06];
const P1_JUNK: [u8; 8] = [0x01, 0x04, 0x02, 0x08, 0xEE, 0xEE, 0xEE, 0xEE];
const P2: [u8; 8] = [0x01, 0x02, 0x0A, 0x04, 0x08, 0x05, 0x09, 0x06];
const P2_JUNK: [u8; 8] = [0x01, 0x02, 0xEE, 0x04, 0x08, 0xEE, 0xEE, 0xEE];
const P3: [u8; 9] = [0x01, 0x04, 0x02, 0x02, 0x01, 0x04, 0x04, 0x02, 0x01];
const P3_JUNK: [u8; 9] = [0x01, 0xEE, 0xEE, 0x02, 0xEE, 0xEE, 0x04, 0xEE, 0xEE];
const P4: [u8; 8] = [0x05, 0x04, 0x02, 0x08, 0x07, 0x0C, 0x09, 0x06];
const P5: [u8; 8] = [0x01, 0x00, 0x02, 0x08, 0x03, 0x08, 0x09, 0x02];
const P9: [u8; 8] = [0x00, 0x04, 0x03, 0x08, 0x03, 0x0C, 0x0D, 0x06];
const P10: [u8; 8] = [0x00, 0x04, 0x02, 0x0A, 0x03, 0x0C, 0x0D, 0x06];
const JOB_STRIPE: [u8; 8] = [0xEE, 0xEE, 0x02, 0x08, 0x03, 0x0C, 0x0D, 0x06];
pub const JOB_BYTES: [u8; 31] = [
    0x01, 0x00, 0x01, 0x01, 0x02, 0x00, 0x01, 0x03, 0x03, 0x00, 0x02, 0x00, 0x01, 0x04, 0x00, 0x04, 0x00,
    0x00, 0x00, 0x01, 0x05, 0x00, 0x08, 0xEE, 0xEE, 0x02, 0x08, 0x03, 0x0C, 0x0D, 0x06,
];
pub const JOB_ANSWER: [u8; 15] =
    [0x06, 0x00, 0x01, 0x00, 0x05, 0x00, 0x08, 0x01, 0x04, 0x02, 0x08, 0x03, 0x0C, 0x0D, 0x06];

/// An encoded stripe of RDP for p = 5, and what P6 and P7 lose of it: (1,1), (1,4),
/// (2,5), (0,5); (0,0), (0,4), (0,5); (0,0), (0,4), (1,5).
const RDP_5: [u8; 24] = [
    0x01, 0x02, 0x04, 0x08, 0x10, 0x20, 0x40, 0x80, 0x03, 0x06, 0x0C, 0x18, 0x30, 0x60, 0xC0, 0x81, 0x22,
    0x44, 0x88, 0x11, 0x9D, 0x1B, 0x36, 0x7E,
];
const P6_LOST: [u64; 4] = [5, 17, 22, 20];
const P7_LOST: [u64; 3] = [0, 16, 20];
const P7_DETERMINED: [u64; 3] = [0, 16, 21];
const P7_JUNK: [u8; 24] = {
    let mut stripe = RDP_5;
    stripe[0] = 0xEE;
    stripe[16] = 0xEE;
    stripe[21] = 0xEE;
    stripe
};

/// An encoded stripe of RDP for p = 5 with two data columns, with junk in its parity and
/// with its data columns lost, and with its row parity column altered.
const SHORT: [u8; 16] =
    [0x01, 0x02, 0x04, 0x08, 0x10, 0x20, 0x40, 0x80, 0x11, 0x22, 0x44, 0x88, 0x23, 0x56, 0xAC, 0x48];
const SHORT_JUNK: [u8; 16] =
    [0x01, 0x02, 0x04, 0x08, 0x10, 0x20, 0x40, 0x80, 0xEE, 0xEE, 0xEE, 0xEE, 0xEE, 0xEE, 0xEE, 0xEE];
const SHORT_LOST: [u8; 16] =
    [0xEE, 0xEE, 0xEE, 0xEE, 0xEE, 0xEE, 0xEE, 0xEE, 0x11, 0x22, 0x44, 0x88, 0x23, 0x56, 0xAC, 0x48];
const SHORT_ALTERED: [u8; 16] =
    [0x01, 0x02, 0x04, 0x08, 0x10, 0x20, 0x40, 0x80, 0x12, 0x22, 0x44, 0x98, 0x23, 0x56, 0xAC, 0x48];

/// An encoded stripe of EVENODD for p = 3, with junk in its parity and with two columns lost,
/// and a job that asks for these.
const EVENODD: [u8; 10] = [0x01, 0x02, 0x04, 0x08, 0x10, 0x20, 0x15, 0x2A, 0x39, 0x1E];
const EVENODD_JUNK: [u8; 10] = [0x01, 0x02, 0x04, 0x08, 0x10, 0x20, 0xEE, 0xEE, 0xEE, 0xEE];
const EVENODD_LOST: [u8; 10] = [0x01, 0x02, 0xEE, 0xEE, 0xEE, 0xEE, 0x15, 0x2A, 0x39, 0x1E];
const EVENODD_JOB: [u8; 37] = [
    0x01, 0x00, 0x01, 0x04, 0x02, 0x00, 0x01, 0x03, 0x03, 0x00, 0x02, 0x00, 0x01, 0x04, 0x00, 0x08, 0x00,
    0x02, 0x00, 0x03, 0x00, 0x04, 0x00, 0x05, 0x05, 0x00, 0x0A, 0x01, 0x02, 0xEE, 0xEE, 0xEE, 0xEE, 0x15,
    0x2A, 0x39, 0x1E,
];
const EVENODD_ANSWER: [u8; 17] =
    [0x06, 0x00, 0x01, 0x00, 0x05, 0x00, 0x0A, 0x01, 0x02, 0x04, 0x08, 0x10, 0x20, 0x15, 0x2A, 0x39, 0x1E];

/// What small writes make of it, two on the diagonal of S and two off it; and the stripe with a
/// cell altered on that diagonal, and with one on it and one off it.
const EVENODD_ON: [u8; 10] = [0x01, 0x02, 0x04, 0x00, 0x10, 0x20, 0x15, 0x22, 0x31, 0x16];
const EVENODD_ON_TOO: [u8; 10] = [0x01, 0x02, 0x04, 0x08, 0x00, 0x20, 0x05, 0x2A, 0x29, 0x0E];
const EVENODD_OFF: [u8; 10] = [0x00, 0x02, 0x04, 0x08, 0x10, 0x20, 0x14, 0x2A, 0x38, 0x1E];
const EVENODD_OFF_TOO: [u8; 10] = [0x01, 0x02, 0x04, 0x08, 0x10, 0x00, 0x15, 0x0A, 0x19, 0x1E];
const EVENODD_ALTERED: [u8; 10] = [0x01, 0x02, 0x04, 0x00, 0x10, 0x20, 0x15, 0x2A, 0x39, 0x1E];
const EVENODD_BOTH: [u8; 10] = [0x00, 0x02, 0x04, 0x0A, 0x10, 0x20, 0x15, 0x2A, 0x39, 0x1E];

/// A spare for p = 5 with junk in it, and columns 0, 1 and 5 of that stripe.
const SPARE: [u8; 4] = [0xEE; 4];
const COLUMN_0: [u8; 4] = [0x01, 0x02, 0x04, 0x08];
const COLUMN_1: [u8; 4] = [0x10, 0x20, 0x40, 0x80];
const COLUMN_5: [u8; 4] = [0x9D, 0x1B, 0x36, 0x7E];

pub static WRITTEN: &[Written] = &[
    encoded(1, &P1_JUNK, &P1),
    encoded(2, &P2_JUNK, &P2),
    encoded(3, &P3_JUNK, &P3),
    encoded(1, &P1, &P1),
    encoded(2, &P2, &P2),
    encoded(3, &P3, &P3),
    counted(1, &P1, 0),
    counted(2, &P2, 0),
    counted(3, &P3, 0),
    counted(1, &P10, 3),
    changed(1, &P1, (0, 0), &[0x05], &P4, 2),
    changed(1, &P1, (1, 0), &[0x00], &P5, 3),
    changed(1, &P1, (1, 0), &[0x04], &P1, 3),
    lost_of(1, 5, &RDP_5, &P6_LOST, 11, &RDP_5),
    lost_of(1, 5, &RDP_5, &P7_LOST, 11, &RDP_5),
    lost_of(1, 5, &P7_JUNK, &P7_DETERMINED, 0, &RDP_5),
    found(1, &P9, COLUMN, 3),
    found(1, &P10, UNEXPLAINED, 0),
    found(1, &P1, CLEAN, 0),
    found(2, &P2, CLEAN, 0),
    found(3, &P3, CLEAN, 0),
    // Two whole columns and one more cell; all cells.
    lost_of(1, 3, &P1, &[0, 1, 2, 3, 4], 11, &P1),
    lost_of(2, 3, &P2, &[0, 1, 4, 5, 7], 11, &P2),
    lost_of(3, 3, &P3, &[3, 4, 5, 6, 7, 8, 1], 11, &P3),
    lost_of(1, 3, &P1, &[0, 1, 2, 3, 4, 5, 6, 7], 11, &P1),
    lost_of(2, 3, &P2, &[0, 1, 2, 3, 4, 5, 6, 7], 11, &P2),
    lost_of(3, 3, &P3, &[0, 1, 2, 3, 4, 5, 6, 7, 8], 11, &P3),
    // The job's stripe and lost cells; column 0 is the same; the empty list.
    lost_of(1, 3, &JOB_STRIPE, &[0, 1], 0, &P1),
    columns_of(1, &JOB_STRIPE, [0, 0], 0, &P1),
    columns_of(1, &JOB_STRIPE, [3, 0], 0, &P1),
    lost_of(1, 3, &P1, &[], 0, &P1),
    lost_of(1, 3, &P10, &[], 12, &P10),
    // P8, and what its plans and refused plans do; column 0 has no row that is forced.
    planned(1, 3, 12),
    planned(5, 15, 16),
    rebuilt(1, 3, 4, &COLUMN_1),
    rebuilt(5, 15, 4, &COLUMN_5),
    rebuilt(0, 15, 4, &COLUMN_0),
    rebuilt(1, 3, 1, &[0x10, 0xEE, 0xEE, 0xEE]),
    refused_plan(1, 8),
    refused_plan(1, 16),
    refused_plan(5, 7),
    job(1, &JOB_BYTES, &JOB_ANSWER),
    // A shelf with fewer disks, for p = 5 with two data columns.
    short(Written { after: &SHORT, ..still(ENCODE, 1, 5, &SHORT_JUNK, Answer::refused(0)) }),
    short(still(BROKEN, 1, 5, &SHORT, Answer::counted(0))),
    short(still(BROKEN, 1, 5, &SHORT_ALTERED, Answer::counted(3))),
    short(still(BAD_COLUMN, 1, 5, &SHORT, Answer::found(CLEAN, 0))),
    short(still(BAD_COLUMN, 1, 5, &SHORT_ALTERED, Answer::found(COLUMN, 2))),
    short(lost_of(1, 5, &SHORT_LOST, &[0, 1, 2, 3, 4, 5, 6, 7], 0, &SHORT)),
    short(lost_of(1, 5, &SHORT, &[0, 1, 2, 3, 4, 5, 6, 7, 8], 11, &SHORT)),
    short(lost_of(1, 5, &SHORT, &[16], 6, &SHORT)),
    short(planned(0, 3, 8)),
    short(planned(1, 3, 7)),
    short(planned(2, 6, 7)),
    short(planned(3, 15, 10)),
    short(refused_column(4)),
    // An m of all data columns, and one that isn't given; and the first refusal that comes.
    told(1, 4, lost_of(1, 5, &P7_JUNK, &P7_DETERMINED, 0, &RDP_5)),
    told(0, u64::MAX, lost_of(1, 5, &P7_JUNK, &P7_DETERMINED, 0, &RDP_5)),
    told(1, 0, still(ENCODE, 1, 5, &RDP_5, Answer::refused(14))),
    told(1, 5, still(ENCODE, 1, 5, &RDP_5, Answer::refused(14))),
    told(u64::MAX, u64::MAX, still(ENCODE, 1, 5, &RDP_5, Answer::refused(14))),
    told(1, 2, still(ENCODE, 2, 3, &P2, Answer::refused(14))),
    told(1, 2, still(ENCODE, 3, 3, &P3, Answer::refused(14))),
    told(1, 2, still(PLAN, 2, 3, &[], Answer::refused(14))),
    told(0, 2, still(PLAN, 2, 3, &[], Answer::refused(3))),
    told(1, 0, refused(ENCODE, 9, 1, 2)),
    told(1, 0, refused(ENCODE, 3, 0, 14)),
    told(1, 2, refused(ENCODE, 3, 0, 4)),
    // EVENODD, and a code that there isn't.
    encoded(4, &EVENODD_JUNK, &EVENODD),
    encoded(4, &EVENODD, &EVENODD),
    counted(4, &EVENODD, 0),
    counted(4, &EVENODD_ALTERED, 3),
    counted(4, &EVENODD_BOTH, 4),
    changed(4, &EVENODD, (1, 1), &[0x00], &EVENODD_ON, 3),
    changed(4, &EVENODD, (0, 2), &[0x00], &EVENODD_ON_TOO, 3),
    changed(4, &EVENODD, (0, 0), &[0x00], &EVENODD_OFF, 2),
    changed(4, &EVENODD, (1, 2), &[0x00], &EVENODD_OFF_TOO, 2),
    changed(4, &EVENODD, (1, 2), &[0x20], &EVENODD, 2),
    unwritten((0, 3), 7),
    unwritten((1, 4), 7),
    unwritten((2, 0), 6),
    unwritten((0, 5), 6),
    found(4, &EVENODD, CLEAN, 0),
    found(4, &EVENODD_ALTERED, COLUMN, 1),
    found(4, &EVENODD_BOTH, UNEXPLAINED, 0),
    columns_of(4, &EVENODD_LOST, [2, 1], 0, &EVENODD),
    columns_of(4, &EVENODD_JUNK, [3, 4], 0, &EVENODD),
    columns_of(4, &EVENODD_ALTERED, [1, 1], 0, &EVENODD),
    columns_of(4, &EVENODD_ALTERED, [4, 4], 12, &EVENODD_ALTERED),
    columns_of(4, &EVENODD, [0, 5], 6, &EVENODD),
    lost_of(4, 3, &EVENODD_LOST, &[2, 3, 4, 5], 0, &EVENODD),
    lost_of(4, 3, &EVENODD, &[2, 3, 4, 5, 9], 11, &EVENODD),
    lost_of(4, 3, &EVENODD, &[0, 1, 2, 3, 4, 5, 6, 7, 8, 9], 11, &EVENODD),
    lost_of(4, 3, &EVENODD_ALTERED, &[9], 12, &EVENODD_ALTERED),
    lost_of(4, 3, &EVENODD, &[10], 6, &EVENODD),
    job(4, &EVENODD_JOB, &EVENODD_ANSWER),
    still(PLAN, 4, 3, &[], Answer::refused(3)),
    still(RUN, 4, 3, &EVENODD, Answer::refused(3)),
    still(SHOW, 4, 3, &EVENODD, Answer::refused(3)),
    told(1, 2, still(PLAN, 4, 3, &[], Answer::refused(14))),
    told(1, 2, still(ENCODE, 4, 3, &EVENODD, Answer::refused(14))),
    told(1, 2, still(RUN, 4, 3, &EVENODD, Answer::refused(14))),
    told(1, 2, still(SHOW, 4, 3, &EVENODD, Answer::refused(14))),
    still(ENCODE, 4, 9, &EVENODD, Answer::refused(2)),
    still(ENCODE, 4, 3, &P3, Answer::refused(5)),
    still(ENCODE, NO_CODE, 3, &EVENODD, Answer::refused(1)),
    still(PLAN, NO_CODE, 3, &[], Answer::refused(1)),
    // Balanced plans: all of p = 3 and p = 7, some of others; and what runs by them do.
    balanced(3, 0, 2, 3),
    balanced(3, 1, 1, 3),
    balanced(3, 2, 2, 3),
    balanced(7, 0, 22, 27),
    balanced(7, 1, 22, 27),
    balanced(7, 2, 44, 27),
    balanced(7, 3, 22, 27),
    balanced(7, 4, 49, 27),
    balanced(7, 5, 44, 27),
    balanced(7, 6, 22, 27),
    balanced(11, 0, 570, 75),
    balanced(11, 1, 233, 75),
    balanced(31, 0, 0x121D_47B6, 675),
    balanced(31, 22, 0x1D47_B624, 675),
    balanced_run(0, 2, &[0x01, 0x04]),
    balanced_run(1, 1, &[0x02, 0x08]),
    balanced_run(2, 2, &[0x03, 0x0C]),
    // All data columns as an m, and an m that isn't given; and the first refusal that comes.
    told(1, 6, balanced(7, 4, 49, 27)),
    told(u64::MAX, 6, balanced(7, 4, 49, 27)),
    told(0, 5, balanced(7, 4, 49, 27)),
    unbalanced(NO_CODE, 9, 7, 1),
    unbalanced(1, 9, 7, 2),
    unbalanced(2, 7, 0, 3),
    unbalanced(3, 5, 5, 3),
    unbalanced(4, 7, 7, 3),
    unbalanced(1, 5, 0, 15),
    unbalanced(1, 5, 5, 15),
    unbalanced(1, 13, 0, 15),
    unbalanced(1, 17, 17, 15),
    unbalanced(1, 29, 0, 15),
    unbalanced(1, 3, 3, 6),
    unbalanced(1, 7, 7, 6),
    unbalanced(1, 7, 8, 6),
    unbalanced(1, 31, 31, 6),
    told(1, 0, unbalanced(1, 9, 0, 2)),
    told(1, 6, unbalanced(2, 7, 0, 14)),
    told(1, 5, unbalanced(1, 7, 0, 14)),
    told(1, 3, unbalanced(1, 7, 7, 14)),
    told(1, 7, unbalanced(1, 7, 0, 14)),
    told(1, 0, unbalanced(1, 7, 0, 14)),
    told(1, 3, unbalanced(1, 5, 0, 14)),
    told(1, 4, unbalanced(1, 5, 5, 15)),
    told(1, 6, unbalanced(1, 7, 7, 6)),
    sized(0, unbalanced(2, 7, 0, 3)),
    sized(0, unbalanced(1, 5, 0, 15)),
    sized(0, unbalanced(1, 7, 7, 4)),
    sized(4097, unbalanced(1, 7, 0, 4)),
    sized(4096, balanced(7, 0, 22, 27)),
    refused(ENCODE, 9, 1, 2),
    refused(ENCODE, 2, 1, 2),
    refused(ENCODE, 33, 1, 2),
    refused(ENCODE, 3, 0, 4),
    refused(ENCODE, 3, 4097, 4),
    refused(BROKEN, 9, 1, 2),
    refused(BROKEN, 3, 4097, 4),
    refused(WRITE, 33, 1, 2),
    refused(WRITE, 3, 0, 4),
    refused(REBUILD_CELLS, 9, 1, 2),
    refused(REBUILD_CELLS, 2, 1, 2),
    refused(REBUILD_CELLS, 33, 1, 2),
    refused(REBUILD_CELLS, 3, 0, 4),
    refused(REBUILD_CELLS, 3, 4097, 4),
    refused(REBUILD_COLUMNS, 9, 1, 2),
    refused(REBUILD_COLUMNS, 2, 1, 2),
    refused(REBUILD_COLUMNS, 33, 1, 2),
    refused(REBUILD_COLUMNS, 3, 0, 4),
    refused(REBUILD_COLUMNS, 3, 4097, 4),
    refused(BAD_COLUMN, 9, 1, 2),
    refused(BAD_COLUMN, 2, 1, 2),
    refused(BAD_COLUMN, 33, 1, 2),
    refused(BAD_COLUMN, 3, 0, 4),
    refused(BAD_COLUMN, 3, 4097, 4),
    refused(RUN, 9, 1, 2),
    refused(RUN, 2, 1, 2),
    refused(RUN, 33, 1, 2),
    refused(RUN, 3, 0, 4),
    refused(RUN, 3, 4097, 4),
];

/// A call with cells of one byte that leaves the stripe as it is.
const fn still(operation: Operation, code: u64, p: u64, stripe: &'static [u8], answer: Answer) -> Written {
    let call = Call::new(operation, Shape::new(code, p, 1), stripe.len() as u64);
    Written {
        call,
        before: stripe,
        bytes: &[],
        lost: &[],
        answer,
        after: stripe,
        spare: &[],
        spare_after: &[],
    }
}

const fn encoded(code: u64, before: &'static [u8], after: &'static [u8]) -> Written {
    Written { after, ..still(ENCODE, code, 3, before, Answer::refused(0)) }
}

const fn counted(code: u64, stripe: &'static [u8], count: u64) -> Written {
    still(BROKEN, code, 3, stripe, Answer::counted(count))
}

const fn found(code: u64, stripe: &'static [u8], finding: u64, column: u64) -> Written {
    still(BAD_COLUMN, code, 3, stripe, Answer::found(finding, column))
}

const fn refused(operation: Operation, p: u64, cell: u64, refusal: u64) -> Written {
    let written = still(operation, 1, 3, &P1, Answer::refused(refusal));
    Written { call: Call { shape: Shape::new(1, p, cell), ..written.call }, ..written }
}

/// A small write for p = 3.
const fn changed(
    code: u64,
    before: &'static [u8],
    (row, column): (u64, u64),
    bytes: &'static [u8],
    after: &'static [u8],
    count: u64,
) -> Written {
    let written = still(WRITE, code, 3, before, Answer::counted(count));
    let call = Call { row, column, bytes_length: bytes.len() as u64, ..written.call };
    Written { call, bytes, after, ..written }
}

/// A small write into the stripe of EVENODD that is refused.
const fn unwritten(position: (u64, u64), refusal: u64) -> Written {
    Written { answer: Answer::refused(refusal), ..changed(4, &EVENODD, position, &[0x00], &EVENODD, 0) }
}

const fn lost_of(
    code: u64,
    p: u64,
    before: &'static [u8],
    lost: &'static [u64],
    refusal: u64,
    after: &'static [u8],
) -> Written {
    Written { lost, after, ..still(REBUILD_CELLS, code, p, before, Answer::refused(refusal)) }
}

/// A rebuild of columns for p = 3.
const fn columns_of(
    code: u64,
    before: &'static [u8],
    columns: [u64; 2],
    refusal: u64,
    after: &'static [u8],
) -> Written {
    let written = still(REBUILD_COLUMNS, code, 3, before, Answer::refused(refusal));
    Written { call: Call { columns, ..written.call }, after, ..written }
}

/// A plan for column k of RDP for p = 5.
const fn planned(k: u64, rows: u64, reads: u64) -> Written {
    let written = still(PLAN, 1, 5, &[], Answer::planned(rows, reads));
    Written { call: Call { k, ..written.call }, ..written }
}

const fn refused_column(k: u64) -> Written {
    Written { answer: Answer::refused(6), ..planned(k, 0, 0) }
}

/// A balanced plan for column k of RDP.
const fn balanced(p: u64, k: u64, rows: u64, reads: u64) -> Written {
    let written = still(BALANCED_PLAN, 1, p, &[], Answer::planned(rows, reads));
    Written { call: Call { k, ..written.call }, ..written }
}

const fn unbalanced(code: u64, p: u64, k: u64, refusal: u64) -> Written {
    let written = still(BALANCED_PLAN, code, p, &[], Answer::refused(refusal));
    Written { call: Call { k, ..written.call }, ..written }
}

/// A run of both rows of column k of RDP for p = 3.
const fn balanced_run(k: u64, plan: u64, column: &'static [u8]) -> Written {
    let written = still(RUN, 1, 3, &P1, Answer::counted(2));
    let call = Call { k, plan, budget: 2, spare_length: 2, ..written.call };
    Written { call, spare: &[0xEE; 2], spare_after: column, ..written }
}

/// With cells of that size.
const fn sized(cell: u64, written: Written) -> Written {
    let shape = Shape { cell, ..written.call.shape };
    Written { call: Call { shape, ..written.call }, ..written }
}

/// With an m told so.
const fn told(data_given: u64, data: u64, written: Written) -> Written {
    let shape = Shape { data_given, data, ..written.call.shape };
    Written { call: Call { shape, ..written.call }, ..written }
}

const fn short(written: Written) -> Written {
    told(1, 2, written)
}

/// A run from row 0 for column k of RDP for p = 5.
const fn ran(k: u64, plan: u64, budget: u64, answer: Answer, spare_after: &'static [u8]) -> Written {
    let written = still(RUN, 1, 5, &RDP_5, answer);
    let call = Call { k, plan, budget, spare_length: SPARE.len() as u64, ..written.call };
    Written { call, spare: &SPARE, spare_after, ..written }
}

const fn rebuilt(k: u64, plan: u64, budget: u64, spare_after: &'static [u8]) -> Written {
    ran(k, plan, budget, Answer::counted(budget), spare_after)
}

const fn refused_plan(k: u64, plan: u64) -> Written {
    ran(k, plan, 4, Answer::refused(9), &SPARE)
}

/// A job for p = 3 that is carried out, with room as long as its answer.
const fn job<const N: usize>(code: u64, bytes: &'static [u8], answer: &'static [u8; N]) -> Written {
    let written = still(JOB, code, 3, &[], Answer::answered(0, N as u64));
    let [bytes_length, spare_length] = [bytes.len() as u64, N as u64];
    let call = Call { bytes_length, spare_length, ..written.call };
    Written { call, bytes, spare: &[0xEE; N], spare_after: answer, ..written }
}
