//! The table of calls. A new call is a row here, its rules in second/, its cases in
//! cases/, and a case of the bridge's `carry_out`.

use crate::cases::balance::known_balanced;
use crate::cases::case::Row;
use crate::cases::loans::{BYTES, LOST, SPARE, STRIPE};
use crate::cases::{findings, jobs, rebuilds, runs, writes};
use crate::second::call::{Answer, Lent, Operation, CLEAN, COLUMN, UNEXPLAINED};
use crate::second::{balance, encode, job, rebuild, spare, write};

/// In the order of the calls' numbers. Cases come in this order too: the listed ones, and
/// the random ones by their shares.
pub static CALLS: &[Row] = &[
    Row {
        operation: encode::ENCODE,
        name: "encode",
        refusals: &[1, 2, 14, 4, 5],
        answer: encode::encode,
        writes: the_stripe,
        list: |cases| cases.encodes(),
        random: |cases| cases.random_encode(),
        share: 2,
        ..ON_STRIPE
    },
    // Its cases come with those of encode.
    Row {
        operation: encode::BROKEN,
        name: "broken",
        refusals: &[1, 2, 14, 4, 5],
        answer: encode::broken,
        ..ON_STRIPE
    },
    Row {
        operation: write::WRITE,
        name: "write",
        refusals: &[1, 2, 14, 4, 5, 6, 7, 8],
        granted: write::granted,
        answer: write::write,
        lends: &[STRIPE, BYTES],
        writes: the_stripe,
        known: writes::known,
        list: |cases| cases.writes(),
        random: |cases| cases.random_write(),
        share: 1,
        ..ON_STRIPE
    },
    Row {
        operation: rebuild::REBUILD_CELLS,
        name: "rebuild cells",
        refusals: &[1, 2, 14, 4, 5, 6, 11, 12],
        granted: rebuild::cells_granted,
        answer: rebuild::cells,
        lends: &[STRIPE, LOST],
        writes: the_stripe,
        known: rebuilds::known_cells,
        back: rebuilds::back,
        list: |cases| cases.rebuilds(),
        random: |cases| cases.random_rebuild(),
        share: 2,
        ..ON_STRIPE
    },
    // Its cases come with those of rebuild cells.
    Row {
        operation: rebuild::REBUILD_COLUMNS,
        name: "rebuild columns",
        refusals: &[1, 2, 14, 4, 5, 6, 12],
        granted: rebuild::columns_granted,
        answer: rebuild::columns,
        writes: the_stripe,
        known: rebuilds::known_columns,
        back: rebuilds::back,
        ..ON_STRIPE
    },
    Row {
        operation: rebuild::BAD_COLUMN,
        name: "bad column",
        findings: &[CLEAN, COLUMN, UNEXPLAINED],
        refusals: &[1, 2, 14, 4, 5],
        answer: rebuild::bad_column,
        known: findings::known,
        list: |cases| cases.findings(),
        random: |cases| cases.random_finding(),
        share: 1,
        ..ON_STRIPE
    },
    // Its random cases come with those of show.
    Row {
        operation: spare::PLAN,
        name: "plan",
        refusals: &[1, 2, 14, 3, 4, 6],
        granted: spare::plan_granted,
        answer: spare::plan,
        lends: &[],
        known: runs::known_plan,
        list: |cases| cases.plans(),
        ..OF_RDP
    },
    Row {
        operation: spare::RUN,
        name: "run",
        refusals: &[1, 2, 14, 3, 4, 5, 6, 9],
        granted: spare::run_granted,
        answer: spare::run,
        writes: |answer, _| (answer.count > 0).then_some(SPARE),
        back: runs::back,
        list: |cases| cases.runs(),
        random: |cases| cases.random_run(),
        share: 1,
        ..OF_RDP
    },
    Row {
        operation: spare::SHOW,
        name: "show",
        refusals: &[1, 2, 14, 3, 4, 5, 6, 10],
        granted: spare::show_granted,
        answer: spare::show,
        seals: &[STRIPE, SPARE],
        reads: false,
        list: |cases| cases.shows(),
        random: |cases| cases.random_plan_or_show(),
        share: 1,
        ..OF_RDP
    },
    Row {
        operation: job::JOB,
        name: "job",
        refusals: &[1, 2, 4, 5, 6, 11, 12, 13],
        granted: rebuild::cells_granted,
        answer: job::job,
        lends: &[BYTES, SPARE],
        seals: &[BYTES],
        writes: |answer, lent| (answer.length <= lent.spare.len() as u64).then_some(SPARE),
        known: jobs::known,
        back: jobs::back,
        list: |cases| cases.jobs(),
        random: |cases| cases.random_job(),
        share: 1,
        ..ON_STRIPE
    },
    // Runs by balanced plans are among its cases.
    Row {
        operation: balance::BALANCED_PLAN,
        name: "balanced plan",
        refusals: &[1, 2, 14, 3, 15, 4, 6],
        granted: balance::granted,
        answer: balance::balanced_plan,
        lends: &[],
        known: known_balanced,
        list: |cases| cases.balanced_plans(),
        random: |cases| cases.random_balanced(),
        share: 1,
        ..OF_RDP
    },
];

/// A call on a stripe of any code that only reads it, and has no cases of its own.
const ON_STRIPE: Row = Row {
    operation: Operation(0),
    name: "",
    findings: &[0],
    refusals: &[],
    granted: encode::granted,
    answer: |_, _, _| Err("no call".into()),
    lends: &[STRIPE],
    seals: &[],
    reads: true,
    writes: |_, _| None,
    known: |_, _| None,
    back: |_, _, _, _| None,
    list: |_| {},
    random: |_| {},
    share: 0,
};

/// A call that is for RDP with one lost column: it never writes a stripe.
const OF_RDP: Row = Row { lends: &[STRIPE, SPARE], seals: &[STRIPE], ..ON_STRIPE };

fn the_stripe(answer: &Answer, _: &Lent) -> Option<usize> {
    (answer.refusal == 0).then_some(STRIPE)
}

/// The row of a call is found by its number.
const _: () = {
    let mut n = 0;
    while n < CALLS.len() {
        assert!(CALLS[n].operation.0 == n as u64 + 1);
        n += 1;
    }
};
