//! The second program: the calls as the scope document words them, simple and
//! slow, and made without a look at the library. It knows calls, lent bytes and
//! answers, and nothing of the cases.

pub mod balance;
pub mod call;
pub mod encode;
pub mod job;
pub mod layout;
pub mod lost;
pub mod rebuild;
pub mod shapes;
pub mod shelf;
pub mod spare;
pub mod write;
