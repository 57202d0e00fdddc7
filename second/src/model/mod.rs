//! The model: what is lent, what each call answers and writes, and what the
//! program `steps` prints. It knows nothing of the other folders.

pub mod block;
pub mod call;
pub mod outcome;
pub mod record;
pub mod refusal;
pub mod slot;
pub mod steps;
pub mod table;
