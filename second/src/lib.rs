//! A second implementation of the flowgate settlement, written from documents 01 and
//! 02 alone. The proved programs are compared with it, input by input, and timed
//! beside it.

pub mod bigint;
pub mod content;
pub mod content_rows;
pub mod draft;
pub mod due;
pub mod entitlement;
pub mod exact;
pub mod explain;
pub mod flow;
pub mod fraction;
pub mod generation_to_load;
pub mod hour;
pub mod lake;
pub mod layout;
pub mod listing;
pub mod names;
pub mod payment;
pub mod reader;
pub mod refusal;
pub mod rows;
pub mod settle;
pub mod sheet;
pub mod units;
pub mod writer;

pub use content::Content;
pub use explain::{Explanation, Reason, explain, explained};
pub use hour::Hour;
pub use listing::{listing, printed, report};
pub use names::Name;
pub use refusal::Refusal;
pub use settle::{Statement, settle};
pub use writer::write;
