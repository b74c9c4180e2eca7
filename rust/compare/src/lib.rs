//! The proved library and the independent implementation, side by side: the same calls on the same words, and what each leaves behind.

pub mod calls;
pub mod comparison;
pub mod generate;
pub mod ledger;
pub mod library;
pub mod normal_forms;
pub mod random;
pub mod raw_lists;
