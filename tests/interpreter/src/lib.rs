//! An interpreter of deposit agreements, made from document 01 alone.

pub mod again;
pub mod check;
pub mod expand;
pub mod generate;
pub mod machine;
pub mod random;
pub mod read;
pub mod report;
pub mod run;
pub mod steps;
pub mod tree;
pub mod values;
pub mod verdict;
