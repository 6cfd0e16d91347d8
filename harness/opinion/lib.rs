//! A second opinion on the core: document 01 with wishes 1 to 3 of document 02 written once more, in plain Rust that changes
//! the machine in place. It shares nothing with the product's crates. `compare` holds the two against each other,
//! `speed` times both, and `stored_cases` writes cases with its results. `machine` is right for the machines that
//! replay reaches, `whole` for any; `check_calls` drives the latter by the lists of the test program of that name.
pub mod cases;
pub mod check_calls;
pub mod in_order;
pub mod long_run;
pub mod machine;
pub mod random;
pub mod replay;
pub mod schedule;
pub mod whole;
pub mod words;
