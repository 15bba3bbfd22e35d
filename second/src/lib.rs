//! ChaCha20-Poly1305 written from RFC 8439, and the door with its dealer, boxes and
//! lock written from the scope document 01 and the change requests 02, both from nothing
//! else, so that their answers are worth comparing with those of another implementation.

#![forbid(unsafe_code)]

pub mod aead;
pub mod cases;
pub mod chacha20;
pub mod check_cases;
pub mod check_marks;
pub mod check_own;
pub mod check_tables;
pub mod check_tilings;
pub mod checks;
pub mod content;
pub mod day;
pub mod dcf;
pub mod dealer;
#[cfg(test)]
mod dealer_clock;
pub mod dealing;
pub mod field;
pub mod generated;
pub mod half_cases;
pub mod half_marks;
pub mod halves;
pub mod iris;
pub mod iris_bad_cases;
pub mod iris_cases;
pub mod iris_lines;
#[cfg(test)]
mod iris_refusals;
pub mod lock;
pub mod measure;
pub mod message;
pub mod older;
pub mod opened;
pub mod party;
#[cfg(test)]
mod party_ahead;
#[cfg(test)]
mod party_marks;
#[cfg(test)]
mod party_trial;
pub mod poly1305;
pub mod refusal;
pub mod replay;
pub mod replay_ahead;
pub mod replay_boxes;
pub mod replay_cases;
pub mod replay_checks;
pub mod replay_claim;
pub mod replay_clock;
pub mod replay_days;
#[cfg(test)]
mod replay_lines;
pub mod replay_lists;
pub mod replay_marks;
pub mod replay_older;
pub mod replay_pairs;
pub mod replay_script;
pub mod replay_states;
pub mod replay_trial;
pub mod rfc8439;
pub mod rule;
pub mod sample;
pub mod script;
pub mod sealed;
pub mod share;
