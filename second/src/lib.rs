//! A second program for the Tetherbay day book, written from the paper alone so that its answers
//! can be compared with those of the proved program.
//!
//! The first group of modules is the paper: blocks, EICs and ids, quantity text, sound books,
//! opening and clock, rights, messages, submission and its looks, readings, settled positions, conversion, listing.
//! `plain_rule` is the matching rule for checking. The rest makes random calls, replays them and counts what decided.

pub mod block;
pub mod book;
mod clause;
pub mod codes;
pub mod conversion;
pub mod counts;
pub mod day;
pub mod identifier;
pub mod listing;
pub mod looks;
pub mod message;
pub mod plain_rule;
pub mod quantity_text;
pub mod readings;
pub mod right;
pub mod settlement;
pub mod sound;
pub mod submission;

pub mod breach;
pub mod crafted;
pub mod deck;
pub mod desk;
pub mod difference;
pub mod draft;
pub mod examples;
pub mod external;
pub mod final_case;
pub mod generator;
pub mod histogram;
pub mod market;
pub mod names;
pub mod old_book;
pub mod random;
pub mod selfcheck;
pub mod sights;
pub mod stream;
pub mod texts;
pub mod versions;
