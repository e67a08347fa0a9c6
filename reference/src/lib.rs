//! An independent reader for the polar subcodes of document 01, written from
//! document 01, its settled readings and paper 002 alone.
//!
//! Two readers stand side by side and share only the parsed book, the
//! settings and the types of the answers:
//! `model` with `judge` and `machine` is document 01 word for word and slow;
//! `calls` with `book`, `code`, `plan` and `fast` is 002's block sequential
//! decoder, and quick.

pub mod answer;
pub mod book;
pub mod calls;
pub mod cases;
pub mod clean;
pub mod code;
pub mod compare;
pub mod damage;
pub mod design;
pub mod fast;
pub mod judge;
pub mod kernel;
pub mod machine;
pub mod model;
pub mod noise;
pub mod plan;
pub mod record;
pub mod recorder;
pub mod replay;
pub mod rng;
pub mod settings;
pub mod soft;
pub mod vector;
pub mod walk;
