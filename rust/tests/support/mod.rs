//! What the tests share: a generator of cases, lent lists, and each call compared with what it should give.

#![allow(dead_code)] // each test file uses a part

pub mod boards;
pub mod calls;
pub mod chains;
pub mod generator;
pub mod jobs;
pub mod lent;
pub mod networks;
pub mod session;
pub mod walk;
