//! The command `tarczolin`: lists, shows and judges the executions of a program by calls of the proved static library.
//!
//! What is listed, counted, judged or refused is the library's answer. What this crate works out by itself, and nobody has
//! proved, is what it shows beside an answer: values, words, columns, drawings.
pub mod accepted;
pub mod ask;
pub mod asm;
pub mod blame;
pub mod called;
pub mod commands;
pub mod decide;
pub mod dot;
pub mod end;
pub mod error;
pub mod execution;
pub mod expect;
pub mod fences;
pub mod graph;
pub mod hex;
pub mod html;
pub mod input;
pub mod jobs;
pub mod json;
pub mod litmus;
pub mod machine;
pub mod matching;
pub mod members;
pub mod memory;
pub mod model;
pub mod near;
pub mod note;
pub mod outcome;
pub mod output;
pub mod play;
pub mod program;
pub mod progress;
pub mod random;
pub mod refusal;
pub mod schedule;
pub mod show;
pub mod switches;
pub mod users;
pub mod why;
