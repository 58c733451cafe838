//! Tests of checking, texts, labels, fields, sessions, messages, displayed
//! values and time logs through the public functions.

mod buffers;
mod chains;
mod cross_check;
mod displayed;
mod judging;
mod lists;
mod literal;
mod literal_logs;
mod log_refusals;
mod logs;
mod messages;
mod objects;
mod pools;
mod queries;
mod ranges;
mod references;
mod session_lists;
mod sessions;
mod utf8;
mod vectors;
mod views;
mod whole;
mod worked_lines;
