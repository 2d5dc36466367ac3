//! The second program: documents 01 and 02 written out as plainly as they read, to compare the proved core with.
//!
//! The editor stands in `plain`, its mark in `mark`, what NEWLINE and TAB insert in `indent`, the lines a deck's reader takes in `reader`,
//! its bytes in `bytes`, its screen in `window`, the calls on stores in `core`, the conversion of old sessions in `convert`, the bytes for
//! terminals in `paint`, those from them in `keyboard` and a terminal in `terminal`, the bench program in `script`. The other files make
//! inputs (`random`, `generate`, `long_lines`; `walk` and `unreadable` scripts, `calls` and their `damage`, `paint_calls`, `convert_calls`,
//! `streams`), compare them (`compare`, `painted`, `converted`, `heard`), and find and print the smallest that shows a difference (`shrink`,
//! `show`).

pub mod bytes;
pub mod calls;
pub mod compare;
pub mod convert;
pub mod convert_calls;
pub mod converted;
pub mod core;
pub mod damage;
pub mod generate;
pub mod heard;
pub mod indent;
pub mod keyboard;
pub mod long_lines;
pub mod mark;
pub mod paint;
pub mod paint_calls;
pub mod painted;
pub mod plain;
pub mod random;
pub mod reader;
pub mod script;
pub mod show;
pub mod shrink;
pub mod streams;
pub mod terminal;
pub mod unreadable;
pub mod walk;
pub mod window;
