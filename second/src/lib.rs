//! The second program: document 01 and requests 1 to 3 and 5 to 7 of document 02 once
//! more, by another road than a fast program would take, so that its answers can be held
//! against those of the product. Request 4 moves no answer. The bench's commands stand on it.

pub mod bench;
pub mod bytes;
pub mod card;
pub mod cbc;
pub mod cipher;
pub mod cmac;
pub mod compare;
pub mod cuts;
pub mod e2;
pub mod edges;
pub mod entry;
pub mod field;
pub mod hierocrypt3;
pub mod matrix;
pub mod noekeon;
pub mod random;
pub mod reading;
pub mod refusal;
pub mod replay;
pub mod seal;
pub mod stream;
