//! The calls of a script that isn't broken.

use second::replay::call::Call;
use second::replay::reader::Reader;

pub fn calls(script: &[u8]) -> Vec<Call> {
    let mut reader = Reader::new(script);
    let mut calls = Vec::new();
    while !reader.at_end() {
        calls.push(reader.call().expect("the script isn't broken"));
    }
    calls
}
