//! The parts of the script that were there before a request, and the answers to them,
//! stand in front of the request's own part: byte for byte once request 7's change is taken
//! back.
//! Follows the page on replay.

use crate::digest::digest;
use crate::made_calls::made;
use crate::script_calls::calls;
use crate::taken_back::{record_behind, stood, taken_back};
use second::replay::call::Call;
use second::replay::{run, script, Extent};

/// Length and digest of `replay/script` and of `replay/answers` before a request, and what
/// it brought, known by a call or by what is written for it.
pub struct Before {
    pub files: [(usize, u64); 2],
    pub is_new: fn(&Call, &[u8]) -> bool,
}

impl Before {
    pub fn stands_in_front(&self) {
        assert_eq!(measured(self.parts()), self.files);
        self.a_byte_that_differs_is_seen();
        self.what_is_written_today_begins_with_it();
        self.nothing_new_stands_in_it_and_something_right_behind();
    }

    fn parts(&self) -> [Vec<u8>; 2] {
        stood(self.files[0].0)
    }

    fn a_byte_that_differs_is_seen(&self) {
        for which in 0..2 {
            let mut changed = self.parts();
            *changed[which].last_mut().unwrap() ^= 1;
            assert_ne!(measured(changed), self.files);
        }
    }

    /// As much of today's script as there was, with the records that request 7 put in.
    fn today(&self) -> Vec<u8> {
        let [old_script, _] = self.parts();
        let calls = calls(&old_script);
        let records = calls.iter().filter_map(record_behind);
        let length: usize = records.map(|call| call.bytes().len()).sum();
        let mut today = script(Extent::Whole);
        today.truncate(old_script.len() + length);
        today
    }

    fn what_is_written_today_begins_with_it(&self) {
        let today = self.today();
        let before = taken_back(&today, &run(&today), today.len());
        assert!(before == self.parts());
    }

    fn nothing_new_stands_in_it_and_something_right_behind(&self) {
        let is_new = |(call, back): &(Call, Vec<u8>)| (self.is_new)(call, back);
        let [old_script, old_answers] = self.parts();
        assert!(!made(&old_script, &old_answers).iter().any(is_new));
        let script = script(Extent::Whole);
        let all = made(&script, &run(&script));
        assert!(is_new(&all[calls(&self.today()).len()]));
    }
}

fn measured(parts: [Vec<u8>; 2]) -> [(usize, u64); 2] {
    parts.map(|part| (part.len(), digest(&part)))
}
