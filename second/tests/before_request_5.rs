//! What stood in the replay files before request 5.
//! Follows document 02, request 5, and the page on replay.

mod digest;
mod made_calls;
mod old_parts;
mod script_calls;
mod taken_back;

use old_parts::Before;

const BEFORE: Before = Before {
    files: [
        (1_307_022, 0x078B_EA1E_95B2_40D7),
        (1_699_515, 0xFDC0_FF5B_F570_FE43),
    ],
    is_new: |call, _| (0x12..=0x13).contains(&call.number()),
};

#[test]
fn all_that_stood_there_stands_in_front_of_the_records_part() {
    BEFORE.stands_in_front();
}
