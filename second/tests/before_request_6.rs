//! What stood in the replay files before request 6.
//! Follows document 02, request 6, and the page on replay.

mod digest;
mod made_calls;
mod old_parts;
mod script_calls;
mod taken_back;

use old_parts::Before;

const BEFORE: Before = Before {
    files: [
        (1_577_302, 0x8C1F_123F_7319_0C06),
        (3_675_172, 0x6675_5CF4_C2B8_1B01),
    ],
    is_new: |call, _| call.number() == 0x14,
};

#[test]
fn all_that_stood_there_stands_in_front_of_the_compares_part() {
    BEFORE.stands_in_front();
}
