//! What stood in the replay files before request 3.
//! Follows document 02, request 3, and the page on replay.

mod digest;
mod made_calls;
mod old_parts;
mod script_calls;
mod taken_back;

use old_parts::Before;

const BEFORE: Before = Before {
    files: [
        (1_102_954, 0x7FC8_8C4F_F508_CE4F),
        (1_089_692, 0x7D35_09A3_5903_BF63),
    ],
    is_new: |call, _| (0x0D..=0x11).contains(&call.number()),
};

#[test]
fn all_that_stood_there_stands_in_front_of_the_seals_part() {
    BEFORE.stands_in_front();
}
