//! The bench's commands: the pages sentence by sentence, on files in memory, then the
//! command from outside.
//! Follows the page on the bench, and that on a sent card.

mod on_the_bench;
