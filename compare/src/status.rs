//! The original's sequence statuses by document 01's numbers, for the comparison and for the benchmark.

use keybindings::SequenceStatus;

pub fn status_of(status: u16) -> SequenceStatus {
    match status {
        0 => SequenceStatus::Atom,
        1 => SequenceStatus::Break,
        2 => SequenceStatus::Ignore,
        3 => SequenceStatus::Restart,
        4 => SequenceStatus::Track,
        _ => unreachable!("a status out of its range is refused at open"),
    }
}
