//! The refusals of withdrawals beside such as are done, while lanes are in mid-text; all lent bytes are peeked before and
//! after.

use crate::filerefusals::{begin_lanes, end_lanes};
use crate::maker::Maker;
use crate::refusals::FAR;

/// One tree after another until there is none, with 13 past the last tree that is left. No buffer is asked for.
pub fn withdrawals(maker: &mut Maker) {
    begin_lanes(maker);
    maker.ask("room 0");
    while maker.held.number_of_trees() > 0 {
        past_the_last(maker);
        maker.withdraw_some();
        maker.peek();
    }
    past_the_last(maker);
    maker.ask("room -");
    end_lanes(maker);
}

fn past_the_last(maker: &mut Maker) {
    let trees = maker.held.number_of_trees() as u64;
    for far in [trees, trees + 1, 256 + trees, 65536].into_iter().chain(FAR) {
        maker.watched(format!("withdraw {far}"));
    }
}

/// 11 before a withdrawal, and again where its room is taken; 13 makes no room.
pub fn withdrawals_at_full_rooms(maker: &mut Maker) {
    for _ in 0..4 {
        let text = maker.any_text();
        maker.watched_text(&text);
        maker.watched(format!("withdraw {}", maker.held.number_of_trees()));
        maker.watched_text(&text);
        maker.withdraw_some();
        maker.peek();
        maker.watched_text(&text);
        let star = maker.star(&maker.names);
        maker.watched_text(&star);
        maker.watched_text(&star);
    }
}
