//! A dispatcher's turn record, as a program uses it.

use lurdempos::{Refusal, Turn};

#[test]
fn turns_go_round() {
    let mut turn = Turn { tills: 4, waiting: 0b1011, last: 1 };
    assert_eq!(turn.take_turn(), Ok(Some(3)));
    assert_eq!(turn, Turn { tills: 4, waiting: 0b0011, last: 3 });
    turn.waiting |= 1 << 2;
    assert_eq!([turn.take_turn(), turn.take_turn(), turn.take_turn()], [Ok(Some(0)), Ok(Some(1)), Ok(Some(2))]);
    assert_eq!(turn.take_turn(), Ok(None));
    assert_eq!(turn, Turn { tills: 4, waiting: 0, last: 2 });
}

#[test]
fn a_mark_above_the_tills_is_refused() {
    let mut turn = Turn { tills: 4, waiting: 1 << 4, last: 0 };
    let refusal = turn.take_turn().unwrap_err();
    assert_eq!(refusal, Refusal::NoTurn);
    assert_eq!(
        refusal.to_string(),
        "refused, 27: a till count outside 1 to 16, a mark at or above it, or a last till at or above it"
    );
}
