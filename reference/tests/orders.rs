//! The order of moves: two lists of accepted M calls that continue one list and leave each lot in the
//! same session leave the same tables, in every entry, and the same total.
//! Rests on the library's generator of such pairs.

use reference::move_orders::{move_orders, MoveOrders};
use reference::{parse, Call, Machine, Tables};

/// The machine after the list before and then one of the two lists, every move of it accepted.
fn finish<'a>(start: &Machine<'a>, moves: &[Call]) -> Machine<'a> {
    let mut machine = start.clone();
    for call in moves {
        assert!(matches!(call, Call::M { .. }));
        assert!(machine.call(call).is_ok(), "an accepted move");
    }
    machine
}

#[test]
fn the_order_of_moves_leaves_no_trace_but_the_record() {
    let (mut differ, mut longer, mut joined, mut two, mut long) = (0, 0, 0, 0, 0);
    for seed in 0..1_500 {
        let pair = move_orders(seed);
        if seed < 100 {
            assert_eq!(pair, move_orders(seed), "one seed gives one pair");
        }
        let MoveOrders {
            catalogue,
            before,
            first,
            second,
        } = &pair;
        assert!(before.len() + first.len().max(second.len()) <= 512);

        let sale = parse(catalogue).expect("the catalogue is accepted");
        assert!(sale.calls.is_empty());
        let mut start = Machine::fresh(&sale.catalogue);
        for call in before {
            // An answer or a refusal serves alike: only the state after the call is used.
            let _ = start.call(call);
        }
        let one = finish(&start, first);
        let other = finish(&start, second);
        assert_eq!(one.sessions, other.sessions, "seed {seed}");
        assert_eq!(one.joins, other.joins, "seed {seed}");
        assert_eq!(Tables::of(&one), Tables::of(&other), "seed {seed}");
        assert_eq!(one.total(), other.total(), "seed {seed}");

        differ += usize::from(first != second);
        longer += usize::from(first.len() != second.len());
        joined += usize::from(!one.joins.is_empty() && first != second);
        two += usize::from(first.len() == 2 && second.len() == 2 && first[0] == second[1]);
        long += usize::from(first.len() > 100);
    }
    assert!(differ > 900, "{differ}");
    assert!(longer > 400, "{longer}");
    assert!(joined > 200, "{joined}");
    assert!(two > 100, "{two}");
    assert!(long > 20, "{long}");
}
