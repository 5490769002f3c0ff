//! Lists of moves that leave each lot in the same session leave the same tables: pairs of such lists
//! through the list's entry. The environment's SEED, a number, gives other sales than the usual ones.

use compare::orders::{same_left, two_ways};
use reference::generator::{calls, late_calls, sale, Random};
use reference::{parse, Machine};

#[test]
fn the_order_of_moves_is_immaterial() {
    let seed: u64 = std::env::var("SEED").map_or(0, |text| text.parse().expect("SEED is a number"));
    let (mut tried, mut reordered) = (0, 0);
    for seed in seed * 1_000_000..seed * 1_000_000 + 4_000 {
        let file = sale(seed);
        let Ok(sale) = parse(&file) else { continue };
        let mut random = Random::new(seed);
        // every second pair behind lots that were withdrawn and added
        let list = if seed % 2 == 0 { calls } else { late_calls };
        let before = list(seed, &sale.catalogue, random.between(0, 12) as usize);
        let mut machine = Machine::fresh(&sale.catalogue);
        for call in &before {
            // a refused call changes nothing
            let _ = machine.call(call);
        }
        let Some(ways) = two_ways(&machine, &mut random) else {
            continue;
        };
        tried += 1;
        reordered += u64::from(ways[0] != ways[1]);
        let lists = ways.map(|moves| [&before[..], &moves].concat());
        if lists.iter().any(|list| list.len() > 512) {
            continue;
        }
        if let Err(what) = same_left(&file, &lists, &mut random) {
            panic!("moves, seed {seed}: {what}");
        }
    }
    assert!(reordered > 1_000, "{tried} pairs, {reordered} of two lists");
}
