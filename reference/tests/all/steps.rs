//! A gate's step by what it means: rounded down the greatest whole number that, times U, does not pass the product,
//! rounded up the least that reaches it, and marked where it is the product.

use reference::end::{over_unit, step, End, Rounding, U};
use reference::random::Random;

/// 31,622 and 31,623 have squares on either side of U.
const EDGES: [u32; 12] = [0, 1, 2, 31_622, 31_623, U / 2, U / 2 + 1, U - 31_623, U - 31_622, U - 2, U - 1, U];

fn marked(units: u32) -> End {
    End { units, exact: true }
}

/// By whole numbers: a number below 0 is no answer, so 0 has nothing below it to try.
fn check(found: End, product: u128, unit: u128, rounding: Rounding) {
    let times = |units: u128| units * unit;
    let units = found.units as u128;
    match rounding {
        Rounding::Down => {
            assert!(times(units) <= product, "{units} of {unit} passes {product}");
            assert!(times(units + 1) > product, "{units} of {unit} is not the greatest below {product}");
        }
        Rounding::Up => {
            assert!(times(units) >= product, "{units} of {unit} does not reach {product}");
            assert!(units == 0 || times(units - 1) < product, "{units} of {unit} is not the least for {product}");
        }
    }
    assert_eq!(found.exact, times(units) == product, "mark of {units} of {unit} for {product}");
}

fn check_step(running: u32, factor: u32) {
    for rounding in [Rounding::Down, Rounding::Up] {
        let found = step(marked(running), marked(factor), rounding);
        check(found, running as u128 * factor as u128, U as u128, rounding);
    }
}

#[test]
fn products_of_edges() {
    for running in EDGES {
        EDGES.iter().for_each(|&factor| check_step(running, factor));
    }
}

/// Numbers with many factors of 2 and 5 stand beside any: their products are often whole units.
#[test]
fn products_of_random_numbers() {
    let random = &mut Random::for_case(73, 0);
    let any = |random: &mut Random| {
        let unit = *random.pick(&[1, 2, 500, 15_625, 32_768, 1_000_000, 100_000_000]);
        unit * random.between(0, (U / unit) as usize) as u32
    };
    for _ in 0..100_000 {
        let (running, factor) = (any(random), any(random));
        check_step(running, factor);
        EDGES.iter().for_each(|&edge| check_step(running, edge));
    }
}

/// Every product of numbers up to a small unit, by counting up.
#[test]
fn small_units() {
    for unit in 1..=40 {
        for product in 0..=unit * unit {
            let reaching = (0..).find(|units| units * unit >= product).unwrap();
            let exact = reaching * unit == product;
            let passed = if exact { reaching } else { reaching - 1 };
            assert_eq!(over_unit(product, unit, Rounding::Up), End { units: reaching as u32, exact });
            assert_eq!(over_unit(product, unit, Rounding::Down), End { units: passed as u32, exact });
        }
    }
}

/// A step that drops nothing has lost what its inputs had lost, but for a true 0.
#[test]
fn marks_of_inputs() {
    for rounding in [Rounding::Down, Rounding::Up] {
        for (units, exact) in EDGES.into_iter().flat_map(|units| [(units, false), (units, true)]) {
            let unmarked = step(End { units, exact }, End { units: U, exact: false }, rounding);
            assert_eq!(unmarked, End { units, exact: exact && units == 0 });
        }
    }
}
