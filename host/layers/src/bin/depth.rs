//! The stack that the transform takes, called by itself through the static library of the inner layers.

#[allow(dead_code)]
#[path = "../symbols.rs"]
mod symbols;

use port::stack::stack_of;

fn main() {
    quiet::end_with_the_reader();
    let [x, y, b, sigma] = [1.0, 2.0, 3.0, 4.0].map(|first| [first; 32]);
    let mut sums = [0.0; 4];
    println!("nothing   {:>5} bytes", stack_of(|| ()));
    // SAFETY: each pointer is to an array of its size.
    let transform =
        stack_of(|| unsafe { symbols::layers_sums_at(&x, &y, &b, &sigma, 7.5, &mut sums) });
    println!("transform {transform:>5} bytes");
    assert!(
        sums.iter().all(|sum| *sum != 0.0),
        "the sums are not filled"
    );
}
