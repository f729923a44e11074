//! Links the static library of the inner layers.

include!("../link.rs");

fn main() {
    link(&["layers"]);
}
