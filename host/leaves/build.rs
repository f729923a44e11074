//! Links the static libraries of the leaves and of the port.

include!("../link.rs");

fn main() {
    link(&["leaves", "aktyrbuz"]);
}
