//! Links the static library of the port.

include!("../link.rs");

fn main() {
    link(&["aktyrbuz"]);
}
