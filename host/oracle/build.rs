//! Fetches spline.rs, and the parts of other files that the scope names, from SPLINE_SRC into the build directory.
//!
//! Whole files and whole items are taken as they stand. The only changed text are the two calls of `ln` in spline.rs.

use std::path::{Path, PathBuf};
use std::{env, fs};

/// From the root of this repository.
const DEFAULT_SOURCE: &str = "../shared/docs/src";

/// The two calls of `ln`, and what stands in their place.
const LOGARITHMS: [[&str; 2]; 2] = [
    ["0.1f32.ln()", "crate::stubs::logarithm::ln(0.1f32)"],
    ["max_color.ln()", "crate::stubs::logarithm::ln(max_color)"],
];

fn main() {
    println!("cargo:rerun-if-changed=build.rs");
    println!("cargo:rerun-if-env-changed=SPLINE_SRC");
    if let Err(message) = fetch() {
        println!("cargo::error={message}");
    }
}

fn fetch() -> Result<(), String> {
    let source = source_directory();
    let original = |name: &str| read(&source.join("zenjxl-decoder/src").join(name));

    write("spline.rs", &with_hooks(original("features/spline.rs")?)?)?;
    write("log2.rs", &original("util/log2.rs")?)?;

    let math = original("util/fast_math.rs")?;
    let cos = item(&math, "pub fn fast_cos(", "}")?;
    let erff = item(&math, "pub fn fast_erff_simd<", "}")?;
    write("fast_math.rs", &format!("{cos}\n{erff}"))?;

    let options = original("api/options.rs")?;
    let level = item(&options, "pub enum JxlCodestreamLevel {", "}")?;
    let limit = item(&options, "    pub(crate) fn spline_area_limit(", "    }")?;
    write(
        "options.rs",
        &format!("{level}\nimpl JxlCodestreamLevel {{\n{limit}}}\n"),
    )?;

    let decode = original("entropy_coding/decode.rs")?;
    write("decode.rs", &item(&decode, "pub fn unpack_signed(", "}")?)
}

/// SPLINE_SRC, or the default; a relative path counts from the root of the repository.
fn source_directory() -> PathBuf {
    let given = env::var_os("SPLINE_SRC").filter(|value| !value.is_empty());
    let root = PathBuf::from(variable("CARGO_MANIFEST_DIR")).join("../..");
    root.join(given.unwrap_or_else(|| DEFAULT_SOURCE.into()))
}

fn variable(name: &str) -> std::ffi::OsString {
    env::var_os(name).unwrap_or_default()
}

fn read(path: &Path) -> Result<String, String> {
    println!("cargo:rerun-if-changed={}", path.display());
    fs::read_to_string(path).map_err(|error| {
        format!(
            "cannot read {} ({error}); set SPLINE_SRC to the directory that holds zenjxl-decoder",
            path.display()
        )
    })
}

fn write(name: &str, text: &str) -> Result<(), String> {
    let path = PathBuf::from(variable("OUT_DIR")).join(name);
    fs::write(&path, text).map_err(|error| format!("cannot write {} ({error})", path.display()))
}

/// spline.rs with its two calls of `ln` led to the hook; there must be just these two.
fn with_hooks(text: String) -> Result<String, String> {
    let calls = text.matches(".ln(").count();
    if calls != LOGARITHMS.len() {
        return Err(format!(
            "spline.rs has {calls} calls of ln, not {}",
            LOGARITHMS.len()
        ));
    }
    let mut hooked = text;
    for [call, hook] in LOGARITHMS {
        let count = hooked.matches(call).count();
        if count != 1 {
            return Err(format!("spline.rs has {call} {count} times, not once"));
        }
        hooked = hooked.replace(call, hook);
    }
    Ok(hooked)
}

/// The one item whose first line begins with `head`, with its attributes and comments, through the first line that is `end`.
fn item(text: &str, head: &str, end: &str) -> Result<String, String> {
    let lines: Vec<&str> = text.lines().collect();
    let heads: Vec<usize> = (0..lines.len())
        .filter(|&i| lines[i].starts_with(head))
        .collect();
    let [first] = heads[..] else {
        return Err(format!(
            "`{}` is there {} times, not once",
            head.trim(),
            heads.len()
        ));
    };
    let Some(length) = lines[first..].iter().position(|line| *line == end) else {
        return Err(format!("`{}` has no end", head.trim()));
    };
    let above = lines[..first].iter().rev();
    let attributes = above.take_while(|line| is_attribute(line)).count();
    Ok(lines[first - attributes..=first + length].join("\n") + "\n")
}

fn is_attribute(line: &str) -> bool {
    let line = line.trim_start();
    line.starts_with("#[") || line.starts_with("///")
}
