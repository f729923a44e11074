//! The kinds of case, each with its name. vectors/README.md gives the words of each.

macro_rules! kinds {
    ($($name:ident = $number:literal, $text:literal;)*) => {
        $(pub const $name: u32 = $number;)*

        pub fn name(kind: u32) -> &'static str {
            match kind {
                $($number => $text,)*
                _ => "of an unknown kind",
            }
        }
    };
}

kinds! {
    FLOOR = 1, "floor";
    CEIL = 2, "ceil";
    ROUND = 3, "round";
    TO_I64 = 4, "f32 to i64";
    TO_U64 = 5, "f32 to u64";
    FROM_U64 = 6, "u64 to f32";
    NARROW = 7, "f64 to f32";
    ROOT = 8, "root";
    LENGTH = 9, "length";
    COS = 10, "fast_cos";
    ERF = 11, "fast_erff";
    LN = 12, "ln";
    TOP = 13, "greater magnitude";
    READ = 14, "read";
    WRITE = 15, "write";
    DEQUANTIZE = 16, "dequantize";
    CURVE = 17, "curve";
    WALK = 18, "walk";
    TRANSFORM = 19, "transform";
    SEGMENT = 20, "segment";
    BUILD = 21, "build";
    DRAW = 22, "draw";
}
