//! The functions of the two static libraries. Each takes and gives plain numbers, so every call is safe.

macro_rules! exported {
    ($($symbol:ident as $name:ident($($argument:ident: $taken:ty),+) -> $given:ty;)+) => {
        mod symbols {
            extern "C" {
                $(pub fn $symbol($($argument: $taken),+) -> $given;)+
            }
        }
        $(pub fn $name($($argument: $taken),+) -> $given {
            // SAFETY: the function is proved total on plain numbers and touches no memory of ours.
            unsafe { symbols::$symbol($($argument),+) }
        })+
    };
}

exported! {
    aktyrbuz_ln as ln(x: f32) -> f32;
    leaves_floor as floor(x: f32) -> f32;
    leaves_ceil as ceil(x: f32) -> f32;
    leaves_round as round(x: f32) -> f32;
    leaves_saturating_f32_to_i64 as to_i64(x: f32) -> i64;
    leaves_saturating_f32_to_i32 as to_i32(x: f32) -> i32;
    leaves_saturating_f32_to_u64 as to_u64(x: f32) -> u64;
    leaves_kind_i64 as kind_i64(x: f32) -> u32;
    leaves_kind_i32 as kind_i32(x: f32) -> u32;
    leaves_kind_u64 as kind_u64(x: f32) -> u32;
    leaves_nearest_u32_to_f32 as from_u32(n: u32) -> f32;
    leaves_nearest_i32_to_f32 as from_i32(z: i32) -> f32;
    leaves_nearest_u64_to_f32 as from_u64(n: u64) -> f32;
    leaves_nearest_i64_to_f32 as from_i64(z: i64) -> f32;
    leaves_nearest_f64_to_f32 as from_f64(x: f64) -> f32;
    leaves_root as root(x: f32) -> f32;
    leaves_root_by as root_by(x: f32) -> f32;
    leaves_length as length(dx: i32, dy: i32) -> f32;
    leaves_abs as abs(x: f32) -> f32;
    leaves_negative as negative(x: f32) -> bool;
    leaves_top as top(a: f32, b: f32) -> f32;
    leaves_min as min(a: f32, b: f32) -> f32;
    leaves_max as max(a: f32, b: f32) -> f32;
    leaves_is_infinite as is_infinite(x: f32) -> bool;
    leaves_fast_cos as fast_cos(x: f32) -> f32;
    leaves_fast_erff as fast_erff(x: f32) -> f32;
    leaves_saturating_add as saturating_add(a: u64, b: u64) -> u64;
    leaves_saturating_mul as saturating_mul(a: u64, b: u64) -> u64;
    leaves_ceil_log2 as ceil_log2(n: u64) -> u64;
}
