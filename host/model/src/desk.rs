//! Two desks over one table (document 02, (vi)): "A shared byte for each spline holds two bits: bit 0 hides the spline for the operator,
//! bit 1 for the checker."

use cases::desks::Sight;
use cases::{Code, Refusal};

fn refuse<T>(code: Code) -> Result<T, Refusal> {
    Err(Refusal { code, place: 0 })
}

/// "DESK for a desk other than 0 or 1".
pub fn check_desk(desk: u32) -> Result<(), Refusal> {
    if desk > 1 {
        return refuse(Code::Desk);
    }
    Ok(())
}

/// "TRACE where fewer spline bytes are lent than the description had splines".
pub fn check_bytes(sight: &Sight) -> Result<(), Refusal> {
    if (sight.bits.len() as u64) < sight.splines {
        return refuse(Code::Trace);
    }
    Ok(())
}

/// Whether the desk has hidden this spline, which has a byte.
pub fn is_hidden(sight: &Sight, spline: u64) -> bool {
    let byte = sight.bits[spline as usize];
    match sight.desk {
        0 => byte % 2 == 1,
        _ => byte / 2 % 2 == 1,
    }
}

/// "setting a bit changes that bit only": to hidden or to shown. Refused by DESK, then TRACE, where "a bit is set for a spline
/// without a byte".
pub fn hide(bits: &mut [u8], desk: u32, spline: u64, hidden: bool) -> Result<(), Refusal> {
    check_desk(desk)?;
    if spline >= bits.len() as u64 {
        return refuse(Code::Trace);
    }
    let byte = &mut bits[spline as usize];
    let weight = if desk == 0 { 1 } else { 2 };
    let is_set = *byte / weight % 2 == 1;
    match (is_set, hidden) {
        (false, true) => *byte += weight,
        (true, false) => *byte -= weight,
        _ => {}
    }
    Ok(())
}

#[cfg(test)]
mod tests {
    use super::*;

    #[test]
    fn one_bit_changes() {
        let mut bits = [0b1010_1010, 0b0101_0101, 0];
        assert_eq!(hide(&mut bits, 0, 0, true), Ok(()));
        assert_eq!(hide(&mut bits, 0, 0, true), Ok(()));
        assert_eq!(hide(&mut bits, 1, 0, false), Ok(()));
        assert_eq!(hide(&mut bits, 1, 1, true), Ok(()));
        assert_eq!(bits, [0b1010_1001, 0b0101_0111, 0]);
        assert_eq!(hide(&mut bits, 0, 1, false), Ok(()));
        assert_eq!(bits[1], 0b0101_0110);
    }

    #[test]
    fn what_is_refused_stays() {
        let mut bits = [3; 2];
        let code = |refused: Result<(), Refusal>| refused.map_err(|refusal| refusal.code);
        assert_eq!(code(hide(&mut bits, 2, 9, false)), Err(Code::Desk));
        assert_eq!(code(hide(&mut bits, 1, 2, false)), Err(Code::Trace));
        assert_eq!(code(hide(&mut [], 0, 0, true)), Err(Code::Trace));
        assert_eq!(code(hide(&mut bits, 0, u64::MAX, true)), Err(Code::Trace));
        assert_eq!(bits, [3; 2]);
    }
}
