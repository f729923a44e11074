//! Two desks over one table: what each has hidden.

use crate::cells::zeros;
use crate::code::{judged, Refusal};

/// Who looks at a table.
#[derive(Clone, Copy, Debug, PartialEq, Eq, Hash)]
pub enum Desk {
    Operator = 0,
    Checker = 1,
}

impl Desk {
    pub fn number(self) -> u32 {
        self as u32
    }
}

/// What both desks have hidden of a description: a shared byte for each spline, whose bit 0 hides it for the operator and whose bit 1 hides it for the
/// checker. What a desk is drawn depends on its own bits alone.
#[derive(Clone, Debug, PartialEq, Eq)]
pub struct Hidden {
    bytes: Vec<u8>,
}

impl Hidden {
    /// Nothing yet of so many splines. Without memory for their bytes it is refused with [`Code::Room`](crate::Code::Room).
    pub fn nothing(splines: usize) -> Result<Hidden, Refusal> {
        zeros(splines).map(|bytes| Hidden { bytes })
    }

    /// Hides a spline for a desk, and changes nothing else; a spline without a byte is refused with [`Code::Trace`](crate::Code::Trace).
    pub fn hide(&mut self, desk: Desk, spline: u64) -> Result<(), Refusal> {
        self.set(desk, spline, true)
    }

    /// Shows it again.
    pub fn show(&mut self, desk: Desk, spline: u64) -> Result<(), Refusal> {
        self.set(desk, spline, false)
    }

    fn set(&mut self, desk: Desk, spline: u64, hidden: bool) -> Result<(), Refusal> {
        judged(port::hide(&mut self.bytes, desk.number(), spline, hidden)).map(|_| ())
    }

    /// Whether a desk has hidden a spline; none that has no byte is.
    pub fn is_hidden(&self, desk: Desk, spline: u64) -> bool {
        let byte = usize::try_from(spline)
            .ok()
            .and_then(|spline| self.bytes.get(spline));
        byte.is_some_and(|byte| byte >> desk.number() & 1 == 1)
    }

    /// The shared bytes, a spline each.
    pub fn bytes(&self) -> &[u8] {
        &self.bytes
    }

    /// As the calls take it, for a table of so many splines.
    pub(crate) fn seen_by(&self, desk: Desk, splines: u64) -> port::Sight<'_> {
        port::Sight {
            splines,
            bits: &self.bytes,
            desk: desk.number(),
        }
    }
}

#[cfg(test)]
mod tests {
    use super::*;
    use crate::Code;

    #[test]
    fn a_hide_changes_one_bit() {
        let mut hidden = Hidden::nothing(3).expect("three bytes");
        hidden.hide(Desk::Checker, 1).expect("a spline");
        hidden.hide(Desk::Operator, 1).expect("a spline");
        hidden.hide(Desk::Operator, 2).expect("a spline");
        assert_eq!(hidden.bytes(), [0, 3, 1]);
        assert!(hidden.is_hidden(Desk::Operator, 2) && !hidden.is_hidden(Desk::Checker, 2));
        hidden.show(Desk::Operator, 1).expect("a spline");
        hidden.show(Desk::Operator, 0).expect("a spline");
        assert_eq!(hidden.bytes(), [0, 2, 1]);
        for outside in [3, u64::MAX] {
            let refused = hidden.hide(Desk::Checker, outside).expect_err("no byte");
            assert_eq!(refused.code, Code::Trace);
            assert!(!hidden.is_hidden(Desk::Checker, outside));
        }
        assert_eq!(hidden.bytes(), [0, 2, 1]);
    }
}
