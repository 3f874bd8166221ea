//! The two allowances under which an equality is made.

#[derive(Debug, Clone, Copy)]
pub struct TransEqAllowed {
    pub can_mismatch_initial: bool,
    pub can_mismatch_congr: bool,
}
