//! "Volts per cell and pack volts are kept apart, as the sheet keeps them."
//! Only [`CellMv::times`] leads from one to the other.

/// Millivolts of one cell.
#[derive(Clone, Copy, Debug, PartialEq, Eq, PartialOrd, Ord)]
pub struct CellMv(pub u32);

/// Millivolts of the whole pack.
#[derive(Clone, Copy, Debug, PartialEq, Eq, PartialOrd, Ord)]
pub struct PackMv(pub u32);

impl CellMv {
    /// The voltage of `cells` such cells in series.
    pub fn times(self, cells: u32) -> PackMv {
        PackMv(self.0.saturating_mul(cells))
    }
}

impl PackMv {
    /// Whether this is below `thousandths` of `base`. Both sides are
    /// multiplied, so no threshold is rounded.
    pub fn is_below_share(self, base: PackMv, thousandths: u32) -> bool {
        u64::from(self.0) * 1_000 < u64::from(base.0) * u64::from(thousandths)
    }

    /// This less `cut`, or 0.
    pub fn less(self, cut: PackMv) -> PackMv {
        PackMv(self.0.saturating_sub(cut.0))
    }
}
