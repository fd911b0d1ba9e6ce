//! The power-on of the paper's example log.

use reference::Profile;

/// Two cells at 4,200, 1,500 mA.
pub const PROFILE: Profile = Profile {
    cell: 2,
    vchg: 5,
    ichg: 4,
    ohms: 0,
    stamp: 0,
    ceiling: 4_500,
    trickle: 3_600,
    precharge: 7_200,
    fast: 36_000,
    watchdog: 0,
};
