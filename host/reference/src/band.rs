//! The temperature band, of each thermistor and of both together.

use crate::model::Model;
use crate::state::State;
use crate::stored::Stored;

/// The band of one thermistor.
#[derive(Clone, Copy, Debug, PartialEq, Eq)]
pub enum TsBand {
    /// Neither of the others.
    Normal,
    /// At or above TH1.
    Cold,
    /// At or below TH5.
    Hot,
    /// At or above TH2.
    Cool,
    /// At or below TH3.
    Warm,
}

impl TsBand {
    /// All of them, in the order of their numbers.
    pub const ALL: [TsBand; 5] =
        [TsBand::Normal, TsBand::Cold, TsBand::Hot, TsBand::Cool, TsBand::Warm];

    /// The band's number, from 0.
    pub fn number(self) -> u32 {
        self as u32
    }

    /// The band of a number, if it is one's.
    pub fn numbered(number: u32) -> Option<TsBand> {
        TsBand::ALL.into_iter().find(|band| band.number() == number)
    }

    /// The band of two thermistors that are both in this one.
    pub fn of_both(self) -> Band {
        match self {
            TsBand::Normal => Band::Normal,
            TsBand::Cold => Band::Cold,
            TsBand::Hot => Band::Hot,
            TsBand::Cool => Band::Cool,
            TsBand::Warm => Band::Warm,
        }
    }
}

/// The band of both thermistors.
#[derive(Clone, Copy, Debug, PartialEq, Eq)]
pub enum Band {
    /// Both are normal.
    Normal,
    /// One is cold, or both are.
    Cold,
    /// One is hot, or both are, and none is cold.
    Hot,
    /// One is cool, or both are; else normal.
    Cool,
    /// One is warm, or both are; else normal.
    Warm,
    /// One cool and one warm.
    Mixed,
}

impl Band {
    /// The band's name.
    pub fn name(self) -> &'static str {
        match self {
            Band::Normal => "normal",
            Band::Cold => "cold",
            Band::Cool => "cool",
            Band::Warm => "warm",
            Band::Hot => "hot",
            Band::Mixed => "mixed",
        }
    }

    /// The band's number, which is its code of TS_STAT. 5 and 6 "mean other
    /// things on the other part".
    pub fn number(self) -> u32 {
        match self {
            Band::Normal => 0,
            Band::Cold => 1,
            Band::Hot => 2,
            Band::Cool => 3,
            Band::Warm => 4,
            Band::Mixed => 7,
        }
    }
}

/// How far back past its threshold a held band is left.
const BACK: i64 = 1_000;

/// One thermistor's by the sheet's first edition: "Band, first that holds:
/// EN_TS 0 normal; TS >= TH1 cold; TS <= TH5 hot; with EN_JEITA: TS >= TH2
/// cool; TS <= TH3 warm; else normal." The order matters, as the thresholds can
/// be set to overlap.
fn afresh(stored: &Stored, ts: u32) -> TsBand {
    if !stored.en_ts() {
        TsBand::Normal
    } else if ts >= stored.th1() {
        TsBand::Cold
    } else if ts <= stored.th5() {
        TsBand::Hot
    } else if stored.en_jeita() && ts >= stored.th2() {
        TsBand::Cool
    } else if stored.en_jeita() && ts <= stored.th3() {
        TsBand::Warm
    } else {
        TsBand::Normal
    }
}

/// How far TS is back past the threshold that lets a band in, below 0 where it
/// isn't: "Moved thresholds are read as they stand". Normal has none; cool and
/// warm have none without EN_JEITA, and none has one without EN_TS.
fn way_back(stored: &Stored, held: TsBand, ts: u32) -> Option<i64> {
    let [ts, th1, th2, th3, th5] =
        [ts, stored.th1(), stored.th2(), stored.th3(), stored.th5()].map(i64::from);
    let back = match held {
        TsBand::Normal => None,
        TsBand::Cold => Some(th1 - ts),
        TsBand::Hot => Some(ts - th5),
        TsBand::Cool => stored.en_jeita().then_some(th2 - ts),
        TsBand::Warm => stored.en_jeita().then_some(ts - th3),
    };
    back.filter(|_| stored.en_ts())
}

/// One thermistor's by the second edition: what is held stays "until TS is
/// 1,000 units or more back past the threshold that let it in"; "Cold and hot
/// are entered at once. A band that is left is judged afresh".
fn held_on(stored: &Stored, held: TsBand, ts: u32) -> TsBand {
    let fresh = afresh(stored, ts);
    let at_once = matches!(fresh, TsBand::Cold | TsBand::Hot);
    match way_back(stored, held, ts) {
        Some(back) if back < BACK && !at_once => held,
        _ => fresh,
    }
}

/// One thermistor's by the edition of the pack's sheet.
fn of_one(State { stored, edition, .. }: &State, held: TsBand, ts: u32) -> TsBand {
    match edition {
        1 => afresh(stored, ts),
        _ => held_on(stored, held, ts),
    }
}

/// Both, "for each thermistor by itself" and "judged by the same registers".
pub(crate) fn settled(state: &State) -> [TsBand; 2] {
    let [first, second] = state.bands;
    [of_one(state, first, state.sample.ts), of_one(state, second, state.second)]
}

/// "If either is cold the band is cold, else if either is hot it is hot; cool
/// beside warm counts as a new band, apart, [...]; otherwise the one that isn't
/// normal decides."
fn joined(first: TsBand, second: TsBand) -> Band {
    match (first, second) {
        (TsBand::Cold, _) | (_, TsBand::Cold) => Band::Cold,
        (TsBand::Hot, _) | (_, TsBand::Hot) => Band::Hot,
        (TsBand::Cool, TsBand::Warm) | (TsBand::Warm, TsBand::Cool) => Band::Mixed,
        (TsBand::Normal, other) | (other, _) => other.of_both(),
    }
}

/// The band of both thermistors, as they are held.
pub fn of_state(state: &State) -> Band {
    let [first, second] = state.bands;
    joined(first, second)
}

/// The band of a model; normal before a power-on.
pub fn band(model: &Model) -> Band {
    match model {
        Model::Off => Band::Normal,
        Model::On(state) => of_state(state),
    }
}
