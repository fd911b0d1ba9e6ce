//! The state that a step leaves.

use reference::{Model, State, Step};

/// The state, of a step that leaves the model on.
pub fn on(step: &Step) -> State {
    match step.model {
        Model::On(state) => state,
        Model::Off => panic!("not powered"),
    }
}
