//! Stands in for the original's builder, which is not at hand: engine.rs names `ReplicaBuilder::new` alone.

use crate::stubs::{ActorId, State};

pub struct ReplicaBuilder<S: State>(pub ActorId, pub S);

impl<S: State> ReplicaBuilder<S> {
    pub fn new(actor: ActorId, state: S) -> Self {
        Self(actor, state)
    }
}
