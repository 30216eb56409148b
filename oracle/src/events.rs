//! Counts kept beside an offset: its completed events, and the finished rings
//! visited so far. One set a thread.

use std::cell::Cell;

/// Completed events of the main loop of `offset_rings`.
#[derive(Debug, Clone, Copy, PartialEq, Eq, Default)]
pub struct Events {
    /// Edges that shrank to nothing.
    pub collapses: usize,
    /// Splits of a ring into two.
    pub divides: usize,
    /// Splits that made two rings one.
    pub joins: usize,
}

thread_local! {
    static EVENTS: Cell<Events> = const { Cell::new(Events { collapses: 0, divides: 0, joins: 0 }) };
    static RINGS: Cell<usize> = const { Cell::new(0) };
}

/// Forgets what was counted.
pub fn clear() {
    EVENTS.set(Events::default());
    RINGS.set(0);
}

/// Events counted since `clear`.
pub fn events() -> Events {
    EVENTS.get()
}

/// Finished rings visited since `clear`.
pub fn rings() -> usize {
    RINGS.get()
}

/// An event was completed: a collapse, or a split with whether vertex and edge
/// were in one ring before it.
pub fn completed(divides: Option<bool>) {
    let mut events = EVENTS.get();
    match divides {
        None => events.collapses += 1,
        Some(true) => events.divides += 1,
        Some(false) => events.joins += 1,
    }
    EVENTS.set(events);
}

/// A finished ring is about to be visited.
pub fn visiting() {
    RINGS.set(RINGS.get() + 1);
}
