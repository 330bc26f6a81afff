//! The wrong models, and the switch that turns one of them on.

use std::sync::atomic::{AtomicU32, Ordering};

include!("fault_list.rs");

/// 0, or the number of the fault that is on.
static ON: AtomicU32 = AtomicU32::new(0);

#[inline]
pub fn is_on(number: u32) -> bool {
    ON.load(Ordering::Relaxed) == number
}

pub fn turn_on(number: u32) {
    ON.store(number, Ordering::Relaxed);
}

/// What each fault does, in order.
pub fn names() -> impl Iterator<Item = &'static str> {
    faults().map(|(_, fault)| fault.says)
}
