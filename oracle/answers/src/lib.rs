//! Which copy of the Rust answers, and the requests that it answers.

pub mod line;
pub mod requests;

use terms::{Probed, Rust};

/// The Rust for a weight: at its own, 2.15, the unchanged files; at another the copy that asks for it.
pub fn rust(weight: f32) -> &'static dyn Rust {
    if weight == 2.15 {
        return &unchanged::Door;
    }
    terms::host::set_weight(weight);
    &probed::Door
}

/// The copy with probes, at any weight.
pub fn probed(weight: f32) -> &'static dyn Probed {
    terms::host::set_weight(weight);
    &probed::Door
}
