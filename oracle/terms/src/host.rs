//! The host of the Rust: the weight of a copy that asks for one, reductions, and the Oklab of reduced colours.
//! All of it belongs to a thread.

use std::cell::{Cell, RefCell};
use std::collections::HashMap;
use std::ops::Mul;

use super::Colour;

thread_local! {
    static WEIGHT: Cell<f32> = const { Cell::new(2.15) };
    static KEPT: Cell<Colour> = const { Cell::new([0.0; 3]) };
    static REDUCE: RefCell<Option<Box<dyn FnMut(Colour) -> Colour>>> = const { RefCell::new(None) };
    static NAMED: RefCell<HashMap<[u8; 4], Colour>> = RefCell::new(HashMap::new());
}

/// Stands for the chroma weight in the copy of color.rs: a factor that is read anew at each product.
#[derive(Clone, Copy)]
pub struct Weight;

impl Mul<f32> for Weight {
    type Output = f32;

    #[inline(always)]
    fn mul(self, x: f32) -> f32 {
        WEIGHT.get() * x
    }
}

pub fn set_weight(weight: f32) {
    WEIGHT.set(weight);
}

pub fn keep(colour: Colour) {
    KEPT.set(colour);
}

pub fn kept() -> Colour {
    KEPT.get()
}

/// Runs `work` with `reduce` as the host's reduction.
pub fn with_reduction<R>(reduce: Box<dyn FnMut(Colour) -> Colour>, work: impl FnOnce() -> R) -> R {
    REDUCE.set(Some(reduce));
    let done = work();
    REDUCE.set(None);
    done
}

/// Reduces the kept colour.
pub fn reduce() {
    REDUCE.with_borrow_mut(|reduce| {
        let reduce = reduce.as_mut().expect("a reduction outside a run");
        keep(reduce(kept()));
    });
}

/// Tells the Oklab of each reduced colour, for grouping.
pub fn name(colours: HashMap<[u8; 4], Colour>) {
    NAMED.set(colours);
}

/// Keeps the Oklab of a reduced colour.
pub fn keep_named(bytes: [u8; 4]) {
    NAMED.with_borrow(|named| keep(named[&bytes]));
}
