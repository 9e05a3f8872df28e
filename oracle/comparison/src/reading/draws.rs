//! The draws of docs/SCOPE.md: SplitMix64, the shuffle, and the cycle from the number of draws made.

fn output(state: &mut u64) -> u64 {
    *state = state.wrapping_add(0x9e37_79b9_7f4a_7c15);
    let once = (*state ^ *state >> 30).wrapping_mul(0xbf58_476d_1ce4_e5b9);
    let twice = (once ^ once >> 27).wrapping_mul(0x94d0_49bb_1331_11eb);
    twice ^ twice >> 31
}

pub fn shuffle(order: &mut [u32], state: &mut u64) {
    for i in (1..order.len()).rev() {
        order.swap(i, (output(state) % (i as u64 + 1)) as usize);
    }
}

/// The order at the start.
pub fn first_order(n: usize, state: &mut u64) -> Vec<u32> {
    let mut order: Vec<u32> = (0..n as u32).collect();
    shuffle(&mut order, state);
    order
}

/// The sample of the draw after `made` others.
pub fn sample(order: &mut [u32], state: &mut u64, made: u64) -> usize {
    let place = made as usize % order.len();
    if place == 0 && made > 0 {
        shuffle(order, state);
    }
    order[place] as usize
}
