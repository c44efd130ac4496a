//! ragbasalt_plan_histories again and again on a plan: for counts of instructions. See bench/histories.

#[allow(dead_code)]
#[path = "../tests/calls/library.rs"]
mod library;

use library::*;
use std::hint::black_box;

/// The masks tried: all of them after each beginning that is listed, by the last R masks alone. Beside them how many histories are listed.
fn tried(nodes: u32, period: usize, frames: usize) -> (u64, u64) {
    let mut begun: Vec<Vec<u32>> = vec![vec![]];
    let mut masks = 0;
    for _ in 0..frames {
        masks += (begun.len() as u64) << nodes;
        begun = begun
            .iter()
            .flat_map(|h| {
                let bad = h.iter().rev().take(period).fold(0, |all, mask| all | mask);
                (0..1u32 << nodes).filter(move |mask| 2 * (bad | mask).count_ones() < nodes).map(|mask| [&h[..], &[mask]].concat())
            })
            .collect();
    }
    (masks, begun.len() as u64)
}

fn main() {
    let arguments: Vec<String> = std::env::args().collect();
    let [_, what, frames, times, file] = &arguments[..] else {
        panic!("usage: histories call|tried FRAMES TIMES PLAN");
    };
    let (frames, times): (usize, u64) = (frames.parse().expect("frames"), times.parse().expect("a count"));
    let text = std::fs::read(file).expect("a plan");
    let mut words = [0u64; 446];
    let mut masks = vec![0u8; 29_584];
    let (mut count, mut period) = (0, 0);
    unsafe {
        assert_eq!(ragbasalt_plan_read(text.as_ptr(), text.len(), words.as_mut_ptr()), 0, "the plan is not accepted");
        match what.as_str() {
            "call" => {
                for _ in 0..times {
                    black_box(ragbasalt_plan_histories(words.as_ptr(), frames, masks.as_mut_ptr(), masks.len(), &mut count));
                }
            }
            _ => {
                ragbasalt_plan_period(words.as_ptr(), &mut period);
                let (masks, listed) = tried(words[0] as u32, period, frames);
                println!("{period} {listed} {masks}");
            }
        }
    }
}
