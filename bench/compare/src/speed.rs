//! Loops of one side each, for instruction counts and native time: the C functions as they are, and the original behind one function each. The
//! inputs are hidden from the compiler, and so are the results.
use crate::original::{self, Registers};
use ad9959::ProfileSerializer;
use port::{Profile, sys};
use std::hint::black_box as hide;
use std::time::Instant;

pub const MEASURES: [&str; 13] = [
    "push-word", "push-all", "push-four", "finalize-word", "finalize-all", "finalize-four", "phase", "amplitude", "frequency", "clock", "read-phase", "read-amplitude", "read-frequency",
];

/// (mask, presence) of the pushes of a measure.
fn pushes(what: &str) -> &'static [(u32, u32)] {
    match what.rsplit('-').next() {
        Some("word") => &[(1, 1)],
        Some("all") => &[(1, 7)],
        _ => &[(1, 1), (2, 1), (4, 1), (8, 1)],
    }
}

fn profile(side: &str, what: &str, n: u64) {
    let (pushes, fin) = (pushes(what), what.starts_with("finalize"));
    let (mut words, mut count) = ([0; 8], 0);
    for k in 0..n {
        let word = k as i32;
        match side {
            "original" => {
                let mut s = ProfileSerializer::new(original::mode(3));
                for &(mask, presence) in hide(pushes) {
                    original::push(&mut s, mask, presence, hide(word), hide(0x1234), hide(0x1200));
                }
                if fin {
                    hide(original::finalize(&mut s));
                }
                hide(&mut s);
            }
            "port" => {
                let mut p = Profile::new(3);
                for &(mask, presence) in hide(pushes) {
                    sys::ad9959_push(p.mode, &mut p.length, &mut p.bytes, mask, presence, hide(word), hide(0x1234), hide(0x1200));
                }
                if fin {
                    // SAFETY: the pointer and the length are one array's.
                    unsafe { sys::ad9959_finalize(p.mode, &mut p.length, &mut p.bytes, words.as_mut_ptr(), 8, &mut count) };
                    hide((&mut words, count));
                }
                hide(&mut p);
            }
            _ => {
                let mut p = Profile::new(3);
                for &(mask, presence) in hide(pushes) {
                    hide((mask, presence, hide(word), hide(0x1234), hide(0x1200)));
                }
                hide(&mut p);
            }
        }
    }
}

fn inputs(what: &str) -> [f32; 4] {
    match what {
        "phase" => [0.25, 0.9999, 3.75, 0.001],
        "amplitude" => [0.5, 0.999, 1.0, 0.0625],
        "frequency" => [80e6, 100e6, 1e3, 250e6],
        _ => [125e6, 25e6, 100e6, 30e6],
    }
}

fn conversion(side: &str, what: &str, n: u64) {
    let r = Registers::default();
    let mut dds = original::start(&r, 3, 125e6, 4).ok().unwrap();
    let ratio = port::clock(125e6, 4).unwrap().ratio;
    r.0[4].set(0x3333_3340);
    r.0[5].set(0x1234);
    r.0[6].set(0x1200);
    let xs = inputs(what);
    let (mut word, mut value, mut system) = (0, 0.0, 0.0);
    for k in 0..n {
        let x = hide(xs[k as usize % 4]);
        match (side, what) {
            ("original", "phase") => drop(hide(original::set_phase(&mut dds, x))),
            ("original", "amplitude") => drop(hide(original::set_amplitude(&mut dds, x))),
            ("original", "frequency") => drop(hide(original::set_frequency(&mut dds, x))),
            ("original", "clock") => drop(hide(original::start(&Registers::default(), 3, x, hide(4)).is_ok())),
            ("original", "read-phase") => drop(hide(original::get_phase(&mut dds))),
            ("original", "read-amplitude") => drop(hide(original::get_amplitude(&mut dds))),
            ("original", "read-frequency") => drop(hide(original::get_frequency(&mut dds))),
            ("port", "phase") => drop(hide((sys::ad9959_phase(x, &mut word, &mut value), word, value))),
            ("port", "amplitude") => drop(hide((sys::ad9959_amplitude(x, &mut word, &mut value), word, value))),
            ("port", "frequency") => drop(hide((sys::ad9959_frequency(ratio, x, &mut word, &mut value), word, value))),
            ("port", "clock") => drop(hide((sys::ad9959_clock(x, hide(4), &mut system, &mut word, &mut value), system, word, value))),
            ("port", "read-phase") => drop(hide((sys::ad9959_read_phase(hide(0x1234), &mut value), value))),
            ("port", "read-amplitude") => drop(hide((sys::ad9959_read_amplitude(hide(0x1200), &mut value), value))),
            ("port", "read-frequency") => drop(hide((sys::ad9959_read_frequency(ratio, hide(0x3333_3340), &mut value), value))),
            _ => (),
        }
    }
}

pub fn run(side: &str, what: &str, n: u64) {
    if what.starts_with("push") || what.starts_with("finalize") { profile(side, what, n) } else { conversion(side, what, n) }
}

/// Best of nine, in nanoseconds, the two sides and the empty loop in turns.
pub fn time() {
    let n = 300_000;
    for what in MEASURES {
        let mut best = [f64::MAX; 3];
        for _ in 0..9 {
            for (b, side) in best.iter_mut().zip(["original", "port", "empty"]) {
                let t = Instant::now();
                run(side, what, n);
                *b = b.min(t.elapsed().as_secs_f64() * 1e9 / n as f64);
            }
        }
        let [o, p, e] = best;
        println!("{what} {o:.2} {p:.2} {e:.2} {:.3}", (p - e) / (o - e));
    }
}
