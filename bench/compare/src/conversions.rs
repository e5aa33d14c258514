//! Clocks, settings and readings: numbers, words and the bits of every float. Two NaNs are the same.
use crate::original::*;
use crate::tally::{Rng, Tally};
use port::Refusal;

const SWAPPED: &str = "get_amplitude gives 1.0 where the multiplier is on and asf / 1024 where it is off; the port the other way round, as the data sheet";
const CLOCKS: [(f32, u32); 12] = [(125e6, 4), (10e6, 20), (10e6, 19), (268435456.0, 1), (1e6, 1), (500e6, 1), (65e6, 1), (111e6, 1), (25e6, 20), (10e6, 10), (100e6, 5), (33.333333e6, 7)];

fn bits(x: f32) -> u32 {
    if x.is_nan() { f32::NAN.to_bits() } else { x.to_bits() }
}

fn told(r: Result<f32, Refusal>) -> Result<u32, u32> {
    r.map(bits).map_err(|e| e.0)
}

/// Each exponent of both signs with every top mantissa bit pattern and edges of the low ones; neighbours of every bound; NaNs and infinities.
fn floats() -> Vec<f32> {
    let mut v = vec![];
    for top in 0..=0xffffu32 {
        for low in [0u32, 1, 0x7fff, 0x8000, 0xffff] {
            v.push(f32::from_bits(top << 16 | low));
        }
    }
    let mut bounds = vec![0.0, 1.0, 4.0, 1e6, 500e6, 10e6, 125e6, 100e6, 200e6, 8.0, 4295.0, 4294967296.0, 2147483648.0, 16777216.0, 65535.0, 65536.0, 0.99999994];
    bounds.extend((0..64).map(|k| k as f32 / 64.0));
    for (reference, multiplier) in CLOCKS {
        if let Ok(c) = port::clock(reference, multiplier) {
            bounds.extend([c.system, c.system / 2.0, 4294967296.0 / c.ratio, c.ratio]);
        }
        bounds.push(reference);
    }
    for b in bounds {
        for d in -40i64..=40 {
            let x = f32::from_bits((b.to_bits() as i64 + d) as u32);
            v.extend([x, -x]);
        }
    }
    v
}

pub fn clocks(t: &mut Tally) {
    t.about("start-ups by clock, every multiplier of five bits: refusal, multiplier, vco_high and FR1's other bits");
    let sparse: Vec<f32> = floats().into_iter().enumerate().filter(|(i, x)| i % 31 == 0 || (9e5..6e8).contains(x)).map(|(_, x)| x).collect();
    for multiplier in 0..32 {
        for &reference in &sparse {
            let r = Registers::default();
            r.0[1].set(0x6f_a5c3);
            let original = start(&r, 3, reference, multiplier).map(|_| r.0[1].get());
            let port = port::clock(reference, multiplier).map(|c| 0x6f_a5c3 & 0x03_ffff | multiplier << 18 | c.vco << 23).map_err(|e| e.0);
            t.same(original, port, || format!("{reference:?} x {multiplier}"));
        }
    }
}

pub fn phases(t: &mut Tally) {
    t.about("phase settings: word and value achieved");
    let r = Registers::default();
    let mut dds = start(&r, 3, 125e6, 4).ok().unwrap();
    for x in floats() {
        let original = set_phase(&mut dds, x).map(|a| (bits(a), r.0[5].get()));
        let port = port::phase(x).map(|s| (bits(s.achieved), s.word)).map_err(|e| e.0);
        t.same(original, port, || format!("{x:?} ({:08x})", x.to_bits()));
    }
}

pub fn amplitudes(t: &mut Tally) {
    t.about("amplitude settings: refusal, ACR and value achieved");
    let r = Registers::default();
    let mut dds = start(&r, 3, 125e6, 4).ok().unwrap();
    for x in floats() {
        let original = set_amplitude(&mut dds, x).map(|a| (bits(a), r.0[6].get()));
        let port = port::amplitude(x).map(|s| (bits(s.achieved), s.word)).map_err(|e| e.0);
        t.same(original, port, || format!("{x:?} ({:08x})", x.to_bits()));
    }
}

pub fn frequencies(t: &mut Tally) {
    t.about("frequency settings on twelve clocks: refusal, word and value achieved");
    let all = floats();
    for (reference, multiplier) in CLOCKS {
        let r = Registers::default();
        let mut dds = start(&r, 3, reference, multiplier).ok().unwrap();
        let ratio = port::clock(reference, multiplier).unwrap().ratio;
        for &x in &all {
            let original = set_frequency(&mut dds, x).map(|a| (bits(a), r.0[4].get()));
            let port = port::frequency(ratio, x).map(|s| (bits(s.achieved), s.word)).map_err(|e| e.0);
            t.same(original, port, || format!("{x:?} on {reference:?} x {multiplier}"));
        }
    }
}

pub fn readings(t: &mut Tally) {
    let r = Registers::default();
    let mut dds = start(&r, 3, 125e6, 4).ok().unwrap();
    let ratio = port::clock(125e6, 4).unwrap().ratio;
    t.about("phase readings, every u16");
    for w in 0..=0xffffu32 {
        r.0[5].set(w);
        t.same(get_phase(&mut dds).map(bits), told(port::read_phase(w)), || format!("{w:04x}"));
    }
    t.about("amplitude readings, every asf and multiplier bit, other bits at random");
    let mut rng = Rng(5);
    for k in 0..1u32 << 17 {
        let acr = k & 0x13ff | rng.next() as u32 & 0xff_ec00;
        r.0[6].set(acr);
        let (original, port) = (get_amplitude(&mut dds).map(bits), told(port::read_amplitude(acr)));
        let other = told(port::read_amplitude(acr ^ 0x1000));
        if port == other {
            t.same(original, port, || format!("{acr:06x}"));
        } else {
            t.listed(SWAPPED, original == other, || format!("{acr:06x}"));
        }
    }
    t.about("frequency readings: every exponent of a word, and words at random");
    for k in 0..1_000_000u64 {
        let w = if k < 4096 { (1u32 << (k % 32)).wrapping_add((k / 32) as u32).wrapping_sub(64) } else { rng.next() as u32 };
        r.0[4].set(w);
        t.same(get_frequency(&mut dds).map(bits), told(port::read_frequency(ratio, w)), || format!("{w:08x}"));
    }
}
