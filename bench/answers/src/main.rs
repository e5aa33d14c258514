//! The original's answers as lines of numbers in hexadecimal, for the program `replay`:
//!   1 MODE REFERENCE MULTIPLIER tail                            start-up
//!   2 MODE REFERENCE MULTIPLIER REGISTER SET X MASK tail        a setting of X (SET 1) or a reading (SET 0) of CFTW0, CPOW0 or ACR, on that clock
//!   3 tail                                                      self test
//!   4 ADDRESS tail                                              CSR or FR1 read
//!   5 MODE N (MASK PRESENCE WORD PHASE ACR)xN COUNT WORDS       a profile, finalised
//! where a tail is: the action that fails, from 1 (0 none); the error's number; the value, bits of a float, or 1 for a test that passed; how many
//! actions there were; and four numbers of each. `answers all` prints every line, `answers sample` the sample that is stored.
//!
//! One listed difference is taken out: for an amplitude reading the original is handed the ACR with its multiplier bit turned.
use ad9959::{Acr, Ad9959, Error, Mode, ProfileSerializer};
use arbitrary_int::{u2, u4, u5, u14, u24};
use mock::{Bus, Pin};
use std::num::Wrapping;

type Dds = Ad9959<Bus>;

fn mode(n: u32) -> Mode {
    Mode::new_with_raw_value(u2::new(n as u8))
}

fn number(e: &Error) -> u32 {
    match e {
        Error::Interface => 1,
        Error::Check => 2,
        Error::Bounds => 3,
        Error::Pin => 4,
        Error::Frequency => 5,
    }
}

fn bits(x: f32) -> u32 {
    if x.is_nan() { 0x7fc0_0000 } else { x.to_bits() }
}

fn start(bus: &Bus, m: u32, reference: f32, multiplier: u32) -> Result<Dds, Error> {
    let (mut reset, mut update, mut delay) = (Pin(1, bus.clone()), Pin(0, bus.clone()), bus.clone());
    Ad9959::new(bus.clone(), &mut reset, &mut update, &mut delay, mode(m), reference, u5::new(multiplier as u8))
}

/// A bus on which the next run fails at one action and reads what it is told.
fn told(bus: &Bus, fails: usize, gives: &[(usize, u32)]) {
    bus.take_log();
    let mut w = bus.0.borrow_mut();
    w.fails = fails;
    w.gives = gives.iter().copied().collect();
}

fn line(head: &[u32], bus: &Bus, r: Result<u32, Error>) -> String {
    let fails = bus.0.borrow().fails as u32;
    let log = bus.take_log();
    let tail = match &r {
        Ok(value) => [fails, 0, *value, log.len() as u32],
        Err(e) => [fails, number(e), 0, log.len() as u32],
    };
    let all = head.iter().chain(&tail).chain(log.iter().flatten());
    all.map(|n| format!("{n:x}")).collect::<Vec<_>>().join(" ")
}

const CLOCKS: [(f32, u32); 22] = [
    (125e6, 4), (10e6, 20), (10e6, 19), (268435456.0, 1), (1e6, 1), (500e6, 1), (65e6, 1), (111e6, 1), (25e6, 20), (50e6, 4), (49.999996e6, 4),
    (10e6, 4), (10e6, 9), (125.00001e6, 4), (999999.9, 1), (500.00003e6, 1), (100e6, 2), (100e6, 0), (20e6, 31), (f32::NAN, 4), (f32::INFINITY, 1), (-125e6, 4),
];

fn startups(out: &mut Vec<String>) {
    let mut run = |m: u32, (reference, multiplier): (f32, u32), fails: usize, gives: &[(usize, u32)]| {
        let bus = Bus::default();
        told(&bus, fails, gives);
        let r = start(&bus, m, reference, multiplier).map(|_| 0);
        out.push(line(&[1, m, reference.to_bits(), multiplier], &bus, r));
    };
    for m in 0..4 {
        for fails in 0..=17 {
            run(m, (125e6, 4), fails, &[(13, 0x6f_a5c3)]);
        }
        for clock in CLOCKS {
            for fr1 in [0, 0xff_ffff, 0x7f_ff6f, 0x80_0001] {
                run(m, clock, 0, &[(13, fr1)]);
            }
            run(m, clock, 0, &[(12, 0xf0 + 2 * ((m + 1) % 4))]);
        }
        for csr in 0..=255 {
            run(m, (125e6, 4), 0, &[(12, csr)]);
        }
    }
}

const PHASES: [f32; 18] = [0.0, -0.0, 0.25, 0.75, 3.75, 1.0, 4.0, -0.25, f32::NAN, f32::INFINITY, f32::NEG_INFINITY, 0.99999994, 5.5, 1e-10, 3.9999998, 6.1035156e-5, 0.5, 123456.0];
const AMPLITUDES: [f32; 16] = [0.0, -0.0, 0.5, 1.0, 1.0000001, -1e-30, f32::NAN, 0.9999, 0.99999994, 0.0009765625, 0.0009, 0.25, f32::INFINITY, -1.0, 0.999, 2.0];
const FREQUENCIES: [f32; 22] = [
    0.0, -0.0, 1e6, 80e6, 268435456.0, 268435488.0, 268435440.0, -1.0, f32::NAN, f32::INFINITY, f32::NEG_INFINITY, 0.06, 134217728.0, 500e6, 500.00003e6, 65e6, 64999996.0, 111000008.0,
    111e6, 1e-40, -1e-40, 33554432.0,
];

fn transfers(out: &mut Vec<String>) {
    for (k, (reference, multiplier)) in CLOCKS[..9].iter().copied().enumerate() {
        let m = k as u32 % 4;
        let bus = Bus::default();
        let mut dds = start(&bus, m, reference, multiplier).ok().expect("the first nine clocks are good");
        let mut run = |register: u32, set: u32, x: f32, mask: u32, fails: usize, value: u32| {
            let turned = if register == 6 { value ^ 0x1000 } else { value };
            told(&bus, fails, &[(2, turned)]);
            let c = u4::new(mask as u8);
            let r = match (register, set) {
                (4, 1) => dds.set_frequency(c, x),
                (5, 1) => dds.set_phase(c, x),
                (6, 1) => dds.set_amplitude(c, x),
                (4, _) => dds.get_frequency(c),
                (5, _) => dds.get_phase(c),
                _ => dds.get_amplitude(c),
            };
            if set == 0 && register == 6 {
                if let Some(read) = bus.0.borrow_mut().log.get_mut(1) {
                    read[3] ^= 0x1000;
                }
            }
            out.push(line(&[2, m, reference.to_bits(), multiplier, register, set, x.to_bits(), mask], &bus, r.map(bits)));
        };
        for fails in 0..=2 {
            for mask in 0..16 {
                for x in FREQUENCIES {
                    run(4, 1, x, mask, fails, 0);
                }
                for x in PHASES {
                    run(5, 1, x, mask, fails, 0);
                }
                for x in AMPLITUDES {
                    run(6, 1, x, mask, fails, 0);
                }
                for bit in 0..=32u64 {
                    let w = ((1u64 << bit) - 1) as u32 ^ mask << 3;
                    run(4, 0, 0.0, mask, fails, w);
                    run(5, 0, 0.0, mask, fails, w & 0xffff);
                    run(6, 0, 0.0, mask, fails, w & 0xff_ffff);
                }
            }
        }
    }
}

fn tests_and_registers(out: &mut Vec<String>) {
    let bus = Bus::default();
    let mut dds = start(&bus, 3, 125e6, 4).ok().unwrap();
    for old in 0..=255u32 {
        for gives in [vec![], vec![(3, old)], vec![(5, old)], vec![(3, 0xf0 | old & 7), (5, old & 15)]] {
            told(&bus, 0, &gives);
            bus.0.borrow_mut().registers[0] = old;
            let r = dds.self_test().map(|b| b as u32);
            out.push(line(&[3], &bus, r));
        }
    }
    for fails in 1..=6 {
        told(&bus, fails, &[]);
        bus.0.borrow_mut().registers[0] = 0x29;
        let r = dds.self_test().map(|b| b as u32);
        out.push(line(&[3], &bus, r));
    }
    for fails in 0..=1 {
        for k in 0..=24 {
            told(&bus, fails, &[(1, (1 << k) - 1 & 0xff)]);
            let r = dds.csr().map(|c| c.raw_value() as u32);
            out.push(line(&[4, 0], &bus, r));
            told(&bus, fails, &[(1, (1 << k) - 1)]);
            let r = dds.fr1().map(|f| f.raw_value().value());
            out.push(line(&[4, 1], &bus, r));
        }
    }
}

struct Rng(u64);

impl Rng {
    fn next(&mut self) -> u64 {
        self.0 ^= self.0 << 13;
        self.0 ^= self.0 >> 7;
        self.0 ^= self.0 << 17;
        self.0
    }
}

/// Profiles that the original takes: what it can't take or finalise is compared by `compare`.
fn profiles(out: &mut Vec<String>) {
    let mut rng = Rng(0x2545_f491_4f6c_dd1d);
    for k in 0..4000u32 {
        let m = k % 4;
        let (mut s, mut length, mut head) = (ProfileSerializer::new(mode(m)), 0, vec![]);
        for _ in 0..rng.next() % 9 {
            let r = rng.next();
            let (mask, presence, word, phase, acr) = (r as u32 & 15, (r >> 4) as u32 & 7, (r >> 8) as u32, (r >> 40) as u32 & 0x3fff, rng.next() as u32 & 0xff_ffff);
            let size = 2 + (presence & 1) * 5 + (presence >> 1 & 1) * 3 + (presence >> 2) * 4;
            if length + size > 32 || length + size == 31 {
                break;
            }
            length += size;
            let given = |bit: u32| presence & bit != 0;
            s.push(u4::new(mask as u8), given(1).then_some(Wrapping(word as i32)), given(2).then(|| Wrapping(u14::new(phase as u16))), given(4).then(|| Acr::new_with_raw_value(u24::new(acr))));
            head.extend([mask, presence, word, phase, acr]);
        }
        let words = s.finalize();
        let all = [5, m, head.len() as u32 / 5].into_iter().chain(head.iter().copied()).chain([words.len() as u32]).chain(words.iter().copied());
        out.push(all.map(|n| format!("{n:x}")).collect::<Vec<_>>().join(" "));
    }
}

fn main() {
    let mut parts = [vec![], vec![], vec![], vec![]];
    startups(&mut parts[0]);
    transfers(&mut parts[1]);
    tests_and_registers(&mut parts[2]);
    profiles(&mut parts[3]);
    let sample = std::env::args().nth(1).as_deref() == Some("sample");
    for lines in &parts {
        // A step without a common factor with the loops above, so that every kind of line is met.
        let step = if sample { lines.len() / 120 | 1 } else { 1 };
        for l in lines.iter().step_by(step) {
            println!("{l}");
        }
    }
}
