//! Counts of comparisons, by what was compared; listed differences by their name; the first few that are on no list.
use std::collections::BTreeMap;
use std::fmt::Debug;

#[derive(Default)]
pub struct Tally {
    pub what: &'static str,
    compared: BTreeMap<&'static str, u64>,
    listed: BTreeMap<&'static str, u64>,
    unlisted: u64,
}

impl Tally {
    pub fn about(&mut self, what: &'static str) {
        self.what = what;
    }

    /// One comparison. `input` is called only where the two differ.
    pub fn same<T: PartialEq + Debug>(&mut self, original: T, port: T, input: impl FnOnce() -> String) {
        *self.compared.entry(self.what).or_default() += 1;
        if original != port {
            self.unlisted += 1;
            if self.unlisted <= 20 {
                println!("DIFFERENT {}: {}: original {original:?}, port {port:?}", self.what, input());
            }
        }
    }

    /// One comparison in which the two must differ just so.
    pub fn listed(&mut self, name: &'static str, as_listed: bool, input: impl FnOnce() -> String) {
        *self.compared.entry(self.what).or_default() += 1;
        if as_listed {
            *self.listed.entry(name).or_default() += 1;
        } else {
            self.unlisted += 1;
            if self.unlisted <= 20 {
                println!("DIFFERENT {}, not as listed ({name}): {}", self.what, input());
            }
        }
    }

    pub fn report(&self) {
        for (what, n) in &self.compared {
            println!("compared {n} {what}");
        }
        for (name, n) in &self.listed {
            println!("listed difference, {n} times: {name}");
        }
        println!("{} comparisons, {} unlisted differences", self.compared.values().sum::<u64>(), self.unlisted);
        if self.unlisted != 0 {
            std::process::exit(1);
        }
    }
}

/// Deterministic numbers.
pub struct Rng(pub u64);

impl Rng {
    pub fn next(&mut self) -> u64 {
        self.0 ^= self.0 << 13;
        self.0 ^= self.0 >> 7;
        self.0 ^= self.0 << 17;
        self.0
    }
}
