//! Pushes and finalisations: every answer of both sides, and every byte.
use crate::original::{caught, finalize, mode, push};
use crate::tally::{Rng, Tally};
use ad9959::ProfileSerializer;
use port::{Profile, Refusal};

const ROOM: Refusal = Refusal(9);
const TO_31: &str = "a push to length 31 is taken by the original, whose finalize then panics; the port refuses it with Room";
const PAST_32: &str = "a push past 32 bytes panics in the original; the port refuses it with Room and keeps all bytes";

/// A push's numbers: mask, presence, word, phase, ACR.
#[derive(Copy, Clone, Debug)]
pub struct Fields(pub u32, pub u32, pub i32, pub u32, pub u32);

impl Fields {
    fn of(rng: &mut Rng, presence: u32) -> Self {
        let r = rng.next();
        let edge = |most: u32, x: u32| match x % 8 { 0 => 0, 1 => most, _ => x.wrapping_mul(2654435761) & most };
        Fields(r as u32 & 15, presence, edge(u32::MAX, (r >> 4) as u32) as i32, edge(0x3fff, (r >> 20) as u32), edge(0xff_ffff, (r >> 36) as u32))
    }

    fn size(&self) -> usize {
        2 + [(1, 5), (2, 3), (4, 4)].iter().map(|(bit, n)| if self.1 & bit != 0 { *n } else { 0 }).sum::<usize>()
    }
}

/// A step that both sides took.
#[derive(Copy, Clone, Debug)]
enum Step {
    Push(Fields),
    Finalize,
}

/// Both sides so far. The original hands its bytes out only by finalising, and can't be copied, so it is played again.
#[derive(Clone)]
struct Both {
    mode: u32,
    steps: Vec<Step>,
    port: Profile,
}

impl Both {
    fn new(m: u32) -> Self {
        Both { mode: m, steps: vec![], port: Profile::new(m) }
    }

    fn original(&self) -> ProfileSerializer {
        let mut s = ProfileSerializer::new(mode(self.mode));
        for step in &self.steps {
            match step {
                Step::Push(f) => push(&mut s, f.0, f.1, f.2, f.3, f.4),
                Step::Finalize => drop(finalize(&mut s).len()),
            }
        }
        s
    }

    /// One more push on both sides; true where both take it.
    fn push(&mut self, f: Fields, t: &mut Tally) -> bool {
        let before = self.port;
        let port = self.port.push_numbers(f.0, f.1, f.2, f.3, f.4);
        let mut s = self.original();
        let taken = caught(|| push(&mut s, f.0, f.1, f.2, f.3, f.4)).is_some();
        let input = || format!("mode {}, after {:?}, push {f:?}", self.mode, self.steps);
        let end = before.length + f.size();
        if end == 31 {
            let panics = caught(|| finalize(&mut s).len()).is_none();
            t.listed(TO_31, taken && panics && port == Err(ROOM) && self.port == before, input);
        } else if end > 32 {
            t.listed(PAST_32, !taken && port == Err(ROOM) && self.port == before, input);
        } else {
            t.same(taken, port.is_ok(), input);
            self.steps.push(Step::Push(f));
            return port.is_ok();
        }
        false
    }

    /// Finalised twice: the words, and the same again.
    fn finalize(&self, t: &mut Tally) {
        let (mut s, mut p, mut words) = (self.original(), self.port, [0; 8]);
        for _ in 0..2 {
            let original = caught(|| finalize(&mut s).to_vec());
            let port = p.finalize(&mut words).ok().map(|n| words[..n].to_vec());
            t.same(original, port, || format!("mode {}, {:?} finalised", self.mode, self.steps));
        }
    }
}

/// Every mode, mask and presence, with words at both ends and between.
pub fn single(t: &mut Tally) {
    t.about("single pushes, every mode, mask and presence, each finalised twice");
    let mut rng = Rng(0x9e37_79b9_7f4a_7c15);
    for case in 0..4 * 16 * 8 * 64u32 {
        let (m, mask, presence) = (case % 4, case / 4 % 16, case / 64 % 8);
        let mut b = Both::new(m);
        let mut f = Fields::of(&mut rng, presence);
        f.0 = mask;
        b.push(f, t);
        b.finalize(t);
    }
}

/// Every sequence of presence patterns that there is room for, and one push too many of each pattern.
pub fn every_sequence(t: &mut Tally) {
    t.about("pushes and finalisations of every sequence of presence patterns up to 32 bytes");
    for m in 0..4 {
        let mut rng = Rng(77 + m as u64);
        descend(&Both::new(m), &mut rng, t);
    }
}

fn descend(b: &Both, rng: &mut Rng, t: &mut Tally) {
    b.finalize(t);
    for presence in 0..8 {
        let mut next = b.clone();
        if next.push(Fields::of(rng, presence), t) {
            descend(&next, rng, t);
        }
    }
}

/// Long scripts: refused pushes among them, and finalisations that the next pushes go on from.
pub fn random(t: &mut Tally) {
    t.about("steps of random long scripts, refused ones and finalisations among them");
    let mut rng = Rng(0x1234_5678_9abc_def1);
    for _ in 0..20_000 {
        let mut b = Both::new(rng.next() as u32 % 4);
        for _ in 0..rng.next() % 24 {
            let kind = (rng.next() % 10) as u32;
            if kind < 8 {
                b.push(Fields::of(&mut rng, kind), t);
            } else {
                b.finalize(t);
                if b.port.finalize(&mut [0; 8]).is_ok() {
                    b.steps.push(Step::Finalize);
                }
            }
        }
        b.finalize(t);
    }
}
