//! A bus, two pins and a delay for the original, which write down each action as four numbers: its kind (1 pin, 2 delay, 3 configure, 4 write,
//! 5 read), its one or two numbers, and what was read. Registers are a plain array of 25, one set for all channels.
use ad9959::{Address, Interface, Mode};
use embedded_hal::{blocking::delay::DelayUs, digital::v2::OutputPin};
use std::{cell::RefCell, collections::BTreeMap, rc::Rc};

#[derive(Default)]
pub struct World {
    pub log: Vec<[u32; 4]>,
    pub registers: [u32; 25],
    /// The number of the action, from 1, that fails; 0 for none.
    pub fails: usize,
    /// What the read that is action k, from 1, gives in place of the register.
    pub gives: BTreeMap<usize, u32>,
}

#[derive(Clone, Default)]
pub struct Bus(pub Rc<RefCell<World>>);

/// io_update is pin 0, reset pin 1.
pub struct Pin(pub u32, pub Bus);

impl Bus {
    /// One action; its number where it does not fail.
    fn act(&self, kind: u32, first: u32, second: u32) -> Result<usize, ()> {
        let mut w = self.0.borrow_mut();
        w.log.push([kind, first, second, 0]);
        let k = w.log.len();
        if w.fails == k { Err(()) } else { Ok(k) }
    }

    pub fn take_log(&self) -> Vec<[u32; 4]> {
        std::mem::take(&mut self.0.borrow_mut().log)
    }
}

impl Interface for Bus {
    type Error = ();

    fn configure_mode(&mut self, mode: Mode) -> Result<(), ()> {
        self.act(3, mode as u32, 0).map(|_| ())
    }

    fn write(&mut self, addr: Address, data: &[u8]) -> Result<(), ()> {
        let (at, value) = (addr as usize, data.iter().fold(0, |v, b| v << 8 | *b as u32));
        self.act(4, at as u32, value)?;
        self.0.borrow_mut().registers[at] = value;
        Ok(())
    }

    fn read(&mut self, addr: Address, data: &mut [u8]) -> Result<(), ()> {
        let at = addr as usize;
        let k = self.act(5, at as u32, 0)?;
        let mut w = self.0.borrow_mut();
        let value = w.gives.get(&k).copied().unwrap_or(w.registers[at]);
        data.copy_from_slice(&value.to_be_bytes()[4 - data.len()..]);
        w.log[k - 1][3] = value;
        Ok(())
    }
}

impl OutputPin for Pin {
    type Error = ();
    fn set_low(&mut self) -> Result<(), ()> {
        self.1.act(1, self.0, 0).map(|_| ())
    }
    fn set_high(&mut self) -> Result<(), ()> {
        self.1.act(1, self.0, 1).map(|_| ())
    }
}

impl DelayUs<u8> for Bus {
    fn delay_us(&mut self, us: u8) {
        // A delay has no result in the trait, so a failure told for it does nothing.
        let _ = self.act(2, us as u32, 0);
    }
}
