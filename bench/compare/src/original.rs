//! The original behind the port's parameters: one function each, over a bus that keeps the last bytes.
use ad9959::{Acr, Ad9959, Address, Error, Interface, Mode, ProfileSerializer};
use arbitrary_int::{u2, u4, u5, u14, u24};
use embedded_hal::{blocking::delay::DelayUs, digital::v2::OutputPin};
use std::cell::Cell;
use std::num::Wrapping;
use std::panic::{AssertUnwindSafe, catch_unwind};

pub fn mode(n: u32) -> Mode {
    Mode::new_with_raw_value(u2::new(n as u8))
}

pub fn number(e: Error) -> u32 {
    match e {
        Error::Interface => 1,
        Error::Check => 2,
        Error::Bounds => 3,
        Error::Pin => 4,
        Error::Frequency => 5,
    }
}

#[inline(never)]
pub fn push(s: &mut ProfileSerializer, mask: u32, presence: u32, word: i32, phase: u32, acr: u32) {
    let w = if presence & 1 != 0 { Some(Wrapping(word)) } else { None };
    let p = if presence & 2 != 0 { Some(Wrapping(u14::new(phase as u16))) } else { None };
    let a = if presence & 4 != 0 { Some(Acr::new_with_raw_value(u24::new(acr))) } else { None };
    s.push(u4::new(mask as u8), w, p, a)
}

#[inline(never)]
pub fn finalize(s: &mut ProfileSerializer) -> &[u32] {
    s.finalize()
}

/// What a call gives, or None where it panics.
pub fn caught<T>(f: impl FnOnce() -> T) -> Option<T> {
    catch_unwind(AssertUnwindSafe(f)).ok()
}

/// The chip's registers, one set for all channels; pins and delays do nothing.
#[derive(Default)]
pub struct Registers(pub [Cell<u32>; 25]);

pub struct Nothing;

impl Interface for &Registers {
    type Error = ();
    fn configure_mode(&mut self, _: Mode) -> Result<(), ()> {
        Ok(())
    }
    #[inline]
    fn write(&mut self, addr: Address, data: &[u8]) -> Result<(), ()> {
        self.0[addr as usize].set(data.iter().fold(0, |v, b| v << 8 | *b as u32));
        Ok(())
    }
    #[inline]
    fn read(&mut self, addr: Address, data: &mut [u8]) -> Result<(), ()> {
        data.copy_from_slice(&self.0[addr as usize].get().to_be_bytes()[4 - data.len()..]);
        Ok(())
    }
}

impl OutputPin for Nothing {
    type Error = ();
    fn set_low(&mut self) -> Result<(), ()> {
        Ok(())
    }
    fn set_high(&mut self) -> Result<(), ()> {
        Ok(())
    }
}

impl DelayUs<u8> for Nothing {
    fn delay_us(&mut self, _: u8) {}
}

pub type Dds<'a> = Ad9959<&'a Registers>;

#[inline(never)]
pub fn start(registers: &Registers, m: u32, reference: f32, multiplier: u32) -> Result<Dds<'_>, u32> {
    Ad9959::new(registers, &mut Nothing, &mut Nothing, &mut Nothing, mode(m), reference, u5::new(multiplier as u8)).map_err(number)
}

#[inline(never)]
pub fn set_phase(dds: &mut Dds<'_>, x: f32) -> Result<f32, u32> {
    dds.set_phase(u4::new(15), x).map_err(number)
}

#[inline(never)]
pub fn set_amplitude(dds: &mut Dds<'_>, x: f32) -> Result<f32, u32> {
    dds.set_amplitude(u4::new(15), x).map_err(number)
}

#[inline(never)]
pub fn set_frequency(dds: &mut Dds<'_>, x: f32) -> Result<f32, u32> {
    dds.set_frequency(u4::new(15), x).map_err(number)
}

#[inline(never)]
pub fn get_phase(dds: &mut Dds<'_>) -> Result<f32, u32> {
    dds.get_phase(u4::new(15)).map_err(number)
}

#[inline(never)]
pub fn get_amplitude(dds: &mut Dds<'_>) -> Result<f32, u32> {
    dds.get_amplitude(u4::new(15)).map_err(number)
}

#[inline(never)]
pub fn get_frequency(dds: &mut Dds<'_>) -> Result<f32, u32> {
    dds.get_frequency(u4::new(15)).map_err(number)
}
