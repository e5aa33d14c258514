//! Each declaration of the wrapper called once with an answer and once with a refusal, against document 01's examples.
use port::*;

#[test]
fn push_and_finalize() {
    let mut p = Profile::new(3);
    assert_eq!(p.push(1, Some(0x0102_0304), None, None), Ok(()));
    let mut words = [7; 8];
    assert_eq!(p.finalize(&mut words), Ok(3));
    assert_eq!(words, [0x0104_1600, 0x0704_0302, 0xf600_0000, 7, 7, 7, 7, 7]);
    assert_eq!(p.finalize(&mut words[..2]), Err(Refusal(9)));
    let before = p;
    assert_eq!(p.push(16, None, None, None), Err(Refusal(6)));
    assert_eq!(p.push(1, None, Some(16384), None), Err(Refusal(8)));
    assert_eq!(p.push(1, None, None, Some(1 << 24)), Err(Refusal(8)));
    assert_eq!(p.push_numbers(1, 8, 0, 0, 0), Err(Refusal(8)));
    assert_eq!(p.push_numbers(16, 8, 0, 0, 0), Err(Refusal(6)));
    assert_eq!(p, before);
    assert_eq!(Profile::new(4).push(1, None, None, None), Err(Refusal(7)));
}

#[test]
fn streams() {
    let bytes = [0x00, 0x16, 0x04, 1, 2, 3, 4];
    let (mut addresses, mut values) = ([9; 3], [9; 3]);
    assert_eq!(decode(&bytes, &mut addresses, &mut values), Ok(2));
    assert_eq!((addresses, values), ([0, 4, 9], [0x16, 0x0102_0304, 9]));
    assert_eq!(decode(&bytes[..6], &mut addresses, &mut values), Err(Refusal(11)));
    assert_eq!(decode(&[0x19], &mut addresses, &mut values), Err(Refusal(10)));
    assert_eq!(decode(&bytes, &mut addresses[..1], &mut values), Err(Refusal(9)));
    let mut out = [5; 8];
    assert_eq!(encode(&addresses, &values, 2, &mut out), Ok(7));
    assert_eq!(out, [0x00, 0x16, 0x04, 1, 2, 3, 4, 5]);
    assert_eq!(encode(&addresses, &values, 4, &mut out), Err(Refusal(9)));
    let mut image = [0; 91];
    assert_eq!(feed(&bytes, &mut image), Ok(()));
    assert_eq!((image[0], image[4], image[26]), (0x16, 0x0102_0304, 0));
    assert_eq!(feed(&bytes, &mut image[..90]), Err(Refusal(9)));
}

#[test]
fn conversions() {
    assert_eq!(clock(125e6, 4), Ok(Clock { system: 500e6, vco: 1, ratio: 8.589_934_3 }));
    assert_eq!(clock(10e6, 4), Err(Refusal(3)));
    assert_eq!(phase(0.25), Ok(Setting { word: 0x1000, achieved: 0.25 }));
    assert_eq!(amplitude(0.5), Ok(Setting { word: 0x1200, achieved: 0.5 }));
    assert_eq!(amplitude(1.5), Err(Refusal(3)));
    assert_eq!(frequency(16.0, 1e6), Ok(Setting { word: 16_000_000, achieved: 1e6 }));
    assert_eq!(frequency(16.0, 268435488.0), Err(Refusal(3)));
    assert_eq!(frequency(7.0, 1e6), Err(Refusal(12)));
    assert_eq!((read_phase(0x7000), read_phase(0x10000)), (Ok(0.75), Err(Refusal(8))));
    assert_eq!((read_amplitude(0x1200), read_amplitude(0x200), read_amplitude(1 << 24)), (Ok(0.5), Ok(1.0), Err(Refusal(8))));
    assert_eq!((read_frequency(16.0, 16_000_000), read_frequency(f32::NAN, 1)), (Ok(1e6), Err(Refusal(12))));
    assert_eq!(Refusal(12).to_string(), "12 NotReady");
}
