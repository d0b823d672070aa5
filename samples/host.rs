//! A Rust host of the library: tunes the DAC to coarse 1, fine 3, plays a period in two calls, and tells the count of its high clocks, which is 41 after 5000 clocks
//! and 131 at the end.
//! samples/try samples/host.rs compiles and runs it.

#[repr(C)]
struct Pair {
    coarse: u8,
    fine: u8,
}

#[repr(C)]
struct Dac {
    position: u16,
    held: Pair,
    completed: Pair,
    in_force: Pair,
    high: u16,
}

#[repr(C)]
struct Answer {
    number: u32,
    place: u32,
    value: u32,
}

const PERIOD: u32 = 16384;

// As include/dirgeflint.h declares them. Nothing checks these lines against the library: copy them with care.
extern "C" {
    fn dirgeflint_dac_reset(dac: *mut Dac);
    fn dirgeflint_dac_write_low(dac: *mut Dac, byte: u8);
    fn dirgeflint_dac_write_high(dac: *mut Dac, byte: u8);
    fn dirgeflint_dac_play(dac: *mut Dac, clocks: u32, levels: *mut u8, levels_length: usize) -> Answer;
}

impl Dac {
    fn new() -> Dac {
        let mut dac = std::mem::MaybeUninit::uninit();
        // A reset fills the whole record.
        unsafe {
            dirgeflint_dac_reset(dac.as_mut_ptr());
            dac.assume_init()
        }
    }

    // The low half first: it is the high write that completes the pair.
    fn tune(&mut self, coarse: u8, fine: u8) {
        unsafe {
            dirgeflint_dac_write_low(self, fine);
            dirgeflint_dac_write_high(self, coarse);
        }
    }

    // How many clocks were high from the last first clock of a period on; or the number of the refusal.
    fn play(&mut self, clocks: u32, levels: &mut [u8]) -> Result<u32, u32> {
        // The library writes to the record and to the slice, and nowhere else.
        let answer = unsafe { dirgeflint_dac_play(self, clocks, levels.as_mut_ptr(), levels.len()) };
        match answer.number {
            0 => Ok(answer.value),
            number => Err(number),
        }
    }
}

fn main() {
    let mut dac = Dac::new();
    let mut levels = [0; PERIOD as usize];
    dac.tune(1, 3);
    let so_far = dac.play(5000, &mut levels).expect("5000 clocks fit");
    println!("high clocks so far: {so_far}");
    dac.play(PERIOD - 5000, &mut levels).expect("the rest of a period fits");
    // The record has the count too, and keeps it until the next period begins.
    println!("high clocks of a period: {}", dac.high);
    println!("one clock too many: refused with {}", dac.play(PERIOD + 1, &mut levels).unwrap_err());
}
