//! The night of nights/example-ready.txt by calls from Rust; like example.c it prints a line for
//! each call. A module owns its image and its state, and `&mut self` keeps them apart from what
//! else is lent, so that all a C caller owes is held by the borrow checker.
//!
//! rustc --edition 2021 -L target/firmware/TARGET firmware/example.rs

#[link(name = "registers", kind = "static")]
extern "C" {
    fn registers_start(image: *mut u8, image_length: u64, state: *mut u8, state_length: u64)
        -> u32;
    fn registers_write(
        image: *mut u8,
        image_length: u64,
        state: *mut u8,
        state_length: u64,
        address: u8,
        bytes: *const u8,
        length: u64,
    ) -> u32;
    fn registers_read(
        image: *mut u8,
        image_length: u64,
        state: *mut u8,
        state_length: u64,
        address: u8,
        count: u8,
        buffer: *mut u8,
        buffer_length: u64,
    ) -> u32;
    fn registers_work(
        image: *mut u8,
        image_length: u64,
        state: *mut u8,
        state_length: u64,
        lane: u8,
    ) -> u32;
    fn registers_hardware(
        image: *mut u8,
        image_length: u64,
        state: *mut u8,
        state_length: u64,
        lane: u8,
    ) -> u32;
    fn registers_move_module(
        image: *mut u8,
        image_length: u64,
        state: *mut u8,
        state_length: u64,
    ) -> u32;
}

const IMAGE_LENGTH: usize = 896;
const STATE_LENGTH: usize = 129;
const READ_LIMIT: usize = 128;

/// Why a call was refused: the answer's number.
type Refusal = u8;

struct Module {
    image: [u8; IMAGE_LENGTH],
    state: [u8; STATE_LENGTH],
}

impl Module {
    /// A call with this module lent to it: the lanes to be commissioned, or why it was refused.
    fn lent(
        &mut self,
        call: impl FnOnce(*mut u8, u64, *mut u8, u64) -> u32,
    ) -> Result<u8, Refusal> {
        let (image, state) = (&mut self.image, &mut self.state);
        let result = call(
            image.as_mut_ptr(),
            image.len() as u64,
            state.as_mut_ptr(),
            state.len() as u64,
        );
        match result as u8 {
            0 => Ok((result >> 8) as u8),
            answer => Err(answer),
        }
    }

    fn start(image: [u8; IMAGE_LENGTH]) -> Result<Module, Refusal> {
        let state = [0; STATE_LENGTH];
        let mut module = Module { image, state };
        module.lent(|i, n, s, m| unsafe { registers_start(i, n, s, m) })?;
        Ok(module)
    }

    fn write(&mut self, address: u8, bytes: &[u8]) -> Result<u8, Refusal> {
        let (pointer, length) = (bytes.as_ptr(), bytes.len() as u64);
        self.lent(|i, n, s, m| unsafe { registers_write(i, n, s, m, address, pointer, length) })
    }

    fn read(&mut self, address: u8, count: u8) -> Result<Vec<u8>, Refusal> {
        let mut buffer = vec![0; READ_LIMIT];
        let (to, length) = (buffer.as_mut_ptr(), buffer.len() as u64);
        self.lent(|i, n, s, m| unsafe { registers_read(i, n, s, m, address, count, to, length) })?;
        buffer.truncate(count.into());
        Ok(buffer)
    }

    fn work(&mut self, lane: u8) -> Result<u8, Refusal> {
        self.lent(|i, n, s, m| unsafe { registers_work(i, n, s, m, lane) })
    }

    fn hardware(&mut self, lane: u8) -> Result<u8, Refusal> {
        self.lent(|i, n, s, m| unsafe { registers_hardware(i, n, s, m, lane) })
    }

    fn move_module(&mut self) -> Result<u8, Refusal> {
        self.lent(|i, n, s, m| unsafe { registers_move_module(i, n, s, m) })
    }
}

/// Prints lines, and counts them.
struct Lines(usize);

impl Lines {
    fn line(&mut self, outcome: Result<Vec<u8>, Refusal>) {
        let answer = outcome.as_ref().err().unwrap_or(&0);
        let bytes = outcome.as_deref().unwrap_or(&[]);
        let bytes: String = bytes.iter().map(|byte| format!(" {byte:02x}")).collect();
        println!("{} {answer}{bytes}", self.0);
        self.0 += 1;
    }

    fn done(&mut self, outcome: Result<u8, Refusal>) {
        self.line(outcome.map(|_| Vec::new()));
    }
}

fn main() -> Result<(), Refusal> {
    let mut image = [0; IMAGE_LENGTH];
    image[88..90].copy_from_slice(&[0x44, 0x11]);
    let mut module = Module::start(image)?;
    let mut lines = Lines(0);

    lines.done(module.write(127, &[0x10]));
    lines.done(module.write(145, &[0x10; 4]));
    lines.done(module.write(143, &[0x0f]));
    lines.done(module.work(0));
    lines.done(module.write(127, &[0x11]));
    lines.line(module.read(202, 4));
    for _ in 0..4 {
        lines.done(module.work(3));
    }
    lines.line(module.read(202, 4));
    lines.line(module.read(206, 5));
    lines.line(module.read(235, 1));
    lines.done(module.work(3));
    lines.done(module.move_module());
    lines.done(module.move_module());
    lines.done(module.hardware(0));
    lines.line(module.read(128, 2));
    Ok(())
}
