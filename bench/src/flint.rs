//! FLINT's Berlekamp–Massey for one sequence, through `flint.c`.

use common::interface::Register;

unsafe extern "C" {
    fn flint_start(p: u32);
    fn flint_end();
    fn flint_find(symbols: *const u16, count: usize, taps: *mut u16) -> usize;
}

/// FLINT's state for a prime. There is one at a time.
pub struct Flint(());

impl Flint {
    pub fn new(p: u32) -> Flint {
        // SAFETY: the state is made before its first use.
        unsafe { flint_start(p) };
        Flint(())
    }

    /// The length and taps of a register that is alone.
    pub fn find(&self, symbols: &[u16], taps: &mut [u16]) -> Register {
        assert!(symbols.len() <= 128 && taps.len() > symbols.len());
        // SAFETY: the shim's buffer holds 128 symbols, and a register is no longer than its sequence.
        let length = unsafe { flint_find(symbols.as_ptr(), symbols.len(), taps.as_mut_ptr()) };
        Register {
            refusal: 0,
            length: length as u64,
            alone: 1,
        }
    }
}

impl Drop for Flint {
    fn drop(&mut self) {
        // SAFETY: the state was made, and nobody uses it afterwards.
        unsafe { flint_end() };
    }
}
