//! Calls on a stack of our own that is painted before each, so that what the call wrote can be counted. x86-64 alone, with the C calling convention of
//! its Unix systems.
//!
//! Counted is from the return address, which the call itself pushes, down to the lowest word that changed. A frame may be larger where its end is
//! never written. Arguments past the sixth lie above and are the caller's.

use std::arch::asm;

const WORDS: usize = 1 << 15;

/// Words at the top: five arguments and one more, since the stack pointer is a multiple of 16 at a call.
const ARGUMENTS: usize = 6;

/// A piece of the stack whose address is a multiple of 16.
#[derive(Clone, Copy)]
#[repr(align(16))]
struct Pair([u64; 2]);

pub struct Stack {
    pairs: Vec<Pair>,
}

/// Each word has its own paint, which no function writes by chance.
fn paint(place: usize) -> u64 {
    (place as u64 + 1).wrapping_mul(0x9E37_79B9_7F4A_7C15)
}

impl Stack {
    pub fn new() -> Self {
        let mut stack = Self {
            pairs: vec![Pair([0; 2]); WORDS / 2],
        };
        stack.paint_from(0);
        stack
    }

    fn word(&mut self, place: usize) -> &mut u64 {
        &mut self.pairs[place / 2].0[place % 2]
    }

    fn paint_from(&mut self, first: usize) {
        for place in first..WORDS {
            *self.word(place) = paint(place);
        }
    }

    /// Calls a C function and gives what it returns and how many bytes of stack it used; none if it used all there are.
    ///
    /// # Safety
    /// At the address is a C function that takes these words as its arguments, or the first of them, and they are such as it may be called with.
    pub unsafe fn call(&mut self, function: *const (), words: &[u64; 11]) -> (u64, Option<usize>) {
        let top = WORDS - ARGUMENTS;
        for (place, word) in words[6..].iter().enumerate() {
            *self.word(top + place) = *word;
        }
        let pointer = unsafe { self.pairs.as_mut_ptr().cast::<u64>().add(top) };
        let result: u64;
        unsafe {
            // The callee keeps r12, where our own stack pointer waits.
            asm!(
                "mov r12, rsp",
                "mov rsp, r13",
                "call r14",
                "mov rsp, r12",
                in("r13") pointer,
                in("r14") function,
                in("rdi") words[0],
                in("rsi") words[1],
                in("rdx") words[2],
                in("rcx") words[3],
                in("r8") words[4],
                in("r9") words[5],
                lateout("rax") result,
                out("r12") _,
                clobber_abi("C"),
            );
        }
        let mut lowest = 0;
        while lowest < top && *self.word(lowest) == paint(lowest) {
            lowest += 1;
        }
        self.paint_from(lowest);
        (result, (lowest > 0).then_some(8 * (top - lowest)))
    }
}

#[cfg(test)]
mod tests {
    use super::*;
    use std::hint::black_box;

    extern "C" fn eleventh(
        a: u64,
        b: u64,
        c: u64,
        d: u64,
        e: u64,
        f: u64,
        g: u64,
        h: u64,
        i: u64,
        j: u64,
        k: u64,
    ) -> u64 {
        let sum = [a, b, c, d, e, f, g, h, i, j, k];
        black_box(sum).iter().fold(0, |sum, word| 10 * sum + word)
    }

    extern "C" fn deep(calls: u64) -> u64 {
        let bytes = black_box([calls as u8; 1000]);
        match calls {
            0 => bytes[999].into(),
            _ => deep(calls - 1) + u64::from(bytes[999]),
        }
    }

    #[test]
    fn arguments_arrive() {
        let words = [1, 2, 3, 4, 5, 6, 7, 8, 9, 1, 2];
        let (result, used) = unsafe { Stack::new().call(eleventh as *const (), &words) };
        assert_eq!(result, 12345678912);
        assert!((88..400).contains(&used.unwrap()));
    }

    #[test]
    fn deeper_calls_use_more() {
        let mut stack = Stack::new();
        for calls in [0, 9, 4] {
            let (result, used) = unsafe { stack.call(deep as *const (), &[calls; 11]) };
            let least = 1000 * (calls as usize + 1);
            assert_eq!(result, calls * (calls + 1) / 2);
            assert!((least..4 * least).contains(&used.unwrap()));
        }
    }
}
