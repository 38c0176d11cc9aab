//! The C interface, `include/bazkondur.h`, and the one module with unsafe code. What a call is lent
//! stays lent, and the same, from the call's start to its end.

#![allow(unsafe_code)]

use crate::calls::{READ_MEM, READ_WORDS};
use crate::CallFrame;
use core::marker::PhantomData;
use core::mem::{offset_of, size_of};
use core::ptr::null_mut;

const WORDS: usize = 64;
const ROOM: usize = 192;
const BYTES: usize = 16;

/// The kind of a call's end.
const END: u32 = 0;

/// What comes next: the transport call to make, by its letter, or the end of the call.
#[repr(C)]
#[derive(Default)]
pub(crate) struct Next {
    pub kind: u32,
    pub number: u32,
    pub word: u32,
    pub made: u32,
    pub request: u32,
    pub bits: u32,
    pub len: u32,
    pub output: u32,
    pub select: u32,
}

const _: () = assert!(size_of::<Next>() == 36);
const _: () = assert!(offset_of!(Next, request) == 16 && offset_of!(Next, select) == 32);

impl Next {
    fn end(&self) -> End {
        End { number: self.number as u8, word: self.word, made: self.made }
    }
}

/// How a call ended. The header has no number above 255.
pub(crate) struct End {
    pub number: u8,
    pub word: u32,
    pub made: u32,
}

extern "C" {
    fn bazkondur_new(session: &mut [u32; WORDS]);
    fn bazkondur_is_open(session: &[u32; WORDS]) -> bool;
    fn bazkondur_start(
        session: &mut [u32; WORDS],
        call: u32,
        budget: u32,
        args: *const u32,
        arg_count: usize,
        room: &mut [u32; ROOM],
        list: *mut u32,
        list_count: usize,
        buf: *mut u8,
        buf_len: usize,
        next: &mut Next,
        bytes: &mut [u8; BYTES],
    );
    fn bazkondur_step(
        session: &mut [u32; WORDS],
        code: u32,
        value: u32,
        room: &mut [u32; ROOM],
        list: *mut u32,
        list_count: usize,
        buf: *mut u8,
        buf_len: usize,
        next: &mut Next,
        bytes: &mut [u8; BYTES],
    );
    fn bazkondur_engine_new(engine: &mut [u32; WORDS]);
    fn bazkondur_engine_start(
        engine: &mut [u32; WORDS],
        call: u32,
        args: *const u32,
        arg_count: usize,
        room: &mut [u32; ROOM],
        words: *mut u32,
        word_count: usize,
        buf: *mut u8,
        buf_len: usize,
        next: &mut Next,
        bytes: &mut [u8; BYTES],
    );
    fn bazkondur_engine_step(
        engine: &mut [u32; WORDS],
        code: u32,
        value: u32,
        room: &mut [u32; ROOM],
        words: *mut u32,
        word_count: usize,
        buf: *mut u8,
        buf_len: usize,
        next: &mut Next,
        bytes: &mut [u8; BYTES],
    );
}

/// The caller's words and bytes for one call.
pub(crate) struct Lent<'a> {
    words: *mut u32,
    word_count: usize,
    buf: *mut u8,
    buf_len: usize,
    /// They may be written to.
    mutable: bool,
    lender: PhantomData<&'a mut ()>,
}

impl<'a> Lent<'a> {
    pub fn nothing() -> Self {
        Lent {
            words: null_mut(),
            word_count: 0,
            buf: null_mut(),
            buf_len: 0,
            mutable: false,
            lender: PhantomData,
        }
    }

    pub fn words(words: &'a [u32]) -> Self {
        Lent { words: words.as_ptr().cast_mut(), word_count: words.len(), ..Self::nothing() }
    }

    pub fn words_mut(words: &'a mut [u32]) -> Self {
        Lent { words: words.as_mut_ptr(), word_count: words.len(), mutable: true, ..Self::nothing() }
    }

    pub fn bytes(bytes: &'a [u8]) -> Self {
        Lent { buf: bytes.as_ptr().cast_mut(), buf_len: bytes.len(), ..Self::nothing() }
    }

    pub fn bytes_mut(bytes: &'a mut [u8]) -> Self {
        Lent { buf: bytes.as_mut_ptr(), buf_len: bytes.len(), mutable: true, ..Self::nothing() }
    }

    /// Calls 11 and 13 write to what they are lent, and no other call does.
    fn suits(&self, call: u32) -> bool {
        self.mutable || !matches!(call, READ_WORDS | READ_MEM)
    }
}

/// The words of an engine or a session, the room that it works in, and the bytes of a sequence.
struct Memory {
    words: [u32; WORDS],
    room: [u32; ROOM],
    bytes: [u8; BYTES],
}

impl Memory {
    fn new() -> Self {
        Memory { words: [0; WORDS], room: [0; ROOM], bytes: [0; BYTES] }
    }

    /// The frame of a call 23 that ended with 0, before any other call.
    fn frame(&self) -> CallFrame {
        let [r0, r1, r2, r3, sp, lr, pc, xpsr, ..] = self.room;
        CallFrame { r0, r1, r2, r3, sp, lr, pc, xpsr }
    }
}

/// The engine alone.
pub(crate) struct Engine(Memory);

impl Engine {
    pub fn new() -> Self {
        let mut memory = Memory::new();
        // SAFETY: the words are borrowed for the length of the call.
        unsafe { bazkondur_engine_new(&mut memory.words) };
        Engine(memory)
    }

    pub fn frame(&self) -> CallFrame {
        self.0.frame()
    }

    /// A call from its start to its end. `make` makes a transport call, given the bytes of a
    /// sequence, and says code and value of its answer. If it unwinds, the engine stays as it
    /// stands at that transport call.
    pub fn run(
        &mut self,
        call: u32,
        args: &[u32],
        lent: Lent,
        mut make: impl FnMut(&Next, &[u8]) -> (u32, u32),
    ) -> End {
        assert!(lent.suits(call));
        let Memory { words, room, bytes } = &mut self.0;
        let Lent { words: list, word_count, buf, buf_len, .. } = lent;
        let (arg, arg_count) = (args.as_ptr(), args.len());
        let next = &mut Next::default();
        // SAFETY: all that is lent is borrowed until `run` returns and has the lengths given. The
        // mutable borrows are of different things. What is borrowed as shared is not written to, as
        // the call suits it.
        unsafe {
            bazkondur_engine_start(
                words, call, arg, arg_count, room, list, word_count, buf, buf_len, next, bytes,
            )
        };
        while next.kind != END {
            let (code, value) = make(next, &bytes[..next.len as usize]);
            // SAFETY: as above; the same call is under way.
            unsafe {
                bazkondur_engine_step(words, code, value, room, list, word_count, buf, buf_len, next, bytes)
            };
        }
        next.end()
    }
}

/// The session over it.
pub(crate) struct Session(Memory);

impl Session {
    pub fn new() -> Self {
        let mut memory = Memory::new();
        // SAFETY: the words are borrowed for the length of the call.
        unsafe { bazkondur_new(&mut memory.words) };
        Session(memory)
    }

    pub fn is_open(&self) -> bool {
        // SAFETY: the words are borrowed for the length of the call.
        unsafe { bazkondur_is_open(&self.0.words) }
    }

    pub fn frame(&self) -> CallFrame {
        self.0.frame()
    }

    /// As [`Engine::run`], with so many transport calls at most.
    pub fn run(
        &mut self,
        budget: u32,
        call: u32,
        args: &[u32],
        lent: Lent,
        mut make: impl FnMut(&Next, &[u8]) -> (u32, u32),
    ) -> End {
        assert!(lent.suits(call));
        let Memory { words, room, bytes } = &mut self.0;
        let Lent { words: list, word_count, buf, buf_len, .. } = lent;
        let (arg, arg_count) = (args.as_ptr(), args.len());
        let next = &mut Next::default();
        // SAFETY: as in `Engine::run`.
        unsafe {
            bazkondur_start(
                words, call, budget, arg, arg_count, room, list, word_count, buf, buf_len, next, bytes,
            )
        };
        while next.kind != END {
            let (code, value) = make(next, &bytes[..next.len as usize]);
            // SAFETY: as in `Engine::run`.
            unsafe { bazkondur_step(words, code, value, room, list, word_count, buf, buf_len, next, bytes) };
        }
        next.end()
    }
}

#[cfg(test)]
mod tests {
    use super::*;
    use crate::calls::{CONNECT_SWD, NRF54_PROGRAM, READ_WORD};

    /// The header's result of a start that names no call, or not its arguments.
    const BAD_CALL: u8 = 255;

    fn untouched(_: &Next, _: &[u8]) -> (u32, u32) {
        panic!("a transport call")
    }

    #[test]
    fn what_is_no_call_is_refused() {
        for (call, args) in [(0, &[][..]), (NRF54_PROGRAM + 1, &[]), (READ_WORD, &[]), (READ_WORD, &[0, 0])] {
            let end = Engine::new().run(call, args, Lent::nothing(), untouched);
            assert_eq!((end.number, end.word), (BAD_CALL, 0));
            let end = Session::new().run(1, call, args, Lent::nothing(), untouched);
            assert_eq!((end.number, end.word, end.made), (BAD_CALL, 0, 0));
        }
    }

    #[test]
    fn what_a_letter_does_not_name_is_0() {
        let mut next = None;
        Session::new().run(1, CONNECT_SWD, &[], Lent::nothing(), |n, bytes| {
            next = Some([n.kind, n.number, n.word, n.made, n.request, n.bits, n.len, n.output, n.select]);
            assert!(bytes.is_empty());
            (0, 0)
        });
        assert_eq!(next, Some([u32::from(b'C'), 0, 0, 0, 0, 0, 0, 0, 0]));
    }

    #[test]
    #[should_panic(expected = "suits")]
    fn words_lent_as_shared_are_not_read_into() {
        Engine::new().run(READ_WORDS, &[0], Lent::words(&[0]), untouched);
    }

    #[test]
    #[should_panic(expected = "suits")]
    fn bytes_lent_as_shared_are_not_read_into() {
        Session::new().run(1, READ_MEM, &[0], Lent::bytes(&[0]), untouched);
    }
}
