//! Runs the unchanged Rust and the library that a probe's maker links over the same instant transport: the library's engine beside a new
//! engine of the Rust, and its session beside an engine of the Rust after a connect on both. Checks that all four made the same transport
//! calls, ended with the same value and left the same bytes; after a connect SELECT is known, and its write is left out.
//! Usage: bench CALL rust|engine|connected|session REPEATS   prints a repeat's transport calls and nanoseconds a transport call

use arm_debug::ArmDebug;
use rust_dap::*;
use std::ptr::null_mut;
use std::time::Instant;

/// What comes next, and the functions, as include/bazkondur.h has them.
#[repr(C)]
#[derive(Default)]
struct Next {
    kind: u32,
    number: u32,
    word: u32,
    made: u32,
    request: u32,
    bits: u32,
    len: u32,
    output: u32,
    select: u32,
}

extern "C" {
    fn bazkondur_new(session: &mut [u32; 64]);
    fn bazkondur_start(
        session: &mut [u32; 64], call: u32, budget: u32, args: *const u32, n: usize, room: &mut [u32; 192], list: *mut u32, list_n: usize,
        buf: *mut u8, len: usize, next: &mut Next, bytes: &mut [u8; 16],
    );
    fn bazkondur_step(
        session: &mut [u32; 64], code: u32, value: u32, room: &mut [u32; 192], list: *mut u32, list_n: usize, buf: *mut u8, len: usize,
        next: &mut Next, bytes: &mut [u8; 16],
    );
    fn bazkondur_engine_new(engine: &mut [u32; 64]);
    fn bazkondur_engine_start(
        engine: &mut [u32; 64], call: u32, args: *const u32, n: usize, room: &mut [u32; 192], words: *mut u32, words_n: usize,
        buf: *mut u8, len: usize, next: &mut Next, bytes: &mut [u8; 16],
    );
    fn bazkondur_engine_step(
        engine: &mut [u32; 64], code: u32, value: u32, room: &mut [u32; 192], words: *mut u32, words_n: usize, buf: *mut u8, len: usize,
        next: &mut Next, bytes: &mut [u8; 16],
    );
}

const ADDRESS: u32 = 0x2000_0000;
const LENGTH: usize = 65_536;
const BUDGET: usize = 20_000;
const POLLS: u32 = 9;
/// The answer that shows the core running, in call_function's first look: before
/// it SELECT and CSW, 9 transport calls for each of 8 registers read and of 8
/// written, 3 for the trampoline, 6 for DHCSR, and 2 of the look.
const STARTED: usize = 2 + 8 * 9 + 3 + 8 * 9 + 6 + 2;

/// A call's name, and its number and arguments in the library.
struct Call(&'static str, u32, &'static [u32]);

const CONNECT_SWD: Call = Call("connect_swd", 3, &[]);
const CALLS: [Call; 6] = [
    Call("read_mem", 13, &[ADDRESS]),
    Call("write_mem", 14, &[ADDRESS]),
    Call("read_word", 9, &[ADDRESS]),
    CONNECT_SWD,
    Call("hw_breakpoint_set", 26, &[ADDRESS]),
    Call("call_function", 25, &[ADDRESS, 0, 0, 0, 0, ADDRESS, ADDRESS, POLLS]),
];

/// Takes each answer from a list and writes each call's number to a log. An answer is a value, and above its 32 bits a code of the library.
struct Instantly<'a> {
    answers: &'a [u64],
    log: &'a mut [u64],
    made: usize,
}

impl Instantly<'_> {
    #[inline(always)]
    fn make(&mut self, number: u64) -> u64 {
        let answer = self.answers[self.made];
        self.log[self.made] = number;
        self.made += 1;
        answer
    }
    /// The same for the Rust.
    #[inline(always)]
    fn result(&mut self, number: u64) -> Result<u32, DapError> {
        let answer = self.make(number);
        match answer >> 32 {
            0 => Ok(answer as u32),
            1 => Err(DapError::SwdError(answer as u8)),
            2 => Err(DapError::NotSupported),
            _ => Err(DapError::InternalError),
        }
    }
    /// The same for the library, which says what comes next and takes a code and a value.
    #[inline(always)]
    fn due(&mut self, next: &Next, bytes: &[u8; 16]) -> (u32, u32) {
        let word = u64::from(next.word);
        let answer = self.make(match next.kind as u8 {
            b'T' => u64::from(next.request) << 32 | word,
            b'C' => 1 << 48,
            b'Q' => 2 << 48 | pattern(next.bits as usize, bytes),
            b'P' => 3 << 48 | u64::from(next.output) << 40 | u64::from(next.select) << 32 | word,
            b'B' => 4 << 48 | u64::from(next.bits) << 32 | word,
            _ => 5 << 48,
        });
        ((answer >> 32) as u32, answer as u32)
    }
}

/// The number of a fixed sequence in the log.
fn pattern(count: usize, data: &[u8]) -> u64 {
    match (count, data[0]) {
        (51, _) => 0,
        (2, _) => 1,
        (16, 0x9E) => 2,
        (16, _) => 3,
        (8, 0xFF) => 4,
        (128, _) => 5,
        (4, _) => 6,
        _ => 7,
    }
}

impl DapTransport for Instantly<'_> {
    fn capabilities(&self) -> DapCapabilities {
        DapCapabilities::SWD
    }
    fn connect(&mut self, _: ConnectPort, _: &DapConfig) -> Result<ActivePort, DapError> {
        self.result(1 << 48).map(|_| ActivePort::Swd)
    }
    fn swj_sequence(&mut self, _: &DapConfig, count: usize, data: &[u8]) -> Result<(), DapError> {
        self.result(2 << 48 | pattern(count, data)).map(|_| ())
    }
    fn swj_pins(&mut self, _: &DapConfig, out: SwjPins, select: SwjPins, us: u32) -> Result<SwjPins, DapError> {
        let number = 3 << 48 | u64::from(out.bits()) << 40 | u64::from(select.bits()) << 32 | u64::from(us);
        self.result(number).map(|_| SwjPins::empty())
    }
    fn swd_transfer(&mut self, _: &DapConfig, request: SwdRequest, data: u32) -> Result<u32, DapError> {
        self.result(u64::from(request.bits()) << 32 | u64::from(data))
    }
    fn swd_write_bits(&mut self, _: &DapConfig, count: usize, data: &[u8]) -> Result<(), DapError> {
        let word = data.iter().rev().fold(0, |w, b| w << 8 | u64::from(*b));
        self.result(4 << 48 | (count as u64) << 32 | word).map(|_| ())
    }
    fn swd_output_enable(&mut self, _: bool) -> Result<(), DapError> {
        self.result(5 << 48).map(|_| ())
    }
}

/// What stays from repeat to repeat: the Rust's engine and the library's session after a connect, and what is lent to the library.
struct Kept<'a> {
    rust: ArmDebug<Instantly<'a>>,
    session: [u32; 64],
    words: [u32; 64],
    room: [u32; 192],
    next: Next,
    bytes: [u8; 16],
}

/// Makes one call: how many transport calls it took, and its value.
type Side = fn(&Call, &[u64], &mut [u8], &mut [u64], &mut Kept) -> (usize, u32);

#[inline(always)]
fn make_call(mut engine: ArmDebug<Instantly>, call: &Call, buf: &mut [u8]) -> (usize, u32) {
    let value = match call.1 {
        13 => engine.read_mem(ADDRESS, buf).map(|_| 0),
        14 => engine.write_mem(ADDRESS, buf).map(|_| 0),
        9 => engine.read_word(ADDRESS),
        3 => engine.connect_swd(),
        26 => engine.hw_breakpoint_set(ADDRESS).map(u32::from),
        _ => engine.call_function(ADDRESS, &[0; 4], ADDRESS, ADDRESS, POLLS),
    };
    (engine.transport().made, value.expect("Ok"))
}

/// On a new engine of the Rust.
fn on_rust(call: &Call, answers: &[u64], buf: &mut [u8], log: &mut [u64], _: &mut Kept) -> (usize, u32) {
    make_call(ArmDebug::new(Instantly { answers, log, made: 0 }, DapConfig), call, buf)
}

/// On a copy of the Rust's engine that has connected.
fn on_connected(call: &Call, answers: &[u64], buf: &mut [u8], log: &mut [u64], kept: &mut Kept) -> (usize, u32) {
    // Safety: an engine owns nothing, and its copy gets another transport before it is used.
    let mut engine = unsafe { std::ptr::read(&kept.rust) };
    *engine.transport() = Instantly { answers, log, made: 0 };
    make_call(engine, call, buf)
}

/// On a new engine of the library.
fn on_engine(call: &Call, answers: &[u64], buf: &mut [u8], log: &mut [u64], kept: &mut Kept) -> (usize, u32) {
    let mut transport = Instantly { answers, log, made: 0 };
    let Kept { words, room, next, bytes, .. } = kept;
    let (args, n, b, len) = (call.2.as_ptr(), call.2.len(), buf.as_mut_ptr(), buf.len());
    // Safety: each pointer goes with its own length.
    unsafe {
        bazkondur_engine_new(words);
        bazkondur_engine_start(words, call.1, args, n, room, null_mut(), 0, b, len, next, bytes);
        while next.kind != 0 {
            let (code, value) = transport.due(next, bytes);
            bazkondur_engine_step(words, code, value, room, null_mut(), 0, b, len, next, bytes);
        }
    }
    assert_eq!(next.number, 0, "Ok");
    (transport.made, next.word)
}

/// On a copy of the library's session that has connected. Copying its 64 words is measured, too: some thirty instructions, once a call.
fn on_session(call: &Call, answers: &[u64], buf: &mut [u8], log: &mut [u64], kept: &mut Kept) -> (usize, u32) {
    let mut transport = Instantly { answers, log, made: 0 };
    kept.words = kept.session;
    let Kept { words, room, next, bytes, .. } = kept;
    let (args, n, b, len) = (call.2.as_ptr(), call.2.len(), buf.as_mut_ptr(), buf.len());
    // Safety: each pointer goes with its own length.
    unsafe {
        bazkondur_start(words, call.1, BUDGET as u32, args, n, room, null_mut(), 0, b, len, next, bytes);
        while next.kind != 0 {
            let (code, value) = transport.due(next, bytes);
            bazkondur_step(words, code, value, room, null_mut(), 0, b, len, next, bytes);
        }
    }
    assert_eq!(next.number, 0, "Ok");
    (transport.made, next.word)
}

/// Answers that let a call go its usual way, all of them Ok.
fn answers(call: &Call) -> Vec<u64> {
    let mut list: Vec<u64> = match call.0 {
        // FP_CTRL of revision 1 with eight comparators; each of them is free.
        "hw_breakpoint_set" => vec![0x1000_0080; BUDGET],
        // DHCSR with S_REGRDY and S_HALT.
        "call_function" => vec![0x0003_0000; BUDGET],
        // Both power-up acks are set.
        _ => (0..BUDGET as u64).map(|i| 0xA000_0001 + i).collect(),
    };
    if call.0 == "call_function" {
        list[STARTED] = 0x0001_0000;
    }
    list
}

fn main() {
    let args: Vec<String> = std::env::args().collect();
    let call = CALLS.iter().find(|c| c.0 == args[1]).expect("a call's name");
    // After a connect SELECT is known: its write is left out, and the answer to it.
    let known = usize::from(call.0 != CONNECT_SWD.0);
    let sides: [(&str, Side, usize); 4] =
        [("rust", on_rust, 0), ("engine", on_engine, 0), ("connected", on_connected, known), ("session", on_session, known)];
    let (_, side, left_out) = sides.into_iter().find(|s| s.0 == args[2]).expect("a side");
    let repeats: usize = args[3].parse().expect("a number");

    let (connecting, mut log, mut other) = (answers(&CONNECT_SWD), vec![0; BUDGET], vec![0; BUDGET]);
    let mut rust = ArmDebug::new(Instantly { answers: &connecting, log: &mut other, made: 0 }, DapConfig);
    rust.connect_swd().expect("Ok");
    let mut kept = Kept { rust, session: [0; 64], words: [0; 64], room: [0; 192], next: Next::default(), bytes: [0; 16] };
    // Safety: it takes no pointer but the words.
    unsafe { bazkondur_new(&mut kept.session) };
    on_session(&CONNECT_SWD, &connecting, &mut [], &mut log, &mut kept);
    kept.session = kept.words;

    let answers = answers(call);
    let mut buf: Vec<u8> = (0..if call.0.ends_with("_mem") { LENGTH } else { 0 }).map(|i| i as u8).collect();
    let mut did = |side: Side, left_out: usize| {
        let (mut bytes, mut log) = (buf.clone(), vec![0; BUDGET]);
        let (made, value) = side(call, &answers[left_out..], &mut bytes, &mut log, &mut kept);
        (log[..made].to_vec(), value, bytes)
    };
    let (calls, value, bytes) = did(on_rust, 0);
    for (name, side, left_out) in sides {
        let (its_calls, its_value, its_bytes) = did(side, left_out);
        assert!(its_calls == calls[left_out..], "the same transport calls: {name}");
        assert!(its_value == value && its_bytes == bytes, "the same value and bytes: {name}");
    }

    let (made, answers) = (calls.len() - left_out, &answers[left_out..]);
    let start = Instant::now();
    for _ in 0..repeats {
        std::hint::black_box(side(call, answers, &mut buf, &mut log, &mut kept));
    }
    let nanos = start.elapsed().as_nanos() as f64 / (repeats.max(1) * made) as f64;
    println!("{made} {nanos:.2}");
}
