//! A small target with memory and a core, and a line that fails where it is told to.

use bazkondur::rust_dap::*;
use std::collections::HashMap;
use std::mem::replace;
use std::panic::{catch_unwind, resume_unwind, AssertUnwindSafe};

pub const DPIDR: u32 = 0x2BA0_1477;
pub const RAM: u32 = 0x2000_0000;
pub const POWERED_UP: u32 = 0xF000_0000;
const DCRSR: u32 = 0xE000_EDF4;
const DCRDR: u32 = 0xE000_EDF8;
const REGWNR: u32 = 1 << 16;

/// What the line does at a transport call in place of delivering it.
#[derive(Clone, Copy)]
pub enum Act {
    Fail(DapError),
    Panic,
}

pub struct Bench {
    pub dpidr: u32,
    pub ctrl_stat: u32,
    /// Memory by address, and what stands where nothing was written.
    pub memory: HashMap<u32, u32>,
    pub blank: u32,
    pub registers: [u32; 17],
    /// What every register of another access port reads.
    pub ctrl_ap: u32,
    select: u32,
    tar: u32,
    buffer: u32,
    /// The transport calls since `send`, as a script's listing has them, and those that meet an act.
    log: Vec<String>,
    acts: Vec<(usize, Act)>,
}

impl Bench {
    pub fn new() -> Self {
        Bench {
            dpidr: DPIDR,
            ctrl_stat: POWERED_UP,
            memory: HashMap::new(),
            blank: 0,
            registers: std::array::from_fn(|i| 0x1000 + i as u32),
            ctrl_ap: 0,
            select: 0,
            tar: 0,
            buffer: 0,
            log: vec![],
            acts: vec![],
        }
    }

    /// From here on transport calls are counted from 1, and the line does so at that one.
    pub fn expect(&mut self, at: usize, act: Act) {
        self.log.clear();
        self.acts = vec![(at, act)];
    }

    /// From here on the line delivers; the transport calls until here.
    pub fn sent(&mut self) -> Vec<String> {
        self.acts.clear();
        std::mem::take(&mut self.log)
    }

    pub fn word(&self, addr: u32) -> u32 {
        *self.memory.get(&(addr & !3)).unwrap_or(&self.blank)
    }

    fn make(&mut self, what: String) -> Result<(), DapError> {
        self.log.push(what);
        match self.acts.iter().find(|(at, _)| *at == self.log.len()) {
            None => Ok(()),
            Some((_, Act::Fail(error))) => Err(*error),
            Some((_, Act::Panic)) => resume_unwind(Box::new(Pulled)), // unlike panic!, prints nothing
        }
    }

    /// DRW, and a core register behind DCRSR.
    fn write(&mut self, data: u32) {
        self.memory.insert(self.tar & !3, data);
        let register = (data & !REGWNR) as usize;
        if self.tar == DCRSR && data & REGWNR != 0 {
            self.registers[register] = self.word(DCRDR);
        } else if self.tar == DCRSR {
            self.memory.insert(DCRDR, self.registers[register]);
        }
        self.tar = self.tar.wrapping_add(4);
    }

    fn read(&mut self) -> u32 {
        if self.select >> 24 != 0 {
            return self.ctrl_ap;
        }
        let word = self.word(self.tar);
        self.tar = self.tar.wrapping_add(4);
        word
    }
}

/// What the line unwinds with.
struct Pulled;

/// Makes a call out of which the line unwinds.
pub fn pulled<R>(call: impl FnOnce() -> R) {
    let Err(payload) = catch_unwind(AssertUnwindSafe(call)) else {
        panic!("the call came to its end");
    };
    assert!(payload.is::<Pulled>());
}

fn hex(bytes: &[u8]) -> String {
    bytes.iter().map(|b| format!("{b:02X}")).collect()
}

impl DapTransport for Bench {
    fn capabilities(&self) -> DapCapabilities {
        DapCapabilities::SWD
    }
    fn connect(&mut self, port: ConnectPort, _: &DapConfig) -> Result<ActivePort, DapError> {
        assert_eq!(port, ConnectPort::Swd);
        self.make("C".into()).map(|()| ActivePort::Swd)
    }
    fn swj_sequence(&mut self, _: &DapConfig, count: usize, data: &[u8]) -> Result<(), DapError> {
        self.make(format!("Q {count} {}", hex(data)))
    }
    fn swj_pins(
        &mut self,
        _: &DapConfig,
        output: SwjPins,
        select: SwjPins,
        wait_us: u32,
    ) -> Result<SwjPins, DapError> {
        let text = format!("P {:02X} {:02X} {wait_us:08X}", output.bits(), select.bits());
        self.make(text).map(|()| SwjPins::empty())
    }
    fn swd_transfer(&mut self, _: &DapConfig, request: SwdRequest, data: u32) -> Result<u32, DapError> {
        self.make(format!("T {:X} {data:08X}", request.bits()))?;
        let memory = self.select >> 24 == 0;
        match request.bits() {
            0x2 => return Ok(self.dpidr),
            0x6 => return Ok(self.ctrl_stat),
            0x8 => self.select = data,
            0x5 if memory => self.tar = data,
            0xD if memory => self.write(data),
            0x3 | 0x7 | 0xB | 0xF => {
                let word = self.read();
                return Ok(replace(&mut self.buffer, word));
            }
            0xE => return Ok(self.buffer),
            _ => {}
        }
        Ok(0)
    }
    fn swd_write_bits(&mut self, _: &DapConfig, count: usize, data: &[u8]) -> Result<(), DapError> {
        self.make(format!("B {count} {}", hex(data)))
    }
    fn swd_output_enable(&mut self, enable: bool) -> Result<(), DapError> {
        assert!(enable);
        self.make("O".into())
    }
}
