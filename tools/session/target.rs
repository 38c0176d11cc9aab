//! The model target and its line, from document 01 alone.

use list::{Answer, Fault, Fields, LOST_DELIVERED, WAIT};
use std::fmt::Write;
use std::mem::replace;

const CDBGPWRUPREQ: u32 = 1 << 28;
const CDBGPWRUPACK: u32 = 1 << 29;
const CSYSPWRUPREQ: u32 = 1 << 30;
const CSYSPWRUPACK: u32 = 1 << 31;
const STICKYERR: u32 = 1 << 5;
const STKERRCLR: u32 = 1 << 2;

const FAULT: Answer = Answer { code: 1, value: 4 };
const BUSY: Answer = Answer { code: 1, value: 2 };

fn ok(value: u32) -> Answer {
    Answer { code: 0, value }
}

/// A transfer's request and data; none for connect and sequences.
pub type Transfer = Option<(u8, u32)>;

/// The registers that a request can reach.
#[derive(PartialEq)]
enum Register {
    Dpidr,
    Abort,
    CtrlStat,
    Select,
    Rdbuff,
    Csw,
    Tar,
    Drw,
    Absent,
}

pub struct Target {
    dpidr: u32,
    /// Reads of CTRL/STAT without the acks after a power-up, and those still due.
    d: u32,
    owed: u32,
    /// How many of TAR's low bits take part in an increment.
    width: u32,
    select: u32,
    /// The request bits of CTRL/STAT, in their place there.
    requests: u32,
    sticky: bool,
    rdbuff: u32,
    csw: u32,
    tar: u32,
    base: u32,
    memory: Vec<u8>,
}

impl Target {
    pub fn new(fields: Fields) -> Self {
        let [dpidr, d, width, select, requests, owed, sticky, rdbuff, csw, tar, base, size] = fields;
        let requests = (requests & 1) * CDBGPWRUPREQ | (requests >> 1) * CSYSPWRUPREQ;
        let memory = vec![0; size as usize];
        Target { dpidr, d, owed, width, select, requests, sticky: sticky == 1, rdbuff, csw, tar, base, memory }
    }

    /// Part of the memory; a list's rules say that it is there.
    pub fn memory(&mut self, offset: u32, length: usize) -> &mut [u8] {
        &mut self.memory[offset as usize..][..length]
    }

    /// DPIDR, SELECT, requests, sticky, read buffer, CSW and TAR.
    pub fn registers(&self) -> String {
        let requests = self.requests / CDBGPWRUPREQ & 1 | self.requests / CSYSPWRUPREQ << 1;
        let sticky = self.sticky.into();
        let mut text = "R".to_string();
        for value in [self.dpidr, self.select, requests, sticky, self.rdbuff, self.csw, self.tar] {
            let _ = write!(text, " {value:08X}");
        }
        text
    }

    /// A transport call over the line, and the fault that it meets there.
    pub fn answer(&mut self, transfer: Transfer, fault: Option<Fault>) -> Answer {
        match fault {
            None => self.deliver(transfer),
            Some(f) if f.act == WAIT => BUSY,
            Some(f) => {
                if f.act == LOST_DELIVERED {
                    self.deliver(transfer);
                }
                Answer { code: f.error, value: if f.error == 1 { f.ack.into() } else { 0 } }
            }
        }
    }

    fn deliver(&mut self, transfer: Transfer) -> Answer {
        let Some((request, data)) = transfer else {
            return ok(0); // connect and sequences reach no register
        };
        let (ap, read) = (request & 1 != 0, request & 2 != 0);
        let register = self.reached(request);
        let always = match register {
            Register::Dpidr | Register::Abort => true,
            Register::CtrlStat => read,
            _ => false,
        };
        if self.sticky && !always {
            return FAULT;
        }
        match (read, ap) {
            (true, true) => {
                let value = self.read(register);
                ok(replace(&mut self.rdbuff, value)) // posted: the value comes with the next read
            }
            (true, false) => ok(self.read(register)),
            (false, _) => {
                self.write(register, data);
                ok(0)
            }
        }
    }

    /// The register at port, direction, address and bank. Only CTRL/STAT depends
    /// on the debug port's bank.
    fn reached(&self, request: u8) -> Register {
        let dp_bank = self.select & 0xF;
        let ap_bank = self.select & 0xFF00_00F0; // APSEL and APBANKSEL
        match (request & 1, request & 2, request & 0xC) {
            (0, 2, 0x0) => Register::Dpidr,
            (0, 0, 0x0) => Register::Abort,
            (0, _, 0x4) if dp_bank == 0 => Register::CtrlStat,
            (0, 0, 0x8) => Register::Select,
            (0, 2, 0xC) => Register::Rdbuff,
            (1, _, 0x0) if ap_bank == 0 => Register::Csw,
            (1, _, 0x4) if ap_bank == 0 => Register::Tar,
            (1, _, 0xC) if ap_bank == 0 => Register::Drw,
            _ => Register::Absent,
        }
    }

    fn read(&mut self, register: Register) -> u32 {
        match register {
            Register::Dpidr => self.dpidr,
            Register::CtrlStat => self.read_ctrl_stat(),
            Register::Rdbuff => self.rdbuff,
            Register::Csw => self.csw,
            Register::Tar => self.tar,
            Register::Drw => self.access(None),
            Register::Abort | Register::Select | Register::Absent => 0,
        }
    }

    fn write(&mut self, register: Register, data: u32) {
        match register {
            Register::Abort => self.sticky &= data & STKERRCLR == 0,
            Register::CtrlStat => self.write_ctrl_stat(data),
            Register::Select => self.select = data,
            Register::Csw => self.csw = data & !7 | 2, // the size field is always 2
            Register::Tar => self.tar = data,
            Register::Drw => drop(self.access(Some(data))),
            Register::Dpidr | Register::Rdbuff | Register::Absent => {}
        }
    }

    fn powered(&self) -> bool {
        self.requests == CDBGPWRUPREQ | CSYSPWRUPREQ
    }

    fn read_ctrl_stat(&mut self) -> u32 {
        let mut value = self.requests;
        if self.sticky {
            value |= STICKYERR;
        }
        if self.powered() && self.owed == 0 {
            value |= CDBGPWRUPACK | CSYSPWRUPACK;
        }
        self.owed = self.owed.saturating_sub(1);
        value
    }

    fn write_ctrl_stat(&mut self, data: u32) {
        let before = self.powered();
        self.requests = data & (CDBGPWRUPREQ | CSYSPWRUPREQ);
        if self.powered() && !before {
            self.owed = self.d;
        }
    }

    /// DRW: the word at TAR is read, or written, and TAR goes on.
    fn access(&mut self, new: Option<u32>) -> u32 {
        let place = (self.tar & !3).checked_sub(self.base).map(|place| place as usize);
        let Some(bytes) = place.and_then(|place| self.memory.get_mut(place..place + 4)) else {
            self.sticky = true;
            return 0;
        };
        let old = u32::from_le_bytes(bytes.try_into().unwrap());
        bytes.copy_from_slice(&new.unwrap_or(old).to_le_bytes());
        if self.csw >> 4 & 3 == 1 {
            let counted = u32::MAX >> (32 - self.width);
            self.tar = self.tar & !counted | self.tar.wrapping_add(4) & counted;
        }
        old
    }
}
