//! Targets for generated lists, calls that suit them, and what their line does.

use super::{Rng, ENOUGH};
use list::field::{BASE, CSW, D, DPIDR, SELECT, SIZE};
use list::{Call, Fault, Fields, Record, LOST_DELIVERED, LOST_UNDELIVERED, WAIT};

/// What the memory of a target stands for.
#[derive(Clone, Copy)]
enum Place {
    Ram,
    Core,
    Breakpoints,
    Bootrom,
}

const DHCSR: u32 = 0xE000_EDF0;
const DCRDR: u32 = 0xE000_EDF8;
const S_REGRDY: u32 = 1 << 16;
const S_HALT: u32 = 1 << 17;
const FP_CTRL: u32 = 0xE000_2000;
const ROM_TABLE_PTRS: u32 = 0x14;

/// Addresses of breakpoints: in either half of a word, odd, beyond revision 0.
const BREAKPOINTS: [u32; 8] =
    [0x100, 0x102, 0x103, 0x0800_0100, 0x0800_0101, 0x1FFF_FFFE, 0x2000_0000, 0xFFFF_FFFF];

/// A target, with what stands in its memory at first.
pub struct Bench {
    place: Place,
    fields: Fields,
    memory: Vec<(u32, Vec<u8>)>,
}

fn le(word: u32) -> Vec<u8> {
    word.to_le_bytes().to_vec()
}

/// Words of memory as a core, a breakpoint unit or a bootrom would have them.
fn contents(place: Place, base: u32, size: u32, rng: &mut Rng) -> Vec<(u32, Vec<u8>)> {
    match place {
        Place::Ram => vec![(0, rng.bytes(size.min(40) as usize))],
        Place::Core => {
            // Halted, and registers ready; one that is not takes 4,096 polls, so there are few.
            let status = if rng.one_in(12) { rng.pick(&[0, S_REGRDY, S_HALT]) } else { S_REGRDY | S_HALT };
            vec![(DHCSR - base, le(status)), (DCRDR - base, rng.bytes(4))]
        }
        Place::Breakpoints => {
            let ctrl = rng.pick(&[0x20, 0x40, 0x1000_0020, 0x1000_0040, 0x1010, 0]);
            let held = [0, 0x4000_0101, 0x8000_0101, 0x0800_0101, 0x0800_0100, 0x4800_0101];
            let comparators = (0..4).flat_map(|_| le(rng.pick(&held))).collect();
            vec![(0, le(ctrl)), (8, comparators)]
        }
        Place::Bootrom => {
            let table = rng.pick(&[0x20, 0x20, 0x22, 0x31]);
            let codes = [*b"IF", *b"EX", *b"RE", *b"RP"].map(|[a, b]| [a, b, 0x34, 0x12]).concat();
            let codes = codes[..4 * rng.pick(&[0, 1, 4, 4])].to_vec();
            vec![(ROM_TABLE_PTRS - base, le(rng.word() << 16 | table)), (table - base, codes)]
        }
    }
}

impl Bench {
    fn new(place: Place, rng: &mut Rng) -> Self {
        let (base, size) = match place {
            Place::Ram => {
                let base = rng.pick(&[0x2000_0000, 0x2000_0000, 0, 0x2000_03F0, 0x1FFF_FFF0, 0xFFFF_F800]);
                (base, rng.pick(&[0, 4, 16, 1024, 1024, 2048, 2048]))
            }
            Place::Core => (0xE000_ED00, 0x200),
            Place::Breakpoints => (FP_CTRL, rng.pick(&[0x18, 0x220])),
            Place::Bootrom => (0, rng.pick(&[0x30, 0x100])),
        };
        let any = rng.word();
        let fields = [
            rng.pick(&[0x2BA0_1477, 0x0BC1_2477, 0x2BA0_1477, any]),
            rng.pick(&[0, 0, 1, 2, 7]),
            rng.pick(&[10, 10, 10 + any % 23, 32]),
            rng.pick(&[0, 0xF0, 0x0100_0000, any]),
            any >> 8 & 3,
            rng.pick(&[0, 0, 1, 5]),
            any >> 10 & 1,
            rng.word(),
            rng.word() & !7 | 2,
            rng.word(),
            base,
            size,
        ];
        let memory = contents(place, base, size, rng);
        let within = |(offset, bytes): &(u32, Vec<u8>)| offset + bytes.len() as u32 <= size;
        Bench { place, fields, memory: memory.into_iter().filter(within).collect() }
    }

    pub fn any(rng: &mut Rng) -> Self {
        let place = rng.pick(&[Place::Ram, Place::Ram, Place::Core, Place::Breakpoints, Place::Bootrom]);
        let mut bench = Bench::new(place, rng);
        if rng.one_in(16) {
            bench.fields[DPIDR] = rng.pick(&[0, 0xFFFF_FFFF]);
        }
        if rng.one_in(40) {
            bench.fields[D] = rng.pick(&[1023, 1024, 0xFFFF_FFFF]);
        }
        bench
    }

    /// A target over which a call can go far.
    pub fn suited(number: u8, rng: &mut Rng) -> Self {
        let place = match number {
            22 => Place::Bootrom,
            26..=28 => Place::Breakpoints,
            15..=25 => Place::Core,
            _ => Place::Ram,
        };
        Bench::new(place, rng)
    }

    /// A kilobyte of RAM behind a target with these two registers.
    pub fn holding(select: u32, csw: u32, rng: &mut Rng) -> Self {
        let mut bench = Bench::new(Place::Ram, rng);
        (bench.fields[SELECT], bench.fields[CSW]) = (select, csw);
        (bench.fields[BASE], bench.fields[SIZE]) = (0x2000_0000, 1024);
        bench
    }

    pub fn base(&self) -> u32 {
        self.fields[BASE]
    }

    fn size(&self) -> u32 {
        self.fields[SIZE]
    }

    pub fn records(&self) -> Vec<Record> {
        let memory = self.memory.iter().cloned().map(|(offset, bytes)| Record::Memory { offset, bytes });
        [Record::Target(self.fields)].into_iter().chain(memory).collect()
    }

    /// The first bytes of the memory are shown.
    pub fn shown(&self) -> Record {
        Record::Show { offset: 0, length: self.size().min(48) as u16 }
    }

    /// The calls that suit the target.
    pub fn calls(&self) -> &'static [u8] {
        match self.place {
            Place::Ram => &[9, 10, 13, 14],
            Place::Core => &[15, 16, 17, 18, 19, 20, 21, 23, 24, 25, 9],
            Place::Breakpoints => &[26, 27, 28, 13],
            Place::Bootrom => &[22, 22, 13],
        }
    }

    /// An address: mostly in memory or at its ends, a multiple of 4 or not.
    fn address(&self, rng: &mut Rng) -> u32 {
        let inside = self.base() + rng.below(self.size().max(1) as usize) as u32;
        let end = self.base().wrapping_add(self.size()).wrapping_sub(8).wrapping_add(rng.below(12) as u32);
        let top = 0xFFFF_FFF0 + rng.below(16) as u32;
        let any = rng.word();
        rng.pick(&[inside, inside, inside, inside & !3, inside & !3, end, end & !3, top, any])
    }

    /// A length: mostly short; where the end of 1 KiB is near, up to there.
    fn length(&self, address: u32, rng: &mut Rng) -> usize {
        let short = rng.below(300) >> rng.pick(&[0, 3, 5, 5, 6, 7]);
        let to_end = (1024 - address % 1024) as usize;
        if to_end > 64 {
            return short;
        }
        rng.pick(&[short, short, to_end, to_end, to_end - 1, to_end + 1])
    }

    pub fn call(&self, number: u8, rng: &mut Rng) -> Call {
        let word = |value: u32| value.to_be_bytes().to_vec();
        let address = self.address(rng);
        // Most of the calls that want a multiple of 4 get one.
        let aligned = if rng.one_in(4) { address } else { address & !3 };
        let length = self.length(address, rng);
        let polls = word(rng.pick(&[0, 1, 2, 5]));
        let register = rng.pick(&[0, 13, 15, 16, 255]);
        let breakpoint = rng.pick(&BREAKPOINTS);
        let args = match number {
            9 => word(aligned),
            10 => [word(aligned), rng.bytes(4)].concat(),
            13 => [word(address), (length as u16).to_be_bytes().to_vec()].concat(),
            14 => [word(address), rng.bytes(length)].concat(),
            20 => vec![register],
            21 => [vec![register], rng.bytes(4)].concat(),
            22 => rng.pick(&[*b"IF", *b"RP", *b"XX", [0, 0], *b"4\x12"]).to_vec(),
            23 => [rng.bytes(24), word(address)].concat(),
            24 => [rng.bytes(32), polls].concat(),
            25 => [rng.bytes(24), word(address), polls].concat(),
            26..=28 => word(breakpoint),
            _ => vec![],
        };
        Call { number, budget: ENOUGH, args }
    }
}

/// What the line does at transport calls one after the other: act, error, ack.
pub type Acts = Vec<(u8, u8, u8)>;

/// Every error of a loss: acks, NotSupported, other.
const ERRORS: [(u8, u8); 8] = [(1, 0), (1, 1), (1, 3), (1, 5), (1, 7), (1, 255), (2, 0), (3, 0)];

pub fn acts() -> Vec<Acts> {
    let wait = (WAIT, 0, 0);
    let loss = (LOST_DELIVERED, 1, 7);
    let mut all: Vec<Acts> = [1, 64, 65].map(|n| vec![wait; n]).into();
    for way in [LOST_UNDELIVERED, LOST_DELIVERED] {
        all.extend(ERRORS.map(|(error, ack)| vec![(way, error, ack)]));
        all.push(vec![loss, (way, 3, 2)]); // the second meets the ABORT
    }
    all.extend([vec![(WAIT, 1, 4), loss], vec![loss, wait]]);
    all.push([vec![wait; 64], vec![loss]].concat());
    all
}

/// Acts from one transport call on.
pub fn put(at: u32, acts: &Acts) -> Vec<Fault> {
    let fault = |(i, &(act, error, ack)): (usize, &(u8, u8, u8))| Fault { at: at + i as u32, act, error, ack };
    acts.iter().enumerate().map(fault).collect()
}
