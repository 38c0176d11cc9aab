use crate::bench::{pulled, Act, Bench, DPIDR, RAM};
use bazkondur::rust_dap::*;
use bazkondur::{number, ArmDebug, ArmError, CallFrame};

const NVMC_READY: u32 = 0x4001_E400;
const RRAMC_READY: u32 = 0x4004_B400;

fn engine() -> ArmDebug<Bench> {
    ArmDebug::new(Bench::new(), DapConfig)
}

/// An engine that has read a word, so that it remembers SELECT and CSW.
fn used() -> ArmDebug<Bench> {
    let mut engine = engine();
    engine.read_word(RAM).unwrap();
    engine.transport().sent();
    engine
}

#[test]
fn the_first_read_of_an_engine() {
    let mut engine = engine();
    engine.transport().memory.insert(RAM, 0x1234_5678);
    assert_eq!(engine.read_word(RAM), Ok(0x1234_5678));
    let first = ["T 8 00000000", "T 1 23000012", "T 5 20000000", "T F 00000000", "T E 00000000"];
    assert_eq!(engine.transport().sent(), first);
    assert_eq!(engine.read_word(RAM), Ok(0x1234_5678));
    assert_eq!(engine.transport().sent(), first[2..]);
    assert_eq!(engine.number(), number::OK);
}

#[test]
fn connecting() {
    let mut engine = engine();
    assert!(engine.is_swd());
    assert_eq!(engine.probe_swd(), Ok(DPIDR));
    let probe = engine.transport().sent();
    let reset = ["Q 51 FFFFFFFFFFFFFFFF", "Q 2 00"];
    assert_eq!(probe, [&["C"], &reset[..], &["Q 16 9EE7"], &reset, &["T 2 00000000"]].concat());

    assert_eq!(engine.connect_swd(), Ok(DPIDR));
    let connect = engine.transport().sent();
    assert_eq!(connect[..7], probe);
    assert_eq!(connect[7..], ["T 0 0000001E", "T 8 00000000", "T 4 50000000", "T 6 00000000"]);

    assert_eq!(engine.reselect(0x1100_2927), Ok(DPIDR));
    let reselect = engine.transport().sent();
    let select = ["O", "B 8 99", "B 5 00", "B 32 27290011", "B 1 01", "T 2 00000000"];
    assert_eq!(reselect[2..8], select);

    assert_eq!(engine.connect_multidrop(0x1100_2927), Ok(DPIDR));
    let multidrop = engine.transport().sent();
    assert_eq!(multidrop[5], "Q 128 92F30962952D8586E9AFDDE3A20EBC19");
    assert_eq!(multidrop[multidrop.len() - 10..], reselect[2..]);

    assert_eq!(engine.reset_pulse(100_000), Ok(()));
    assert_eq!(engine.transport().sent(), ["P 00 80 000186A0"]);
}

#[test]
fn access_ports() {
    let mut engine = used();
    engine.transport().ctrl_ap = 0x0288_0000;
    engine.set_apsel(1);
    assert_eq!(engine.transport().sent(), [""; 0]);
    assert_eq!(engine.ap_reg_read(0xFC), Ok(0x0288_0000));
    assert_eq!(engine.transport().sent(), ["T 8 010000F0", "T F 00000000", "T E 00000000"]);
    assert_eq!(engine.ap_reg_write(0x04, 1), Ok(()));
    assert_eq!(engine.transport().sent(), ["T 8 01000000", "T 5 00000001"]);
}

#[test]
fn words_and_memory() {
    let mut engine = engine();
    assert_eq!(engine.write_word(RAM, 0x0403_0201), Ok(()));
    assert_eq!(engine.write_words(RAM + 4, &[0x0807_0605, 0x0C0B_0A09]), Ok(()));
    let mut words = [0; 3];
    assert_eq!(engine.read_words(RAM, &mut words), Ok(()));
    assert_eq!(words, [0x0403_0201, 0x0807_0605, 0x0C0B_0A09]);

    let mut bytes = [0; 7];
    assert_eq!(engine.read_mem(RAM + 3, &mut bytes), Ok(()));
    assert_eq!(bytes, [4, 5, 6, 7, 8, 9, 10]);
    assert_eq!(engine.write_mem(RAM + 3, &[0xAA; 6]), Ok(()));
    assert_eq!(engine.transport().word(RAM), 0xAA03_0201);
    assert_eq!(engine.transport().word(RAM + 4), 0xAAAA_AAAA);
    assert_eq!(engine.transport().word(RAM + 8), 0x0C0B_0AAA);
}

#[test]
fn what_was_received_stays() {
    let mut engine = used();
    engine.transport().blank = 0x0101_0101;
    engine.transport().expect(5, Act::Fail(DapError::SwdError(DAP_TRANSFER_FAULT)));
    let mut words = [7; 4];
    assert_eq!(engine.read_words(RAM, &mut words), Err(ArmError::Transfer(4)));
    assert_eq!(words, [0x0101_0101, 0x0101_0101, 7, 7]);
    assert_eq!(engine.transport().sent()[5], "T 0 0000001E");
}

#[test]
fn the_core() {
    let mut engine = engine();
    assert_eq!(engine.debug_enable(), Ok(()));
    assert_eq!(engine.halt(), Ok(()));
    assert_eq!(engine.is_halted(), Ok(true));
    assert_eq!(engine.step(), Ok(()));
    assert_eq!(engine.read_core_reg(15), Ok(0x100F));
    assert_eq!(engine.write_core_reg(15, 0x2000), Ok(()));
    assert_eq!(engine.transport().registers[15], 0x2000);
    assert_eq!(engine.resume(), Ok(()));
    engine.transport().memory.clear();
    assert_eq!(engine.is_halted(), Ok(false));
}

#[test]
fn a_frame_goes_out_and_back() {
    let mut engine = engine();
    engine.halt().unwrap();
    let before = engine.transport().registers;
    let frame = engine.start_function(0x2001, &[1, 2, 3, 4], 0x2000_1000, RAM).unwrap();
    assert_eq!([frame.r0, frame.r1, frame.r2, frame.r3], before[..4]);
    assert_eq!([frame.sp, frame.lr, frame.pc, frame.xpsr], before[13..]);
    let running = [0x2000_1000, RAM + 1, 0x2001, 0x0100_0000];
    assert_eq!(engine.transport().registers[..4], [1, 2, 3, 4]);
    assert_eq!(engine.transport().registers[13..], running);

    // A call in between, which uses the same room.
    let mut bytes = [0; 400];
    assert_eq!(engine.read_mem(RAM + 1, &mut bytes), Ok(()));
    assert_eq!(engine.finish_function(frame, 1), Ok(1));
    assert_eq!(engine.transport().registers, before);

    assert_eq!(engine.call_function(0x2001, &[9, 0, 0, 0], RAM, RAM, 1), Ok(9));
    assert_eq!(engine.transport().registers, before);
    assert_eq!(size_of::<CallFrame>(), 32);
    assert_eq!(align_of::<CallFrame>(), 4);
}

#[test]
fn a_function_of_the_boot_rom() {
    let mut engine = engine();
    engine
        .transport()
        .memory
        .extend([(0x14, 0x0040), (0x40, 0x1234_0000 | u32::from(u16::from_le_bytes(*b"IF")))]);
    assert_eq!(engine.rom_func_lookup(*b"IF"), Ok(Some(0x1234)));
    assert_eq!(engine.rom_func_lookup(*b"RP"), Ok(None));
    assert_eq!(engine.number(), number::OK);
}

#[test]
fn breakpoints() {
    let mut engine = engine();
    engine.transport().memory.insert(0xE000_2000, 0x10);
    assert_eq!(engine.hw_breakpoint_at(0x102), Ok(false));
    assert_eq!(engine.hw_breakpoint_set(0x102), Ok(true));
    assert_eq!(engine.transport().word(0xE000_2008), 0x8000_0101);
    assert_eq!(engine.hw_breakpoint_at(0x102), Ok(true));
    assert_eq!(engine.hw_breakpoint_set(0x200), Ok(false));
    assert_eq!(engine.hw_breakpoint_clear(0x102), Ok(true));
    assert_eq!(engine.hw_breakpoint_clear(0x102), Ok(false));
}

#[test]
fn nordic() {
    let mut engine = engine();
    engine.transport().ctrl_ap = 0x0288_0000;
    assert_eq!(engine.nrf52_approtect_status(), Ok((false, true)));
    engine.transport().ctrl_ap = 1;
    assert_eq!(engine.nrf52_approtect_status(), Ok((true, false)));
    assert_eq!(engine.nrf54_approtect_status(), Ok(true));
    assert_eq!(engine.nrf52_erase_all(3), Err(ArmError::CoreTimeout));
    engine.transport().ctrl_ap = 0;
    assert_eq!(engine.nrf52_erase_all(3), Ok(()));
    assert_eq!(engine.nrf54_erase_all(3), Ok(()));

    engine.transport().memory.extend([(NVMC_READY, 1), (RRAMC_READY, 1)]);
    assert_eq!(engine.nrf52_erase_page(0x1FFF, 1), Ok(()));
    assert_eq!(engine.transport().word(0x4001_E508), 0x1000);
    // The polls come last here: none left of 0.
    assert_eq!(engine.nrf52_program(0x3FC, &[5, 6], 0), Err(ArmError::CoreTimeout));
    assert_eq!(engine.nrf52_program(0x3FC, &[5, 6], 1), Ok(()));
    assert_eq!((engine.transport().word(0x3FC), engine.transport().word(0x400)), (5, 6));
    assert_eq!(engine.nrf54_program(0x3FC, &[7, 8], 1), Ok(()));
    assert_eq!((engine.transport().word(0x3FC), engine.transport().word(0x400)), (7, 8));
}

#[test]
fn errors_and_their_numbers() {
    let mut engine = used();
    let mut fails = |error| {
        engine.transport().expect(1, Act::Fail(error));
        (engine.read_word(RAM).unwrap_err(), engine.number())
    };
    assert_eq!(fails(DapError::SwdError(7)), (ArmError::Transfer(7), number::TRANSFER));
    assert_eq!(fails(DapError::NotSupported), (ArmError::NotSupported, number::NOT_SUPPORTED));
    let others = [
        DapError::InvalidCommand,
        DapError::InvalidDapInfoId,
        DapError::InternalError,
        DapError::ExceedRetryCount,
    ];
    for error in others {
        assert_eq!(fails(error), (ArmError::Internal, number::INTERNAL));
        assert_eq!(ArmError::from(error), ArmError::Internal);
    }
    assert_eq!(ArmError::from(DapError::SwdError(4)), ArmError::Transfer(4));
    assert_eq!(ArmError::from(DapError::NotSupported), ArmError::NotSupported);

    let mut ends = |change: fn(&mut Bench)| {
        change(engine.transport());
        (engine.connect_swd().unwrap_err(), engine.number())
    };
    let timeout = ends(|target| target.ctrl_stat = 0);
    assert_eq!(timeout, (ArmError::PowerUpTimeout, number::POWER_UP_TIMEOUT));
    assert_eq!(ends(|target| target.dpidr = 0), (ArmError::NoTarget, number::NO_TARGET));
    assert_eq!(engine.nrf52_erase_page(0, 0), Err(ArmError::CoreTimeout));
    assert_eq!(engine.number(), number::CORE_TIMEOUT);
}

/// A transport that can do nothing: the trait's own answers.
struct Bare;

impl DapTransport for Bare {
    fn capabilities(&self) -> DapCapabilities {
        DapCapabilities::JTAG
    }
    fn connect(&mut self, _: ConnectPort, _: &DapConfig) -> Result<ActivePort, DapError> {
        Ok(ActivePort::Jtag)
    }
    fn swj_sequence(&mut self, _: &DapConfig, _: usize, _: &[u8]) -> Result<(), DapError> {
        Ok(())
    }
    fn swj_pins(&mut self, _: &DapConfig, _: SwjPins, _: SwjPins, _: u32) -> Result<SwjPins, DapError> {
        Err(DapError::SwdError(DAP_TRANSFER_WAIT))
    }
}

#[test]
fn a_transport_without_swd() {
    let mut engine = ArmDebug::new(Bare, DapConfig);
    assert!(!engine.is_swd());
    assert_eq!(engine.connect_swd(), Err(ArmError::NotSupported));
    assert_eq!(engine.reselect(1), Err(ArmError::NotSupported));
    // WAIT is repeated on a transfer alone.
    assert_eq!(engine.reset_pulse(1), Err(ArmError::Transfer(2)));
}

/// Answers WAIT to every transfer.
struct Busy(u32);

impl DapTransport for Busy {
    fn capabilities(&self) -> DapCapabilities {
        DapCapabilities::SWD | DapCapabilities::JTAG
    }
    fn connect(&mut self, _: ConnectPort, _: &DapConfig) -> Result<ActivePort, DapError> {
        Ok(ActivePort::Swd)
    }
    fn swj_sequence(&mut self, _: &DapConfig, _: usize, _: &[u8]) -> Result<(), DapError> {
        Ok(())
    }
    fn swj_pins(&mut self, _: &DapConfig, _: SwjPins, _: SwjPins, _: u32) -> Result<SwjPins, DapError> {
        Ok(SwjPins::empty())
    }
    fn swd_transfer(&mut self, _: &DapConfig, _: SwdRequest, _: u32) -> Result<u32, DapError> {
        self.0 += 1;
        Err(DapError::SwdError(DAP_TRANSFER_WAIT))
    }
}

#[test]
fn waits_without_end() {
    let mut engine = ArmDebug::new(Busy(0), DapConfig);
    assert_eq!(engine.read_word(RAM), Err(ArmError::Wait));
    assert_eq!((engine.number(), engine.transport().0), (number::WAIT, 65));
}

/// The engine refuses what overflows in `arm-debug`, or never ends there.
#[test]
fn refusals_of_the_engine() {
    let mut engine = used();
    const TOP: u32 = 0xFFFF_FFFC;
    let mut bytes = [0; 4];
    let refused = Err(ArmError::Internal);
    assert_eq!((engine.read_mem(TOP, &mut bytes), engine.number()), (refused, number::RANGE));
    assert_eq!((engine.write_mem(TOP, &bytes), engine.number()), (refused, number::RANGE));
    assert_eq!((engine.nrf52_program(TOP, &[1], 1), engine.number()), (refused, number::RANGE));
    assert_eq!((engine.nrf54_program(TOP, &[1], 1), engine.number()), (refused, number::RANGE));
    assert_eq!((engine.nrf52_program(0x3FD, &[1], 1), engine.number()), (refused, number::ALIGN));
    assert_eq!((engine.nrf54_program(0x3FD, &[1], 1), engine.number()), (refused, number::ALIGN));
    assert_eq!(engine.transport().sent(), [""; 0]);
    // As far as that it is done, and without words there is nothing to refuse.
    assert_eq!((engine.read_mem(TOP, &mut bytes[..3]), engine.number()), (Ok(()), number::OK));
    assert_eq!((engine.nrf52_program(0x3FD, &[], 0), engine.number()), (Ok(()), number::OK));

    engine.transport().blank = 0x0001_0004;
    assert_eq!(engine.rom_func_lookup(*b"IF"), Err(ArmError::Internal));
    assert_eq!(engine.number(), number::TABLE_END);
}

/// Read-only memory: a write to it would crash.
static WORDS: [u32; 300] = [0xA5A5_A5A5; 300];
static BYTES: [u8; 1201] = [0x5A; 1201];

type Call = fn(&mut ArmDebug<Bench>) -> Result<(), ArmError>;

/// However a call ends, it writes nothing to a slice that it is lent as shared.
#[test]
fn shared_slices_are_only_read() {
    let mut engine = used();
    engine.transport().memory.extend([(NVMC_READY, 1), (RRAMC_READY, 1)]);
    let calls: [Call; 4] = [
        |e| e.write_words(RAM, &WORDS[..256]),
        |e| e.write_mem(RAM + 3, &BYTES),
        |e| e.nrf52_program(0x3F0, &WORDS, 2),
        |e| e.nrf54_program(0x3F0, &WORDS, 2),
    ];
    for call in calls {
        engine.transport().sent();
        assert_eq!(call(&mut engine), Ok(()));
        let count = engine.transport().sent().len();
        for at in 1..=count {
            engine.transport().expect(at, Act::Fail(DapError::InternalError));
            assert_eq!(call(&mut engine), Err(ArmError::Internal));
            engine.transport().expect(at, Act::Panic);
            pulled(|| call(&mut engine));
        }
    }
    assert_eq!((WORDS[299], BYTES[1200]), (0xA5A5_A5A5, 0x5A));
    assert_eq!(engine.nrf52_program(0xFFFF_FFFC, &WORDS, 2), Err(ArmError::Internal));
    assert_eq!(engine.write_mem(0xFFFF_FFFC, &BYTES), Err(ArmError::Internal));
}

/// What was answered before is remembered, and what was not is not.
#[test]
fn a_panic_leaves_the_engine_where_it_stands() {
    let whole = ["T 8 00000000", "T 1 23000012", "T 5 20000000", "T F 00000000", "T E 00000000"];
    for at in 1..=5 {
        let mut engine = engine();
        engine.transport().expect(at, Act::Panic);
        pulled(|| engine.read_word(RAM));
        assert_eq!(engine.transport().sent(), whole[..at]);
        assert_eq!(engine.read_word(RAM), Ok(0));
        assert_eq!(engine.transport().sent(), whole[(at - 1).min(2)..]);
    }
    // Of a read the words that came are there, and the number stays that of the call before.
    let mut engine = used();
    engine.transport().blank = 0x0101_0101;
    engine.transport().expect(5, Act::Panic);
    let mut words = [7; 4];
    pulled(|| engine.read_words(RAM, &mut words));
    assert_eq!(words, [0x0101_0101, 0x0101_0101, 7, 7]);
    assert_eq!(engine.number(), number::OK);
    // A refused call after it.
    engine.transport().sent();
    assert_eq!(engine.read_mem(0xFFFF_FFFF, &mut [0; 4]), Err(ArmError::Internal));
    assert_eq!(engine.number(), number::RANGE);
    assert_eq!(engine.read_word(RAM), Ok(0x0101_0101));
    assert_eq!(engine.transport().sent(), whole[2..]);
}

#[test]
fn bits_are_those_of_cmsis_dap() {
    let mut request = SwdRequest::APnDP | SwdRequest::RnW;
    request |= SwdRequest::A2;
    assert_eq!((request.bits(), SwdRequest::A3.bits()), (0b0111, 0b1000));
    assert!(request.contains(SwdRequest::RnW) && !request.contains(SwdRequest::A3));
    assert_eq!(SwdRequest::from_bits_truncate(0xFF).bits(), 0x0F);
    assert_eq!(SwjPins::N_RESET.bits(), 0x80);
    assert_eq!(SwjPins::from_bits_truncate(0xFF).bits(), 0xAF);
    assert_eq!(DapCapabilities::from_bits_truncate(0x1FF), DapCapabilities::SWD | DapCapabilities::JTAG);
}
