use crate::bench::{pulled, Act, Bench, DPIDR, POWERED_UP, RAM};
use bazkondur::rust_dap::*;
use bazkondur::{number, ArmError, Session, SessionError};

fn fresh() -> Session<Bench> {
    Session::new(Bench::new(), DapConfig)
}

fn connected() -> Session<Bench> {
    let mut session = fresh();
    assert_eq!(session.connect_swd(), Ok(DPIDR));
    session.transport().sent();
    session
}

#[test]
fn connects_reads_and_writes() {
    let mut session = fresh();
    assert!(!session.is_open());
    assert_eq!(session.connect_swd(), Ok(DPIDR));
    assert!(session.is_open());
    assert_eq!(session.made(), 11);
    assert_eq!(session.transport().sent().len(), 11);

    assert_eq!(session.write_word(RAM, 0x0403_0201), Ok(()));
    assert_eq!(session.made(), 4); // CSW, TAR, DRW, RDBUFF
    assert_eq!(session.read_word(RAM), Ok(0x0403_0201));
    assert_eq!(session.made(), 3);
    assert_eq!(session.write_mem(RAM + 3, &[4, 5, 6, 7, 8, 9]), Ok(()));
    let mut bytes = [0; 7];
    assert_eq!(session.read_mem(RAM + 2, &mut bytes), Ok(()));
    assert_eq!(bytes, [3, 4, 5, 6, 7, 8, 9]);
    assert!(session.is_open());
}

#[test]
fn the_core_and_its_functions() {
    let mut session = connected();
    assert_eq!(session.debug_enable(), Ok(()));
    assert_eq!(session.halt(), Ok(()));
    assert_eq!(session.is_halted(), Ok(true));
    assert_eq!(session.step(), Ok(()));
    assert_eq!(session.read_core_reg(13), Ok(0x100D));
    assert_eq!(session.write_core_reg(13, 0x1234), Ok(()));

    let before = session.transport().registers;
    let frame = session.start_function(0x2001, &[1, 2, 3, 4], RAM, RAM).unwrap();
    assert_eq!([frame.r0, frame.r1, frame.r2, frame.r3], before[..4]);
    assert_eq!([frame.sp, frame.lr, frame.pc, frame.xpsr], before[13..]);
    assert_eq!(session.finish_function(frame, 1), Ok(1));
    assert_eq!(session.transport().registers, before);
    assert_eq!(session.call_function(0x2001, &[9, 0, 0, 0], RAM, RAM, 1), Ok(9));
    assert_eq!(session.resume(), Ok(()));

    let code = u32::from(u16::from_le_bytes(*b"IF"));
    session.transport().memory.extend([(0x14, 0x40), (0x40, 0x1234_0000 | code), (0xE000_2000, 0x10)]);
    assert_eq!(session.rom_func_lookup(*b"IF"), Ok(Some(0x1234)));
    assert_eq!(session.rom_func_lookup(*b"RP"), Ok(None));
    assert_eq!(session.hw_breakpoint_set(0x102), Ok(true));
    assert_eq!(session.hw_breakpoint_at(0x102), Ok(true));
    assert_eq!(session.hw_breakpoint_clear(0x102), Ok(true));
    assert!(session.is_open());
}

#[test]
fn refusals_send_nothing() {
    let mut session = fresh();
    assert_eq!(session.read_word(1), Err(SessionError::NoSession));
    assert_eq!(session.made(), 0);
    session.connect_swd().unwrap();
    session.transport().sent();
    let mut bytes = [0; 4];
    assert_eq!(session.read_word(RAM + 2), Err(SessionError::Align));
    assert_eq!(session.write_word(RAM + 1, 0), Err(SessionError::Align));
    assert_eq!(session.hw_breakpoint_set(0x103), Err(SessionError::Align));
    assert_eq!(session.hw_breakpoint_clear(0x103), Err(SessionError::Align));
    assert_eq!(session.hw_breakpoint_at(0x103), Err(SessionError::Align));
    assert_eq!(session.read_mem(0xFFFF_FFFC, &mut bytes), Err(SessionError::Range));
    assert_eq!(session.write_mem(0xFFFF_FFFC, &bytes), Err(SessionError::Range));
    assert_eq!(session.made(), 0);
    assert_eq!(session.transport().sent(), [""; 0]);
    assert!(session.is_open());
}

#[test]
fn a_table_without_end() {
    let mut session = connected();
    session.transport().blank = 0x0001_0004;
    assert_eq!(session.rom_func_lookup(*b"IF"), Err(SessionError::TableEnd));
    assert_eq!(session.made(), 49_156); // CSW, then three for the pointer and for each entry
    assert!(session.is_open());
}

#[test]
fn a_lost_answer_closes() {
    let losses = [
        DapError::SwdError(0),
        DapError::SwdError(7),
        DapError::NotSupported,
        DapError::InternalError,
        DapError::ExceedRetryCount,
    ];
    for error in losses {
        for at in 1..=4 {
            let mut session = connected();
            session.transport().expect(at, Act::Fail(error));
            assert_eq!(session.read_word(RAM), Err(SessionError::Arm(error.into())));
            assert!(!session.is_open());
            session.transport().sent();
            assert_eq!(session.read_word(RAM), Err(SessionError::NoSession));
            assert_eq!(session.transport().sent(), [""; 0]);
            assert_eq!(session.connect_swd(), Ok(DPIDR));
            assert_eq!(session.read_word(RAM), Ok(0));
        }
    }
}

#[test]
fn wait_and_fault_do_not_close() {
    let mut session = connected();
    session.transport().expect(2, Act::Fail(DapError::SwdError(DAP_TRANSFER_WAIT)));
    assert_eq!(session.read_word(RAM), Ok(0));
    session.transport().expect(2, Act::Fail(DapError::SwdError(DAP_TRANSFER_FAULT)));
    assert_eq!(session.read_word(RAM), Err(SessionError::Arm(ArmError::Transfer(4))));
    assert!(session.is_open());
    session.transport().sent();
    assert_eq!(session.read_word(RAM), Ok(0));
}

#[test]
fn a_failed_connect_closes() {
    let mut session = connected();
    session.transport().dpidr = 0;
    assert_eq!(session.connect_swd(), Err(SessionError::Arm(ArmError::NoTarget)));
    assert!(!session.is_open());
    session.transport().dpidr = DPIDR;
    session.transport().ctrl_stat = 0;
    assert_eq!(session.connect_swd(), Err(SessionError::Arm(ArmError::PowerUpTimeout)));
    assert!(!session.is_open());
    session.transport().ctrl_stat = POWERED_UP;
    assert_eq!(session.connect_swd(), Ok(DPIDR));
}

#[test]
fn the_budget_is_for_each_call() {
    let mut session = fresh();
    session.set_budget(11);
    assert_eq!(session.connect_swd(), Ok(DPIDR));
    assert_eq!(session.read_word(RAM), Ok(0));
    session.set_budget(2);
    session.transport().sent();
    assert_eq!(session.read_word(RAM), Err(SessionError::Spent));
    assert_eq!(session.made(), 2);
    assert_eq!(session.transport().sent().len(), 2);
    assert!(!session.is_open());
    session.set_budget(0);
    assert_eq!(session.connect_swd(), Err(SessionError::Spent));
    assert_eq!(session.made(), 0);
    session.set_budget(u32::MAX);
    assert_eq!(session.connect_swd(), Ok(DPIDR));
}

/// Read-only memory: a write to it would crash.
static BYTES: [u8; 1201] = [0x5A; 1201];

#[test]
fn a_shared_slice_is_only_read() {
    let mut session = connected();
    assert_eq!(session.write_mem(RAM + 3, &BYTES), Ok(()));
    let made = session.made() as usize;
    for at in 1..=made {
        session.connect_swd().unwrap();
        session.transport().expect(at, Act::Fail(DapError::InternalError));
        assert_eq!(session.write_mem(RAM + 3, &BYTES), Err(SessionError::Arm(ArmError::Internal)));
        session.transport().sent();
    }
    assert_eq!(session.write_mem(RAM + 3, &BYTES), Err(SessionError::NoSession));
}

#[test]
fn a_panic_closes() {
    for at in 1..=4 {
        let mut session = connected();
        session.transport().expect(at, Act::Panic);
        pulled(|| session.read_word(RAM));
        assert!(!session.is_open());
        assert_eq!(session.made(), 0);
        assert_eq!(session.transport().sent().len(), at);
        assert_eq!(session.read_word(RAM), Err(SessionError::NoSession));
        assert!(!session.is_open());
        assert_eq!(session.transport().sent(), [""; 0]);
        assert_eq!(session.connect_swd(), Ok(DPIDR));
        assert_eq!(session.read_word(RAM), Ok(0));
    }
}

#[test]
fn errors_have_their_numbers() {
    let arm = [
        ArmError::Transfer(9),
        ArmError::Wait,
        ArmError::NotSupported,
        ArmError::PowerUpTimeout,
        ArmError::CoreTimeout,
        ArmError::NoTarget,
        ArmError::Internal,
    ];
    let own = [
        SessionError::Range,
        SessionError::Align,
        SessionError::NoSession,
        SessionError::Spent,
        SessionError::TableEnd,
    ];
    let numbers = arm.map(SessionError::Arm).into_iter().chain(own).map(|e| e.number());
    assert!(numbers.eq(number::TRANSFER..=number::TABLE_END));
}
