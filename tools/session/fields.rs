
// Stands behind the unchanged source of arm-debug, in its module, because a
// session has to see and to forget what the engine remembers, and the fields
// are private.

impl<T: DapTransport> ArmDebug<T> {
    /// SELECT, whether CSW is known, and APSEL.
    pub fn remembered(&self) -> (u32, bool, u8) {
        (self.select, self.csw_valid, self.apsel)
    }

    /// Takes SELECT and CSW for unknown, as in `new`.
    pub fn forget(&mut self) {
        self.select = 0xffff_ffff;
        self.csw_valid = false;
    }
}

impl CallFrame {
    pub fn new(saved: [u32; 8]) -> Self {
        CallFrame { saved }
    }

    pub fn words(&self) -> [u32; 8] {
        self.saved
    }
}
