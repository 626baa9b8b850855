//! The proved library, called as C calls it.

pub const WORK_BYTES: usize = 2048;
/// Room for any result of finder, verifier, job writers and read-out.
pub const OUT_BYTES: usize = 17702;
/// Room for any flow file, its signal lists included.
pub const FLOW_BYTES: usize = 21016;

/// The role of the owner, who may do everything; any other number is an operator's.
pub const OWNER: u64 = 0;
pub const OPERATOR: u64 = 1;
/// The owner's and operators': to a library that looks at some bits only, one of these is the owner.
pub const ROLES: [u64; 5] = [OWNER, OPERATOR, 1 << 8, 1 << 32, u64::MAX];

unsafe extern "C" {
    fn bolz_find(role: u64, file: *const u8, len: usize, work: *mut u8, work_len: usize, out: *mut u8, out_len: usize) -> u64;
    fn bolz_verify(role: u64, file: *const u8, len: usize, out: *mut u8, out_len: usize) -> u64;
    fn bolz_add_signals(role: u64, file: *const u8, len: usize, out: *mut u8, out_len: usize) -> u64;
    fn bolz_edit_set(role: u64, file: *const u8, len: usize, entry: *const u8, entry_len: usize, out: *mut u8, out_len: usize) -> u64;
    fn bolz_write_job(
        role: u64,
        n: usize,
        mode: usize,
        edges: *const u8,
        edges_len: usize,
        inputs: *const u8,
        inputs_len: usize,
        outputs: *const u8,
        outputs_len: usize,
        measurements: *const u8,
        measurements_len: usize,
        out: *mut u8,
        out_len: usize,
    ) -> u64;
    fn bolz_write_job_angles(
        role: u64,
        n: usize,
        mode: usize,
        edges: *const u8,
        edges_len: usize,
        inputs: *const u8,
        inputs_len: usize,
        outputs: *const u8,
        outputs_len: usize,
        measurements: *const u8,
        measurements_len: usize,
        angles: *const u8,
        angles_len: usize,
        out: *mut u8,
        out_len: usize,
    ) -> u64;
    fn bolz_read_angles(role: u64, file: *const u8, len: usize, out: *mut u8, out_len: usize) -> u64;
    fn bolz_solve(
        matrix: *mut u8,
        matrix_len: usize,
        bits: *mut u8,
        bits_len: usize,
        rows: usize,
        cols: usize,
        sides: usize,
        side: usize,
    ) -> u64;
}

/// The whole code: two answers are equal exactly if their codes are.
#[derive(Clone, Copy, PartialEq, Eq, Debug)]
pub enum Answer {
    /// Bytes written; for the solver 1 solvable, 0 not.
    Value(usize),
    /// Number, a, b.
    Refused(u32, u16, u16),
}

fn decoded(code: u64) -> Answer {
    let number = (code >> 32) as u32;
    if number == 0 {
        return Answer::Value(code as usize);
    }
    Answer::Refused(number, (code >> 16) as u16, code as u16)
}

pub fn find(role: u64, file: &[u8], work: &mut [u8], out: &mut [u8]) -> Answer {
    // SAFETY: each pointer goes with its slice's length.
    decoded(unsafe { bolz_find(role, file.as_ptr(), file.len(), work.as_mut_ptr(), work.len(), out.as_mut_ptr(), out.len()) })
}

pub fn verify(role: u64, file: &[u8], out: &mut [u8]) -> Answer {
    // SAFETY: each pointer goes with its slice's length.
    decoded(unsafe { bolz_verify(role, file.as_ptr(), file.len(), out.as_mut_ptr(), out.len()) })
}

pub fn add_signals(role: u64, file: &[u8], out: &mut [u8]) -> Answer {
    // SAFETY: each pointer goes with its slice's length.
    decoded(unsafe { bolz_add_signals(role, file.as_ptr(), file.len(), out.as_mut_ptr(), out.len()) })
}

pub fn edit_set(role: u64, file: &[u8], entry: &[u8], out: &mut [u8]) -> Answer {
    // SAFETY: each pointer goes with its slice's length.
    decoded(unsafe { bolz_edit_set(role, file.as_ptr(), file.len(), entry.as_ptr(), entry.len(), out.as_mut_ptr(), out.len()) })
}

/// The lists are edges, inputs, outputs and measurements.
pub fn write_job(role: u64, n: usize, mode: usize, lists: [&[u8]; 4], out: &mut [u8]) -> Answer {
    let [e, i, o, m] = lists.map(|list| (list.as_ptr(), list.len()));
    // SAFETY: each pointer goes with its slice's length.
    decoded(unsafe { bolz_write_job(role, n, mode, e.0, e.1, i.0, i.1, o.0, o.1, m.0, m.1, out.as_mut_ptr(), out.len()) })
}

/// The lists with the angles behind them.
pub fn write_job_angles(role: u64, n: usize, mode: usize, lists: [&[u8]; 5], out: &mut [u8]) -> Answer {
    let [e, i, o, m, a] = lists.map(|list| (list.as_ptr(), list.len()));
    // SAFETY: each pointer goes with its slice's length.
    decoded(unsafe { bolz_write_job_angles(role, n, mode, e.0, e.1, i.0, i.1, o.0, o.1, m.0, m.1, a.0, a.1, out.as_mut_ptr(), out.len()) })
}

pub fn read_angles(role: u64, file: &[u8], out: &mut [u8]) -> Answer {
    // SAFETY: each pointer goes with its slice's length.
    decoded(unsafe { bolz_read_angles(role, file.as_ptr(), file.len(), out.as_mut_ptr(), out.len()) })
}

pub fn solve(matrix: &mut [u8], bits: &mut [u8], rows: usize, cols: usize, sides: usize, side: usize) -> Answer {
    let (m, b) = (matrix.as_mut_ptr(), bits.as_mut_ptr());
    // SAFETY: each pointer goes with its slice's length.
    decoded(unsafe { bolz_solve(m, matrix.len(), b, bits.len(), rows, cols, sides, side) })
}
