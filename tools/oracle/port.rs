//! The port's calls that change a block, and the check of a saved one, as they are exported: any slices may be lent.

unsafe extern "C" {
    // a slice is a pointer and a length; a refusal is answered as its number with `REFUSED`
    fn probe_write_joypad(b: *mut u8, len: usize, value: u8, out: *mut u8, out_len: usize) -> u32;
    fn probe_update_screen(b: *mut u8, len: usize, screen: *const u8, screen_len: usize) -> u32;
    fn probe_play(
        b: *mut u8,
        len: usize,
        writes: *const u8,
        n: usize,
        out: *mut u8,
        out_len: usize,
    ) -> usize;
    // these answer a refusal as its number alone
    fn probe_check(b: *const u8, len: usize) -> u32;
    pub fn probe_new(b: *mut u8, len: usize) -> u32;
    pub fn probe_post_boot(b: *mut u8, len: usize) -> u32;
}

/// No answer has this bit. A refusal's number stands below it, with 256 times its offset if it has one.
pub const REFUSED: u32 = 0x8000_0000;
/// The answer to a screen at which no transfer lands.
pub const NOTHING: u32 = 0xFF;
/// The room that a write asks for.
pub const COMMAND_LEN: usize = 112;

/// The packets of the command that is complete, or 0.
pub fn write_joypad(b: &mut [u8], value: u8, out: &mut [u8]) -> u32 {
    unsafe { probe_write_joypad(b.as_mut_ptr(), b.len(), value, out.as_mut_ptr(), out.len()) }
}

/// The kind that lands, or `NOTHING`.
pub fn update_screen(b: &mut [u8], screen: &[u8]) -> u32 {
    unsafe { probe_update_screen(b.as_mut_ptr(), b.len(), screen.as_ptr(), screen.len()) }
}

/// After how many writes it ended, times 256, and the packets of the command that is complete, or 0.
pub fn play(b: &mut [u8], writes: &[u8], out: &mut [u8]) -> usize {
    let (at, n) = (writes.as_ptr(), writes.len());
    unsafe { probe_play(b.as_mut_ptr(), b.len(), at, n, out.as_mut_ptr(), out.len()) }
}

pub fn check(b: &[u8]) -> u32 {
    unsafe { probe_check(b.as_ptr(), b.len()) }
}
