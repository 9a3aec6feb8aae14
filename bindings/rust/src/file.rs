//! Block read: one block of a grants file, judged alone, also in a file that load refuses.

use crate::answer::unpack;
use crate::fault::Fault;
use crate::ffi;

/// The verdict on one block. Refuses 10, 12 and 11, in this order.
pub fn block(file: &[u8], block: u64) -> Result<(), Fault> {
    // SAFETY: pointer and length are one slice's, borrowed for the call. So below.
    unpack(unsafe { ffi::lg_block(file.as_ptr(), file.len(), block) }).map(|_| ())
}

/// The part of the file that a block's records occupy; empty for block 0 and for a block that `block` refuses.
pub fn block_part(file: &[u8], block: u64) -> &[u8] {
    unpack(unsafe { ffi::lg_block_part(file.as_ptr(), file.len(), block) })
        .ok()
        .and_then(|values| file.get(values.b as usize..)?.get(..values.a as usize))
        .unwrap_or(&[])
}
