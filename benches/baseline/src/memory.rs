//! Words and bytes of memory, by their addresses. Each access is tested.

use crate::fault::Fault;

/// The address of the first byte.
pub const START: u32 = 0x8000_0100;

#[inline(always)]
fn place(address: u32) -> usize {
    address.wrapping_sub(START) as usize
}

/// The word at an address.
#[inline(always)]
pub fn load(memory: &[u8], address: u32) -> Result<i32, Fault> {
    let at = place(address);
    match memory.get(at..at + 4) {
        Some(word) => Ok(i32::from_le_bytes([word[0], word[1], word[2], word[3]])),
        None => Err(Fault::OutsideMemory),
    }
}

/// The word at an address becomes a value.
#[inline(always)]
pub fn store(memory: &mut [u8], address: u32, value: i32) -> Result<(), Fault> {
    let at = place(address);
    match memory.get_mut(at..at + 4) {
        Some(word) => {
            word.copy_from_slice(&value.to_le_bytes());
            Ok(())
        }
        None => Err(Fault::OutsideMemory),
    }
}

/// The word so many words from an address on.
#[inline(always)]
pub fn load_from(memory: &[u8], address: u32, words: i32) -> Result<i32, Fault> {
    load(memory, word_address(address, words))
}

/// That word becomes a value.
#[inline(always)]
pub fn store_from(memory: &mut [u8], address: u32, words: i32, value: i32) -> Result<(), Fault> {
    store(memory, word_address(address, words), value)
}

/// The address so many words from another on.
#[inline(always)]
pub fn word_address(address: u32, words: i32) -> u32 {
    address.wrapping_add(words.cast_unsigned() << 2)
}

/// The byte at an address.
#[inline(always)]
pub fn load_byte(memory: &[u8], address: u32) -> Result<u8, Fault> {
    memory
        .get(place(address))
        .copied()
        .ok_or(Fault::OutsideMemory)
}

/// The byte at an address becomes a value.
#[inline(always)]
pub fn store_byte(memory: &mut [u8], address: u32, value: u8) -> Result<(), Fault> {
    match memory.get_mut(place(address)) {
        Some(byte) => {
            *byte = value;
            Ok(())
        }
        None => Err(Fault::OutsideMemory),
    }
}

/// So many bytes from an address on.
#[inline(always)]
pub fn bytes(memory: &[u8], address: u32, count: usize) -> Result<&[u8], Fault> {
    let at = place(address);
    memory.get(at..at + count).ok_or(Fault::OutsideMemory)
}

/// The same, to be written.
#[inline(always)]
pub fn bytes_mut(memory: &mut [u8], address: u32, count: usize) -> Result<&mut [u8], Fault> {
    let at = place(address);
    memory.get_mut(at..at + count).ok_or(Fault::OutsideMemory)
}

/// So many bytes go from one address to another. A word, as most messages are, takes no call.
#[inline(always)]
pub fn copy(memory: &mut [u8], source: u32, target: u32, count: usize) -> Result<(), Fault> {
    if count == 4 {
        let word = load(memory, source)?;
        return store(memory, target, word);
    }
    bytes(memory, source, count)?;
    bytes(memory, target, count)?;
    let from = place(source);
    memory.copy_within(from..from + count, place(target));
    Ok(())
}
