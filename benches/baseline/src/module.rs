//! What the machine needs of a module's file.

use crate::memory::START;

const HEADER: [usize; 2] = [76, 84]; // bytes of versions 1 and 2

/// A module: its code, its memory as it is loaded, and where both begin.
pub struct Module {
    pub code: Vec<u8>,
    pub memory: Vec<u8>,
    /// The address of the first byte of code.
    pub code_start: u32,
    /// The address of the root's workspace.
    pub workspace: u32,
    /// The offset after the last `stopp`.
    pub finish: u32,
    /// The lengths of messages, of output links and then of input links.
    pub lengths: [u32; 8],
}

fn number(file: &[u8], at: usize) -> Option<u32> {
    let bytes = file.get(at..at + 4)?;
    Some(u32::from_le_bytes(bytes.try_into().ok()?))
}

/// Reads the file of a module. Its rows are not looked at.
pub fn read(file: &[u8]) -> Option<Module> {
    let header = match file.get(..4)? {
        b"TPM1" => HEADER[0],
        b"TPM2" => HEADER[1],
        _ => return None,
    };
    let code_bytes = number(file, 4)? as usize;
    let constants = number(file, 8)? as usize;
    let words = number(file, 12)?;
    let code = file.get(header..header + code_bytes)?.to_vec();
    let rest = file.get(header + code_bytes..header + code_bytes + constants)?;
    let mut memory = vec![0; 4 * words as usize];
    memory.extend_from_slice(&code);
    memory.resize(memory.len().next_multiple_of(4), 0);
    memory.extend_from_slice(rest);
    let mut lengths = [0; 8];
    for (link, length) in lengths.iter_mut().enumerate() {
        *length = number(file, 32 + 4 * link)?;
    }
    Some(Module {
        code,
        memory,
        code_start: START + 4 * words,
        workspace: START + 4 * number(file, 16)?,
        finish: number(file, 28)?,
        lengths,
    })
}
