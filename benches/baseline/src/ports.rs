//! What is at the other ends of the links.

use crate::fault::Fault;
use std::io::{Read, Write};

/// A reader for each input link and a writer for each output link, where there is one, and what went through them.
pub struct Ports<R, W> {
    pub inputs: [Option<R>; 4],
    pub outputs: [Option<W>; 4],
    pub read: [u64; 4],
    pub written: [u64; 4],
}

impl<R: Read, W: Write> Ports<R, W> {
    pub fn new(inputs: [Option<R>; 4], outputs: [Option<W>; 4]) -> Self {
        Ports {
            inputs,
            outputs,
            read: [0; 4],
            written: [0; 4],
        }
    }

    /// Some of the bytes that are wanted. A link that has none any more is not asked again.
    pub fn read(&mut self, link: usize, bytes: &mut [u8]) -> Result<usize, Fault> {
        let Some(reader) = &mut self.inputs[link] else {
            return Ok(0);
        };
        let count = reader.read(bytes).map_err(|_| Fault::Failed)?;
        if count == 0 {
            self.inputs[link] = None;
        }
        self.read[link] += count as u64;
        Ok(count)
    }

    /// Writes a message, and says whether somebody took it.
    pub fn write(&mut self, link: usize, message: &[u8]) -> Result<bool, Fault> {
        let Some(writer) = &mut self.outputs[link] else {
            return Ok(false);
        };
        writer.write_all(message).map_err(|_| Fault::Failed)?;
        self.written[link] += message.len() as u64;
        Ok(true)
    }

    pub fn flush(&mut self) -> Result<(), Fault> {
        for writer in self.outputs.iter_mut().flatten() {
            writer.flush().map_err(|_| Fault::Failed)?;
        }
        Ok(())
    }
}
