//! Who is ready, and who waits for whom. A process is the address of its workspace.

use crate::fault::Fault;
use crate::memory::{bytes, bytes_mut, copy, load, load_from, store, store_byte, store_from};
use crate::ports::Ports;
use std::io::{Read, Write};

const EMPTY: i32 = i32::MIN; // the word of a channel for which nobody waits
const SAVED: i32 = -1; // the word, from the workspace on, with the address where the process goes on
const NEXT: i32 = -2; // with the next one in the ready list
const MESSAGE: i32 = -2; // with the address of the message
const STATE: i32 = -3; // with the address of the channel, or the state of the alternation
const ENABLING: i32 = i32::MIN + 1;
const WAITING: i32 = i32::MIN + 2;
const READY: i32 = i32::MIN + 3;
const SELECTED: i32 = i32::MIN + 5;
const LINKS: u32 = 0x8000_0000; // the address of the first output link

/// A link, by its address.
enum Way {
    Out(usize),
    In(usize),
}

#[inline(always)]
fn way(channel: u32) -> Option<Way> {
    match channel.wrapping_sub(LINKS) / 4 {
        link @ 0..=3 => Some(Way::Out(link as usize)),
        link @ 4..=7 => Some(Way::In(link as usize - 4)),
        _ => None,
    }
}

/// A message for which a process waits on a link.
#[derive(Clone, Copy)]
struct Arrival {
    workspace: u32,
    address: u32,
    left: usize,
}

/// An input link: the byte that nobody took, the message that is awaited, and who has enabled it.
#[derive(Clone, Copy, Default)]
struct Input {
    kept: Option<u8>,
    waiting: Option<Arrival>,
    enabled: Option<u32>,
}

/// The ready list, which goes through the words of its members, and the links.
pub struct Scheduler {
    front: u32,
    back: u32,
    ready: u32,
    inputs: [Input; 4],
    lengths: [u32; 8],
}

impl Scheduler {
    pub fn new(lengths: [u32; 8]) -> Self {
        Scheduler {
            front: 0,
            back: 0,
            ready: 0,
            inputs: [Input::default(); 4],
            lengths,
        }
    }

    /// A process goes to the back of the ready list.
    #[inline(always)]
    pub fn push(&mut self, memory: &mut [u8], workspace: u32) -> Result<(), Fault> {
        if self.ready == 0 {
            self.front = workspace;
        } else {
            store_from(memory, self.back, NEXT, workspace.cast_signed())?;
        }
        self.back = workspace;
        self.ready += 1;
        Ok(())
    }

    /// The process at the front of the ready list, and the address where it goes on.
    #[inline(always)]
    pub fn take(&mut self, memory: &[u8]) -> Result<Option<(u32, u32)>, Fault> {
        if self.ready == 0 {
            return Ok(None);
        }
        let workspace = self.front;
        self.ready -= 1;
        if self.ready > 0 {
            self.front = load_from(memory, workspace, NEXT)?.cast_unsigned();
        }
        let at = load_from(memory, workspace, SAVED)?.cast_unsigned();
        Ok(Some((workspace, at)))
    }

    /// A process that is started is ready.
    #[inline(always)]
    pub fn start(&mut self, memory: &mut [u8], workspace: u32, at: u32) -> Result<(), Fault> {
        store_from(memory, workspace, SAVED, at.cast_signed())?;
        self.push(memory, workspace)
    }

    /// `in` of so many bytes by the process of this workspace, which then is at this address. Whether it goes on.
    #[inline(always)]
    pub fn receive(
        &mut self,
        memory: &mut [u8],
        (workspace, at): (u32, u32),
        count: usize,
        channel: u32,
        target: u32,
    ) -> Result<bool, Fault> {
        if let Some(way) = way(channel) {
            return self.receive_on_link(memory, (workspace, at), count, way, target);
        }
        let other = load(memory, channel)?;
        if other == EMPTY {
            wait(memory, (workspace, at), channel, target)?;
            return Ok(false);
        }
        let other = other.cast_unsigned();
        let source = load_from(memory, other, MESSAGE)?.cast_unsigned();
        copy(memory, source, target, count)?;
        store(memory, channel, EMPTY)?;
        self.push(memory, other)?;
        Ok(true)
    }

    /// `out`, likewise.
    #[inline(always)]
    pub fn send<R: Read, W: Write>(
        &mut self,
        memory: &mut [u8],
        ports: &mut Ports<R, W>,
        (workspace, at): (u32, u32),
        count: usize,
        channel: u32,
        source: u32,
    ) -> Result<bool, Fault> {
        if let Some(way) = way(channel) {
            return self.send_on_link(memory, ports, (workspace, at), count, way, source);
        }
        let other = load(memory, channel)?;
        if other == EMPTY {
            wait(memory, (workspace, at), channel, source)?;
            return Ok(false);
        }
        let other = other.cast_unsigned();
        if load_from(memory, other, STATE)?.cast_unsigned() == channel {
            let target = load_from(memory, other, MESSAGE)?.cast_unsigned();
            copy(memory, source, target, count)?;
            store(memory, channel, EMPTY)?;
            self.push(memory, other)?;
            return Ok(true);
        }
        self.wake(memory, other)?;
        wait(memory, (workspace, at), channel, source)?;
        Ok(false)
    }

    /// Something came to an alternation that has enabled it.
    #[inline(always)]
    fn wake(&mut self, memory: &mut [u8], workspace: u32) -> Result<(), Fault> {
        match load_from(memory, workspace, STATE)? {
            ENABLING => store_from(memory, workspace, STATE, READY),
            WAITING => {
                store_from(memory, workspace, STATE, READY)?;
                self.push(memory, workspace)
            }
            _ => Ok(()),
        }
    }

    fn receive_on_link(
        &mut self,
        memory: &mut [u8],
        (workspace, at): (u32, u32),
        count: usize,
        way: Way,
        target: u32,
    ) -> Result<bool, Fault> {
        let Way::In(link) = way else {
            return Err(Fault::OutsideMemory);
        };
        if count != self.lengths[4 + link] as usize {
            return Err(Fault::Length);
        }
        bytes(memory, target, count)?;
        let input = &mut self.inputs[link];
        let mut message = Arrival {
            workspace,
            address: target,
            left: count,
        };
        if let Some(byte) = input.kept.take() {
            store_byte(memory, target, byte)?;
            message.address = target.wrapping_add(1);
            message.left -= 1;
        }
        if message.left == 0 {
            return Ok(true);
        }
        input.waiting = Some(message);
        store_from(memory, workspace, SAVED, at.cast_signed())?;
        Ok(false)
    }

    fn send_on_link<R: Read, W: Write>(
        &mut self,
        memory: &mut [u8],
        ports: &mut Ports<R, W>,
        (workspace, at): (u32, u32),
        count: usize,
        way: Way,
        source: u32,
    ) -> Result<bool, Fault> {
        let Way::Out(link) = way else {
            return Err(Fault::OutsideMemory);
        };
        if count != self.lengths[link] as usize {
            return Err(Fault::Length);
        }
        store_from(memory, workspace, SAVED, at.cast_signed())?;
        if ports.write(link, bytes(memory, source, count)?)? {
            self.push(memory, workspace)?;
        }
        Ok(false)
    }

    /// Nobody is ready: bytes come on the first link where they are wanted, until somebody is. Whether somebody is.
    pub fn provide<R: Read, W: Write>(
        &mut self,
        memory: &mut [u8],
        ports: &mut Ports<R, W>,
    ) -> Result<bool, Fault> {
        for link in 0..self.inputs.len() {
            while self.ready == 0 && self.wants(link) && ports.inputs[link].is_some() {
                self.arrive(memory, ports, link)?;
            }
        }
        Ok(self.ready > 0)
    }

    fn wants(&self, link: usize) -> bool {
        let input = &self.inputs[link];
        input.kept.is_none() && (input.waiting.is_some() || input.enabled.is_some())
    }

    /// Some bytes come on a link where they are wanted.
    fn arrive<R: Read, W: Write>(
        &mut self,
        memory: &mut [u8],
        ports: &mut Ports<R, W>,
        link: usize,
    ) -> Result<(), Fault> {
        if let Some(message) = &mut self.inputs[link].waiting {
            let count = ports.read(link, bytes_mut(memory, message.address, message.left)?)?;
            message.address = message.address.wrapping_add(count as u32);
            message.left -= count;
            if message.left == 0 {
                let workspace = message.workspace;
                self.inputs[link].waiting = None;
                self.push(memory, workspace)?;
            }
            return Ok(());
        }
        let mut byte = [0];
        if ports.read(link, &mut byte)? == 1 {
            self.inputs[link].kept = Some(byte[0]);
            if let Some(workspace) = self.inputs[link].enabled {
                self.wake(memory, workspace)?;
            }
        }
        Ok(())
    }

    /// `enbc` with a true guard.
    #[inline(always)]
    pub fn enable(&mut self, memory: &mut [u8], workspace: u32, channel: u32) -> Result<(), Fault> {
        let is_ready = match way(channel) {
            Some(Way::In(link)) => {
                self.inputs[link].enabled = Some(workspace);
                self.inputs[link].kept.is_some()
            }
            Some(Way::Out(_)) => return Err(Fault::OutsideMemory),
            None => {
                let is_empty = load(memory, channel)? == EMPTY;
                if is_empty {
                    store(memory, channel, workspace.cast_signed())?;
                }
                !is_empty
            }
        };
        if is_ready {
            enable_skip(memory, workspace)?;
        }
        Ok(())
    }

    /// `disc` with a true guard: whether something came.
    #[inline(always)]
    pub fn disable(
        &mut self,
        memory: &mut [u8],
        workspace: u32,
        channel: u32,
    ) -> Result<bool, Fault> {
        match way(channel) {
            Some(Way::In(link)) => {
                self.inputs[link].enabled = None;
                Ok(self.inputs[link].kept.is_some())
            }
            Some(Way::Out(_)) => Err(Fault::OutsideMemory),
            None => {
                let is_mine = load(memory, channel)? == workspace.cast_signed();
                if is_mine {
                    store(memory, channel, EMPTY)?;
                }
                Ok(!is_mine)
            }
        }
    }
}

/// A process waits on a channel.
#[inline(always)]
fn wait(
    memory: &mut [u8],
    (workspace, at): (u32, u32),
    channel: u32,
    message: u32,
) -> Result<(), Fault> {
    store_from(memory, workspace, SAVED, at.cast_signed())?;
    store_from(memory, workspace, MESSAGE, message.cast_signed())?;
    store_from(memory, workspace, STATE, channel.cast_signed())?;
    store(memory, channel, workspace.cast_signed())
}

/// `alt`.
#[inline(always)]
pub fn begin(memory: &mut [u8], workspace: u32) -> Result<(), Fault> {
    store_from(memory, workspace, STATE, ENABLING)
}

/// `enbs` with a true guard.
#[inline(always)]
pub fn enable_skip(memory: &mut [u8], workspace: u32) -> Result<(), Fault> {
    store_from(memory, workspace, STATE, READY)
}

/// `altwt`: whether the process goes on.
#[inline(always)]
pub fn wait_for_any(memory: &mut [u8], workspace: u32, at: u32) -> Result<bool, Fault> {
    store_from(memory, workspace, 0, -1)?;
    if load_from(memory, workspace, STATE)? == READY {
        return Ok(true);
    }
    store_from(memory, workspace, STATE, WAITING)?;
    store_from(memory, workspace, SAVED, at.cast_signed())?;
    Ok(false)
}

/// A guard is ready: whether its branch is the one that is selected.
#[inline(always)]
pub fn select(memory: &mut [u8], workspace: u32, distance: i32) -> Result<bool, Fault> {
    if load_from(memory, workspace, STATE)? == SELECTED {
        return Ok(false);
    }
    store_from(memory, workspace, STATE, SELECTED)?;
    store_from(memory, workspace, 0, distance)?;
    Ok(true)
}

/// `altend`: the distance of the branch.
#[inline(always)]
pub fn selected(memory: &[u8], workspace: u32) -> Result<i32, Fault> {
    if load_from(memory, workspace, STATE)? != SELECTED {
        return Err(Fault::Alternation);
    }
    load_from(memory, workspace, 0)
}
