//! Two machines side by side, a device, and two pipes, in one loop: what stepping.c does.
//!
//! usage: stepping FIRST SECOND FD FD
//!
//! Link 0 of the first module is joined to link 0 of the second: what goes out on the one comes in on the other. On link
//! 3 of the first is a device that prints each byte. Its links 1 and 2 read from the two file descriptors: where nothing
//! else is to be done, it waits for those of them from which the module wants a byte, and takes the byte that comes
//! first. It ends where no process is running and nothing can come any more.

use std::fs::File;
use std::io::{Read, Write};
use std::os::fd::{AsRawFd, FromRawFd};
use std::process::ExitCode;

/// The library, in Rust's own words.
mod tpm {
    use std::ffi::c_void;
    use std::fmt;
    use std::ptr::null_mut;

    const ACCEPTED: u8 = 0;
    const NO_MODULE: u8 = 1;
    const NOT_CERTIFIED: u8 = 2;
    const ARRIVE: u8 = 1;
    const ACKNOWLEDGE: u8 = 2;
    const EMITTED: u8 = 2;

    /// A `struct tpm_machine`.
    #[repr(C)]
    struct RawMachine {
        at: *mut c_void,
        is_loaded: u8,
    }

    /// A `struct tpm_event`.
    #[repr(C)]
    #[derive(Default)]
    struct Event {
        kind: u8,
        link: u8,
        byte: u8,
        slice: u8,
        pick: u64,
    }

    /// A `struct tpm_effect`.
    #[repr(C)]
    #[derive(Default)]
    struct Effect {
        kind: u8,
        link: u8,
    }

    /// A `struct tpm_progress`.
    #[repr(C)]
    #[derive(Default)]
    struct Progress {
        executed: u64,
        kind: u8,
        link: u8,
    }

    /// A `struct tpm_state`.
    #[repr(C)]
    #[derive(Default)]
    struct State {
        executed: u64,
        message: usize,
        is_running: u8,
        is_finished: u8,
        wants: [u8; 4],
    }

    unsafe extern "C" {
        fn tpm_load(
            bytes: *const u8,
            length: usize,
            machine: *mut RawMachine,
            number: *mut u8,
            offset: *mut usize,
        ) -> u8;

        fn tpm_free(machine: *mut RawMachine);

        fn tpm_step(machine: *mut RawMachine, event: *const Event, effect: *mut Effect) -> u8;

        fn tpm_run(machine: *mut RawMachine, limit: u64, progress: *mut Progress) -> u8;

        fn tpm_look(machine: *mut RawMachine, state: *mut State) -> u8;

        fn tpm_message(machine: *mut RawMachine, out: *mut u8, capacity: usize) -> u8;
    }

    /// Why a module is not loaded.
    pub enum Refused {
        NoModule { number: u8, offset: usize },
        NotCertified { number: u8, offset: usize },
        OutOfMemory,
    }

    impl fmt::Display for Refused {
        fn fmt(&self, f: &mut fmt::Formatter) -> fmt::Result {
            match self {
                Refused::NoModule { number, offset } => write!(f, "refused C{number} at {offset}"),
                Refused::NotCertified { number, offset } => write!(f, "refused V{number} at {offset}"),
                Refused::OutOfMemory => write!(f, "out of memory"),
            }
        }
    }

    /// How far a machine went by itself: how many bytes it executed, and a message with its link, if one went out.
    pub struct Run {
        pub executed: u64,
        pub sent: Option<(usize, Vec<u8>)>,
    }

    /// A machine that is loaded. Its memory is freed with it, and it stays on its thread, since it has a pointer.
    pub struct Machine(RawMachine);

    impl Machine {
        /// The machine of the certified module whose file these bytes are.
        pub fn load(bytes: &[u8]) -> Result<Machine, Refused> {
            let mut machine = Machine(RawMachine { at: null_mut(), is_loaded: 0 });
            let (mut number, mut offset) = (0, 0);
            // SAFETY: the pointer and the length are those of one slice; the others point to variables of their own. The
            // machine was empty, and only the library writes it.
            let status = unsafe {
                tpm_load(bytes.as_ptr(), bytes.len(), &mut machine.0, &mut number, &mut offset)
            };
            match status {
                ACCEPTED => Ok(machine),
                NO_MODULE => Err(Refused::NoModule { number, offset }),
                NOT_CERTIFIED => Err(Refused::NotCertified { number, offset }),
                _ => Err(Refused::OutOfMemory),
            }
        }

        fn look(&mut self) -> State {
            let mut state = State::default();
            // SAFETY: both point to variables of their own.
            let status = unsafe { tpm_look(&mut self.0, &mut state) };
            assert_eq!(status, ACCEPTED, "a module is loaded");
            state
        }

        fn step(&mut self, event: &Event) {
            let mut effect = Effect::default();
            // SAFETY: each points to a variable of its own.
            let status = unsafe { tpm_step(&mut self.0, event, &mut effect) };
            assert_eq!(status, ACCEPTED, "the event is one");
        }

        /// The bytes of the message that has just gone out.
        fn message(&mut self) -> Vec<u8> {
            let mut bytes = vec![0; self.look().message];
            // SAFETY: the pointer and the length are those of one slice, which is borrowed for this call alone.
            let status = unsafe { tpm_message(&mut self.0, bytes.as_mut_ptr(), bytes.len()) };
            assert_eq!(status, ACCEPTED, "the buffer is long enough");
            bytes
        }

        /// So many bytes by themselves, or more, until a message goes out or no process is running.
        pub fn run(&mut self, limit: u64) -> Run {
            let mut progress = Progress::default();
            // SAFETY: both point to variables of their own.
            let status = unsafe { tpm_run(&mut self.0, limit, &mut progress) };
            assert_eq!(status, ACCEPTED, "a module is loaded");
            let sent = (progress.kind == EMITTED).then(|| (progress.link.into(), self.message()));
            Run { executed: progress.executed, sent }
        }

        /// Whether the module wants a byte from a link.
        pub fn wants(&mut self, link: usize) -> bool {
            self.look().wants[link] == 1
        }

        /// How many bytes were executed.
        pub fn executed(&mut self) -> u64 {
            self.look().executed
        }

        /// The byte comes on a link, from which the module wants one.
        pub fn arrive(&mut self, link: u8, byte: u8) {
            self.step(&Event { kind: ARRIVE, link, byte, ..Event::default() });
        }

        /// The message is taken that went out on a link.
        pub fn acknowledge(&mut self, link: u8) {
            self.step(&Event { kind: ACKNOWLEDGE, link, ..Event::default() });
        }
    }

    impl Drop for Machine {
        fn drop(&mut self) {
            // SAFETY: the pointer is that of the machine, which nobody else has.
            unsafe { tpm_free(&mut self.0) }
        }
    }
}

/// `poll` of the C library, for bytes that can be read.
mod polling {
    use std::ffi::{c_int, c_short, c_ulong};

    const POLLIN: c_short = 1;

    #[repr(C)]
    struct PollFd {
        fd: c_int,
        events: c_short,
        revents: c_short,
    }

    unsafe extern "C" {
        fn poll(fds: *mut PollFd, count: c_ulong, timeout: c_int) -> c_int;
    }

    /// Waits until one of these can be read. Which of them can; none is asked where there is no descriptor.
    pub fn readable<const N: usize>(descriptors: [Option<c_int>; N]) -> [bool; N] {
        let mut asked = descriptors.map(|fd| PollFd { fd: fd.unwrap_or(-1), events: POLLIN, revents: 0 });
        // SAFETY: the pointer and the count are those of one array.
        let answered = unsafe { poll(asked.as_mut_ptr(), N as c_ulong, -1) };
        assert!(answered >= 0, "cannot wait");
        asked.map(|it| it.revents != 0)
    }
}

const TURN: u64 = 10_000;
const JOINED: usize = 0;
const FIRST_PIPE: usize = 1;
const DEVICE: usize = 3;

/// A machine, and what is on its way from each of its links: the bytes that are not taken yet, the next one last.
struct Place {
    machine: tpm::Machine,
    sent: [Vec<u8>; 4],
}

impl Place {
    fn load(path: &str) -> Result<Place, String> {
        let bytes = std::fs::read(path).map_err(|error| error.to_string())?;
        let machine = tpm::Machine::load(&bytes).map_err(|refused| refused.to_string())?;
        Ok(Place { machine, sent: Default::default() })
    }

    /// The machine has its turn. Whether it executed anything.
    fn run(&mut self) -> bool {
        let run = self.machine.run(TURN);
        if let Some((link, bytes)) = run.sent {
            self.sent[link] = bytes.into_iter().rev().collect();
        }
        run.executed > 0
    }

    /// The byte comes on the link, where the module wants one. Whether it does.
    fn give(&mut self, link: usize, byte: u8) -> bool {
        let wants = self.machine.wants(link);
        if wants {
            self.machine.arrive(link as u8, byte);
        }
        wants
    }

    /// The next byte on its way from the link was taken. With the last one its sender goes on.
    fn taken(&mut self, link: usize) {
        self.sent[link].pop();
        if self.sent[link].is_empty() {
            self.machine.acknowledge(link as u8);
        }
    }

    /// What is on its way to the other machine goes there, as far as that wants it. Whether a byte went.
    fn join(&mut self, to: &mut Place) -> bool {
        let Some(&byte) = self.sent[JOINED].last() else { return false };
        let went = to.give(JOINED, byte);
        if went {
            self.taken(JOINED);
        }
        went
    }

    /// The device prints what is on its way to it. Whether a byte was.
    fn show(&mut self) -> bool {
        let Some(&byte) = self.sent[DEVICE].last() else { return false };
        println!("{byte:02x}");
        std::io::stdout().flush().expect("the output is open");
        self.taken(DEVICE);
        true
    }

    /// Waits for a byte from a pipe from which the module wants one, and hands it over. Whether one came.
    fn wait_for_pipes(&mut self, pipes: &mut [Option<File>; 2]) -> bool {
        loop {
            let asked = [0, 1].map(|i| {
                let pipe = pipes[i].as_ref().filter(|_| self.machine.wants(FIRST_PIPE + i));
                pipe.map(AsRawFd::as_raw_fd)
            });
            if asked == [None, None] {
                return false;
            }
            for (i, is_there) in polling::readable(asked).into_iter().enumerate() {
                let mut byte = [0];
                match &mut pipes[i] {
                    Some(pipe) if is_there => match pipe.read(&mut byte) {
                        Ok(1) => return self.give(FIRST_PIPE + i, byte[0]),
                        _ => pipes[i] = None,
                    },
                    _ => (),
                }
            }
        }
    }
}

/// Goes on until nothing can come any more.
fn go_on(first: &mut Place, second: &mut Place, pipes: &mut [Option<File>; 2]) {
    loop {
        let mut goes_on = first.run();
        goes_on |= second.run();
        goes_on |= first.join(second);
        goes_on |= second.join(first);
        goes_on |= first.show();
        if !goes_on && !first.wait_for_pipes(pipes) {
            return;
        }
    }
}

/// The file of a descriptor that the program was started with.
fn pipe(word: &str) -> Result<Option<File>, String> {
    let descriptor = word.parse().map_err(|_| "no descriptor".to_string())?;
    // SAFETY: nothing else in this program reads from the descriptor or closes it.
    Ok(Some(unsafe { File::from_raw_fd(descriptor) }))
}

fn answer(words: &[String]) -> Result<(), String> {
    let [first, second, left, right] = words else {
        return Err("usage: stepping FIRST SECOND FD FD".to_string());
    };
    let (mut first, mut second) = (Place::load(first)?, Place::load(second)?);
    go_on(&mut first, &mut second, &mut [pipe(left)?, pipe(right)?]);
    println!("executed {} and {}", first.machine.executed(), second.machine.executed());
    Ok(())
}

fn main() -> ExitCode {
    let words: Vec<String> = std::env::args().skip(1).collect();
    match answer(&words) {
        Ok(()) => ExitCode::SUCCESS,
        Err(why) => {
            println!("{why}");
            ExitCode::FAILURE
        }
    }
}
