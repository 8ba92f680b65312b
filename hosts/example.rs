//! Verifies the module in a file, replays events on it, and prints what became of it.
//!
//! usage: example FILE [EVENT..]
//!
//! An EVENT is `s0,PICK` or `s1,PICK` for a step, `aLINK,BYTE` for an arrival with its byte in hexadecimal, and `kLINK`
//! for an acknowledgement; `7*s0,0` is the event seven times.

use std::fmt;
use std::process::ExitCode;

/// The library, in Rust's own words.
mod tpm {
    use std::fmt;

    const ACCEPTED: u8 = 0;
    const NO_MODULE: u8 = 1;
    const NOT_CERTIFIED: u8 = 2;
    const NO_EVENT: u8 = 4;
    const TOO_SMALL: u8 = 5;

    /// A `struct tpm_event`.
    #[repr(C)]
    #[derive(Clone, Copy, Default)]
    pub struct Event {
        kind: u8,
        link: u8,
        byte: u8,
        slice: u8,
        pick: u64,
    }

    impl Event {
        pub fn step(slice: bool, pick: u64) -> Event {
            Event { kind: 0, slice: slice.into(), pick, ..Event::default() }
        }

        pub fn arrive(link: u8, byte: u8) -> Event {
            Event { kind: 1, link, byte, ..Event::default() }
        }

        pub fn acknowledge(link: u8) -> Event {
            Event { kind: 2, link, ..Event::default() }
        }
    }

    /// A `struct tpm_report`.
    #[repr(C)]
    #[derive(Clone, Copy, Default)]
    struct Report {
        executed: u64,
        lengths: [usize; 4],
        finished: u8,
    }

    unsafe extern "C" {
        fn tpm_verify(
            bytes: *const u8,
            length: usize,
            budget: *mut u64,
            number: *mut u8,
            offset: *mut usize,
        ) -> u8;

        fn tpm_replay(
            bytes: *const u8,
            length: usize,
            events: *const Event,
            count: usize,
            out: *mut u8,
            capacity: usize,
            report: *mut Report,
            number: *mut u8,
            offset: *mut usize,
        ) -> u8;
    }

    /// Why there is no answer.
    pub enum Refused {
        NoModule { number: u8, offset: usize },
        NotCertified { number: u8, offset: usize },
        NoEvent { index: usize },
        OutOfMemory,
    }

    impl Refused {
        fn of(status: u8, number: u8, offset: usize) -> Refused {
            match status {
                NO_MODULE => Refused::NoModule { number, offset },
                NOT_CERTIFIED => Refused::NotCertified { number, offset },
                NO_EVENT => Refused::NoEvent { index: offset },
                _ => Refused::OutOfMemory,
            }
        }
    }

    impl fmt::Display for Refused {
        fn fmt(&self, f: &mut fmt::Formatter) -> fmt::Result {
            match self {
                Refused::NoModule { number, offset } => write!(f, "refused C{number} at {offset}"),
                Refused::NotCertified { number, offset } => write!(f, "refused V{number} at {offset}"),
                Refused::NoEvent { index } => write!(f, "event {index} is none"),
                Refused::OutOfMemory => write!(f, "out of memory"),
            }
        }
    }

    /// What became of a run, and what was sent on each link.
    pub struct Replayed {
        pub executed: u64,
        pub finished: bool,
        pub sent: [Vec<u8>; 4],
    }

    /// The budget of the certified module whose file these bytes are.
    pub fn verify(bytes: &[u8]) -> Result<u64, Refused> {
        let (mut budget, mut number, mut offset) = (0, 0, 0);
        // SAFETY: the pointer and the length are those of one slice; the others point to variables of their own.
        let status =
            unsafe { tpm_verify(bytes.as_ptr(), bytes.len(), &mut budget, &mut number, &mut offset) };
        match status {
            ACCEPTED => Ok(budget),
            _ => Err(Refused::of(status, number, offset)),
        }
    }

    /// One call of `tpm_replay`, with this buffer: its status is `ACCEPTED` or `TOO_SMALL`.
    fn replay_into(bytes: &[u8], events: &[Event], out: &mut [u8]) -> Result<(u8, Report), Refused> {
        let (mut report, mut number, mut offset) = (Report::default(), 0, 0);
        // SAFETY: each pointer before a length is that of a slice of this length, `out` is borrowed for this call
        // alone, the others point to variables of their own, and `Event` and `Report` are laid out as the header says.
        let status = unsafe {
            tpm_replay(
                bytes.as_ptr(),
                bytes.len(),
                events.as_ptr(),
                events.len(),
                out.as_mut_ptr(),
                out.len(),
                &mut report,
                &mut number,
                &mut offset,
            )
        };
        match status {
            ACCEPTED | TOO_SMALL => Ok((status, report)),
            _ => Err(Refused::of(status, number, offset)),
        }
    }

    /// The run over these events of the certified module whose file these bytes are.
    pub fn replay(bytes: &[u8], events: &[Event]) -> Result<Replayed, Refused> {
        let mut out = vec![0; 2];
        let (mut status, mut report) = replay_into(bytes, events, &mut out)?;
        if status == TOO_SMALL {
            out = vec![0; report.lengths.iter().sum()];
            (status, report) = replay_into(bytes, events, &mut out)?;
        }
        assert_eq!(status, ACCEPTED, "the buffer is long enough");
        let mut rest = &out[..];
        let sent = report.lengths.map(|length| {
            let (first, others) = rest.split_at(length);
            rest = others;
            first.to_vec()
        });
        Ok(Replayed { executed: report.executed, finished: report.finished == 1, sent })
    }
}

impl fmt::Display for tpm::Replayed {
    fn fmt(&self, f: &mut fmt::Formatter) -> fmt::Result {
        let end = if self.finished { "finished" } else { "not finished" };
        write!(f, "executed {}, {end}", self.executed)?;
        for (link, bytes) in self.sent.iter().enumerate() {
            write!(f, "\nlink {link}:")?;
            for byte in bytes {
                write!(f, " {byte:02x}")?;
            }
        }
        Ok(())
    }
}

/// The event of a word. Whether it is an event the library says.
fn event(word: &str) -> Option<tpm::Event> {
    let (kind, rest) = word.split_at_checked(1)?;
    let (first, second) = rest.split_once(',').unwrap_or((rest, ""));
    match kind {
        "s" => Some(tpm::Event::step(first == "1", second.parse().ok()?)),
        "a" => Some(tpm::Event::arrive(first.parse().ok()?, u8::from_str_radix(second, 16).ok()?)),
        "k" => Some(tpm::Event::acknowledge(first.parse().ok()?)),
        _ => None,
    }
}

/// The events of a word, which may say how many times one comes.
fn events(word: &str) -> Option<Vec<tpm::Event>> {
    let (times, word) = word.split_once('*').unwrap_or(("1", word));
    Some(vec![event(word)?; times.parse().ok()?])
}

/// Verifies the module and replays the events.
fn answer(bytes: &[u8], events: &[tpm::Event]) -> Result<(), tpm::Refused> {
    println!("accepted, budget {}", tpm::verify(bytes)?);
    println!("{}", tpm::replay(bytes, events)?);
    Ok(())
}

fn main() -> ExitCode {
    let words: Vec<String> = std::env::args().skip(1).collect();
    let Some((file, words)) = words.split_first() else {
        eprintln!("usage: example FILE [EVENT..]");
        return ExitCode::from(2);
    };
    let Ok(bytes) = std::fs::read(file) else {
        eprintln!("cannot read the file");
        return ExitCode::from(2);
    };
    let Some(events) = words.iter().map(|word| events(word)).collect::<Option<Vec<_>>>() else {
        eprintln!("not an event");
        return ExitCode::from(2);
    };
    match answer(&bytes, &events.concat()) {
        Ok(()) => ExitCode::SUCCESS,
        Err(refused) => {
            println!("{refused}");
            ExitCode::FAILURE
        }
    }
}
