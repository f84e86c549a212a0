//! Many jobs at once, and what they make in the order of the input.

use super::pieces::{Piece, Pieces};
use std::collections::BTreeMap;
use std::io;
use std::sync::atomic::{AtomicBool, AtomicU64, Ordering};
use std::sync::mpsc::{channel, sync_channel, Receiver, RecvTimeoutError, Sender, SyncSender};
use std::sync::{Mutex, MutexGuard, PoisonError};
use std::thread::{self, Scope};
use std::time::Duration;

/// Bytes of input that fill a batch. A job that is free takes fewer where no more have come.
const BATCH: usize = 65_536;
/// Pieces that may wait for a job.
const WAITING: usize = 32;
/// How often somebody who waits is told so.
const TICK: Duration = Duration::from_millis(100);

enum Message {
    Piece(Piece),
    Failed(String),
    End,
}

/// What the jobs take from, one at a time.
struct Input {
    messages: Receiver<Message>,
    /// The number of the next batch.
    next: u64,
    failed: Option<String>,
    ended: bool,
}

/// What all jobs have in common.
struct Shared<T> {
    input: Mutex<Input>,
    tickets: Mutex<Receiver<T>>,
    /// Nothing more is wanted.
    stopped: AtomicBool,
    /// How many batches were taken.
    taken: AtomicU64,
}

type Batch = Result<Vec<Piece>, String>;
type Made<T> = (u64, Result<T, String>);

/// What `take` is handed.
pub enum Event<'a, T> {
    Made(&'a mut T),
    /// The input could not be read any further.
    Failed(String),
    /// Nothing was made for a while; whether a job is at work, and not only waits for input.
    Tick {
        at_work: bool,
    },
}

/// Gives the batches of the input to the jobs, each of which calls a worker of its own, and what they make to `take`, in the
/// order of the input. Memory is bounded: a job takes no batch before what was made long ago is taken. Where `take` fails,
/// that is the end, though the input may go on for ever.
pub fn in_order<T, W, E>(
    pieces: Pieces,
    jobs: usize,
    new_worker: impl Fn() -> W + Sync,
    mut take: impl FnMut(Event<T>) -> Result<(), E>,
) -> Result<(), E>
where
    T: Default + Send,
    W: FnMut(&[Piece], &mut T),
{
    let (sender, messages) = sync_channel(WAITING);
    let stopper = sender.clone();
    // Nobody waits for this thread: a read that has nothing to give cannot be ended.
    if let Err(error) = thread::Builder::new().spawn(move || read_all(pieces, &sender)) {
        return take(Event::Failed(no_thread(&error)));
    }
    let (ticket_sender, tickets) = channel();
    for _ in 0..4 * jobs {
        let _ = ticket_sender.send(T::default());
    }
    let shared = Shared {
        input: Mutex::new(Input { messages, next: 0, failed: None, ended: false }),
        tickets: Mutex::new(tickets),
        stopped: AtomicBool::new(false),
        taken: AtomicU64::new(0),
    };
    let (made_sender, made) = channel();
    thread::scope(|scope| {
        if let Err(error) = begin_jobs(scope, jobs, &shared, &new_worker, made_sender) {
            return take(Event::Failed(no_thread(&error)));
        }
        let ended = take_all(&made, &ticket_sender, &shared.taken, &mut take);
        shared.stopped.store(true, Ordering::Relaxed);
        // A job that waits for input is woken; where there is no room for this, none waits.
        let _ = stopper.try_send(Message::End);
        drop(ticket_sender);
        ended
    })
}

/// Begins as many jobs as there are threads for: with fewer the list takes longer, and with none it cannot be read.
fn begin_jobs<'scope, T: Send, W: FnMut(&[Piece], &mut T)>(
    scope: &'scope Scope<'scope, '_>,
    jobs: usize,
    shared: &'scope Shared<T>,
    new_worker: &'scope (impl Fn() -> W + Sync),
    made: Sender<Made<T>>,
) -> io::Result<()> {
    for job in 0..jobs {
        let made = made.clone();
        match thread::Builder::new().spawn_scoped(scope, move || work(new_worker(), shared, &made)) {
            Err(error) if job == 0 => return Err(error),
            Err(_) => break,
            Ok(_) => {}
        }
    }
    Ok(())
}

fn no_thread(error: &io::Error) -> String {
    format!("no thread can be had: {error}")
}

fn read_all(mut pieces: Pieces, to: &SyncSender<Message>) {
    loop {
        let message = match pieces.next() {
            Ok(Some(piece)) => Message::Piece(piece),
            Ok(None) => Message::End,
            Err(what) => Message::Failed(what),
        };
        let is_last = !matches!(message, Message::Piece(_));
        if to.send(message).is_err() || is_last {
            return;
        }
    }
}

fn work<T, W: FnMut(&[Piece], &mut T)>(mut worker: W, shared: &Shared<T>, made: &Sender<Made<T>>) {
    loop {
        let Ok(mut output) = locked(&shared.tickets).recv() else {
            return;
        };
        let Some((number, batch)) = locked(&shared.input).next_batch(&shared.stopped) else {
            return;
        };
        shared.taken.fetch_add(1, Ordering::Relaxed);
        let output = batch.map(|pieces| {
            worker(&pieces, &mut output);
            output
        });
        if made.send((number, output)).is_err() {
            return;
        }
    }
}

impl Input {
    /// Waits for a piece, and takes what has come besides.
    fn next_batch(&mut self, stopped: &AtomicBool) -> Option<(u64, Batch)> {
        let mut pieces: Vec<Piece> = Vec::new();
        let mut bytes = 0;
        let is_open = |input: &Input| !input.ended && input.failed.is_none() && !stopped.load(Ordering::Relaxed);
        while is_open(self) && bytes < BATCH {
            let message = match pieces.is_empty() {
                true => self.messages.recv().unwrap_or(Message::End),
                false => match self.messages.try_recv() {
                    Ok(message) => message,
                    Err(_) => break,
                },
            };
            match message {
                Message::Piece(piece) => {
                    bytes += piece.bytes.len();
                    pieces.push(piece);
                }
                Message::Failed(what) => self.failed = Some(what),
                Message::End => self.ended = true,
            }
        }
        let batch = match pieces.is_empty() {
            false => Ok(pieces),
            true => Err(self.failed.take()?),
        };
        self.ended |= batch.is_err();
        self.next += 1;
        Some((self.next - 1, batch))
    }
}

/// Takes what is made in the order of the batches' numbers, and hands each ticket back.
fn take_all<T: Default, E>(
    made: &Receiver<Made<T>>,
    tickets: &Sender<T>,
    taken: &AtomicU64,
    take: &mut impl FnMut(Event<T>) -> Result<(), E>,
) -> Result<(), E> {
    let mut early = BTreeMap::new();
    let mut next = 0;
    loop {
        match made.recv_timeout(TICK) {
            Ok((number, output)) => early.insert(number, output),
            Err(RecvTimeoutError::Timeout) => {
                take(Event::Tick { at_work: taken.load(Ordering::Relaxed) > next + early.len() as u64 })?;
                continue;
            }
            Err(RecvTimeoutError::Disconnected) => return Ok(()),
        };
        while let Some(output) = early.remove(&next) {
            next += 1;
            match output {
                Ok(mut output) => {
                    take(Event::Made(&mut output))?;
                    let _ = tickets.send(output);
                }
                Err(what) => take(Event::Failed(what))?,
            }
        }
    }
}

/// A job that panicked ends the program, so what it left locked is never used.
fn locked<T>(mutex: &Mutex<T>) -> MutexGuard<'_, T> {
    mutex.lock().unwrap_or_else(PoisonError::into_inner)
}

#[cfg(test)]
mod tests {
    use super::*;
    use crate::words::{Source, SourceName};
    use std::io::{Cursor, Read};
    use std::time::Instant;

    fn pieces(bytes: impl Read + Send + 'static) -> Pieces {
        let name = SourceName::File("here".to_string());
        Pieces::new(vec![Source { name, bytes: Box::new(bytes), size: None, is_typed: false }])
    }

    /// Keeps the lines of a batch; a job takes the longer the earlier its batch.
    fn worker() -> impl FnMut(&[Piece], &mut Vec<usize>) {
        |pieces, kept| {
            kept.clear();
            kept.extend(pieces.iter().flat_map(|piece| piece.lines().map(|line| line.number)));
            thread::sleep(Duration::from_millis(if kept.first() == Some(&1) { 100 } else { 1 }));
        }
    }

    #[test]
    fn what_is_made_comes_in_order() {
        let lines = "a\n".repeat(500_000);
        for jobs in [1, 2, 5] {
            let mut all = Vec::new();
            let ended: Result<(), ()> = in_order(pieces(Cursor::new(lines.clone())), jobs, worker, |event| {
                if let Event::Made(kept) = event {
                    all.append(kept);
                }
                Ok(())
            });
            assert_eq!(ended, Ok(()));
            assert!(all.iter().copied().eq(1..=500_000));
        }
    }

    /// Lines without end.
    struct Endless;

    impl Read for Endless {
        fn read(&mut self, to: &mut [u8]) -> io::Result<usize> {
            to.fill(b'\n');
            Ok(to.len())
        }
    }

    /// A line, and then nothing for longer than a test may take.
    struct Silent(bool);

    impl Read for Silent {
        fn read(&mut self, to: &mut [u8]) -> io::Result<usize> {
            if self.0 {
                thread::sleep(Duration::from_secs(60));
            }
            self.0 = true;
            to[0] = b'\n';
            Ok(1)
        }
    }

    #[test]
    fn where_the_taker_fails_all_ends() {
        let begun = Instant::now();
        for input in [pieces(Endless), pieces(Silent(false))] {
            let ended = in_order(input, 3, worker, |event| match event {
                Event::Made(_) => Err("enough"),
                _ => Ok(()),
            });
            assert_eq!(ended, Err("enough"));
        }
        assert!(begun.elapsed() < Duration::from_secs(30));
    }

    #[test]
    fn a_tick_tells_work_from_waiting() {
        let slow = || |_: &[Piece], _: &mut Vec<usize>| thread::sleep(20 * TICK);
        let (mut is_made, mut was_at_work) = (false, false);
        let ended = in_order(pieces(Silent(false)), 2, slow, |event| match event {
            Event::Tick { at_work } if is_made => Err(at_work),
            Event::Tick { at_work } => {
                was_at_work |= at_work;
                Ok(())
            }
            _ => {
                is_made = true;
                Ok(())
            }
        });
        assert_eq!((was_at_work, ended), (true, Err(false)));
    }

    /// Gives what it has, and then fails.
    struct Failing(Cursor<Vec<u8>>);

    impl Read for Failing {
        fn read(&mut self, to: &mut [u8]) -> io::Result<usize> {
            match self.0.read(to)? {
                0 => Err(io::Error::other("no more")),
                count => Ok(count),
            }
        }
    }

    #[test]
    fn a_read_that_fails_is_told_after_what_came_before() {
        let mut told = Vec::new();
        let input = pieces(Failing(Cursor::new(b"a\nb\nc".to_vec())));
        let ended = in_order(input, 2, worker, |event| match event {
            Event::Made(kept) => {
                told.append(kept);
                Ok(())
            }
            Event::Failed(what) => Err(what),
            Event::Tick { .. } => Ok(()),
        });
        assert_eq!((ended, told), (Err("here: no more".to_string()), vec![1, 2]));
    }
}
