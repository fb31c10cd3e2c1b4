//! Many questions asked on all cores, their answers taken in order; and things
//! made one behind the other, each taken while the next is made. Whatever asks the
//! library does so on a stack that is long enough.

use crate::stop::Stop;
use std::hint::black_box;
use std::io;
use std::num::NonZero;
use std::sync::{mpsc, Mutex};
use std::thread::{self, Builder};

/// How many questions a core takes at a time.
const AT_A_TIME: usize = 4;

/// Bytes of a stack. The header says what the library takes, at most 1 MiB for
/// building from a Mainfile set; the rest is for what stands above it.
const STACK: usize = 2 << 20;

/// Memory that a thread takes before it begins. Where the C library does not get
/// it, it ends the process.
const BEGINNING: usize = 1 << 16;

/// A thread to be started. Its stack hangs neither on the limit of the first
/// thread's nor on `RUST_MIN_STACK`.
fn on_a_stack() -> Builder {
    // What was asked for and given back stays with the process.
    drop(black_box(Vec::<u8>::with_capacity(BEGINNING)));
    Builder::new().stack_size(STACK)
}

/// Does the work on such a stack, and answers with nothing where it panics.
pub fn work_on_a_stack<A: Send + 'static>(
    work: impl FnOnce() -> A + Send + 'static,
) -> io::Result<Option<A>> {
    Ok(on_a_stack().spawn(work)?.join().ok())
}

/// Asks each question and hands it with its answer to `take`, in order, until
/// `take` fails. The library's calls share nothing, so they may run at once.
pub fn in_order<Q: Sync, A: Send, E>(
    questions: &[Q],
    ask: impl Fn(&Q) -> A + Sync,
    mut take: impl FnMut(&Q, A) -> Result<(), E>,
) -> Result<(), E> {
    let cores = thread::available_parallelism().map_or(1, NonZero::get);
    for batch in questions.chunks(cores * AT_A_TIME) {
        for (question, answer) in batch.iter().zip(answers(batch, &ask)) {
            take(question, answer)?;
        }
    }
    Ok(())
}

/// The answers to a batch, a thread for each part of it. Where the system gives
/// no more threads, the part is asked here.
fn answers<Q: Sync, A: Send>(batch: &[Q], ask: &(impl Fn(&Q) -> A + Sync)) -> Vec<A> {
    thread::scope(|scope| {
        let asked: Vec<_> = batch
            .chunks(AT_A_TIME)
            .map(|part| {
                let work = move || part.iter().map(ask).collect::<Vec<A>>();
                on_a_stack().spawn_scoped(scope, work).map_err(|_| work())
            })
            .collect();
        asked
            .into_iter()
            .flat_map(|part| match part {
                Ok(thread) => thread.join().expect("a question does not panic"),
                Err(answers) => answers,
            })
            .collect()
    })
}

/// Has `make` hand on one thing after another, and `take` take each on a thread
/// beside it while the next is made; where the system gives no thread, at once. A
/// failure ends both, and that of `take` is the one that is told.
pub fn side_by_side<T: Send>(
    make: impl FnOnce(&mut dyn FnMut(T) -> Result<(), Stop>) -> Result<(), Stop>,
    take: impl FnMut(T) -> Result<(), Stop> + Send,
) -> Result<(), Stop> {
    let take = Mutex::new(take);
    let take = &|thing: T| (take.lock().expect("nothing panics"))(thing);
    thread::scope(|scope| {
        let (sender, things) = mpsc::sync_channel(0);
        let work = move || things.into_iter().try_for_each(take);
        let beside = on_a_stack().spawn_scoped(scope, work);
        let made = match &beside {
            Ok(_) => make(&mut |thing| sender.send(thing).map_err(|_| Stop::Unread)),
            Err(_) => make(&mut |thing| take(thing)),
        };
        drop(sender);
        let taken = beside.map_or(Ok(()), |thread| thread.join().expect("nothing panics"));
        taken.and(made)
    })
}
