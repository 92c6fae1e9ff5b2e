//! A runtime on the asking thread that says when no task can go on.

use crate::CHANNEL_CAPACITY;
use narwhal::recorder::{self, Seen};
use narwhal::store::Store;
use std::cell::Cell;
use std::future::Future;
use std::panic;
use std::pin::Pin;
use std::sync::atomic::{AtomicBool, Ordering};
use std::sync::{Arc, Mutex, Once};
use std::task::{Context, Poll, Waker};
use tokio::runtime::{Builder, Runtime};
use tokio::sync::mpsc::{channel, Receiver, Sender};

pub struct Settling {
    runtime: Runtime,
    idle: Idle,
}

impl Settling {
    pub fn new() -> Self {
        let idle = Idle::default();
        let parked = idle.clone();
        let runtime = Builder::new_current_thread()
            .on_thread_park(move || parked.reach())
            .build()
            .expect("a runtime needs no resource");
        Settling { runtime, idle }
    }

    /// Runs a future together with all tasks.
    pub fn run<F: Future>(&self, future: F) -> F::Output {
        driving(|| self.runtime.block_on(future))
    }

    /// Runs all tasks until none can go on.
    pub fn settle(&self) {
        self.idle.forget();
        self.run(self.idle.clone())
    }

    /// Stores a value, and waits until it stands there.
    pub fn write(&self, store: &mut Store, key: Vec<u8>, value: Vec<u8>) {
        self.run(store.write(key, value));
        self.settle()
    }
}

/// A channel whose messages are recorded. Tokio wakes readers in the order of the sends.
pub fn recording<T: Send + 'static>(seen: impl Fn(T) -> Seen + Send + 'static) -> Sender<T> {
    let (tx, mut rx): (_, Receiver<T>) = channel(CHANNEL_CAPACITY);
    tokio::spawn(async move {
        while let Some(message) = rx.recv().await {
            recorder::push(seen(message))
        }
    });
    tx
}

/// Ready once the thread parks. Tokio parks exactly when its run queues are empty.
#[derive(Clone, Default)]
struct Idle(Arc<(AtomicBool, Mutex<Option<Waker>>)>);

impl Idle {
    fn forget(&self) {
        self.0 .0.store(false, Ordering::SeqCst);
    }

    fn reach(&self) {
        self.0 .0.store(true, Ordering::SeqCst);
        let waker = self.0 .1.lock().expect("one thread").take();
        if let Some(waker) = waker {
            waker.wake()
        }
    }
}

impl Future for Idle {
    type Output = ();

    fn poll(self: Pin<&mut Self>, context: &mut Context<'_>) -> Poll<()> {
        if self.0 .0.load(Ordering::SeqCst) {
            return Poll::Ready(());
        }
        *self.0 .1.lock().expect("one thread") = Some(context.waker().clone());
        Poll::Pending
    }
}

thread_local! {
    static DRIVING: Cell<bool> = const { Cell::new(false) };
}

/// Records the panics of tasks, which tokio would swallow; any other panic is told as ever.
pub fn driving<T>(work: impl FnOnce() -> T) -> T {
    static HOOK: Once = Once::new();
    HOOK.call_once(|| {
        let others = panic::take_hook();
        panic::set_hook(Box::new(move |info| {
            if DRIVING.with(Cell::get) {
                recorder::push(Seen::Panic(info.to_string().replace('\n', " ")))
            } else {
                others(info)
            }
        }))
    });
    DRIVING.with(|flag| flag.set(true));
    let result = work();
    DRIVING.with(|flag| flag.set(false));
    result
}
