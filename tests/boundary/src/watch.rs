//! A watchdog: a process that keeps its caller waiting too long is ended, so that the caller goes on and can tell of it.

use std::process::Child;
use std::sync::{Arc, Mutex, MutexGuard, Weak};
use std::thread;
use std::time::{Duration, Instant};

/// How many times the watchdog looks before the time is over.
const LOOKS: u32 = 100;

pub struct Watched {
    kept: Arc<Mutex<Kept>>,
    patience: Duration,
}

struct Kept {
    child: Child,
    waited_for_since: Option<Instant>,
    late: bool,
}

impl Watched {
    /// Watches a process until it is dropped.
    pub fn new(child: Child, patience: Duration) -> Watched {
        let kept = Arc::new(Mutex::new(Kept {
            child,
            waited_for_since: None,
            late: false,
        }));
        let watched = Arc::downgrade(&kept);
        thread::spawn(move || watch(&watched, patience));
        Watched { kept, patience }
    }

    /// Waits for the process by this call, but not for ever: the process may be ended meanwhile.
    pub fn wait_by<T>(&self, call: impl FnOnce() -> T) -> T {
        lock(&self.kept).waited_for_since = Some(Instant::now());
        let done = call();
        lock(&self.kept).waited_for_since = None;
        done
    }

    /// Ends the process, where it has not ended; how it ended, in words.
    pub fn end(&self) -> String {
        let mut kept = lock(&self.kept);
        let _ = kept.child.kill();
        let status = kept.child.wait();
        if kept.late {
            return format!("no answer in {:?}, so the host was ended", self.patience);
        }
        format!("the host ended in the call: {status:?}")
    }
}

/// It may still be writing an answer that nobody reads, so it is ended, not asked to end.
impl Drop for Watched {
    fn drop(&mut self) {
        self.end();
    }
}

fn watch(watched: &Weak<Mutex<Kept>>, patience: Duration) {
    while let Some(kept) = watched.upgrade() {
        lock(&kept).end_if_late(patience);
        drop(kept);
        thread::sleep(patience / LOOKS);
    }
}

impl Kept {
    fn end_if_late(&mut self, patience: Duration) {
        let since = self.waited_for_since;
        if since.is_some_and(|since| since.elapsed() > patience) {
            self.late = true;
            let _ = self.child.kill();
        }
    }
}

fn lock(kept: &Mutex<Kept>) -> MutexGuard<'_, Kept> {
    kept.lock().expect("no one fails while it is locked")
}
