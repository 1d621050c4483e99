//! Plans that are played side by side.

use std::sync::Mutex;
use std::sync::atomic::{AtomicUsize, Ordering};

/// Each item's answer, in the order of the items. So many at a time; the last ones, which are the largest, first.
pub fn each<T: Send + Sync, A: Send>(items: Vec<T>, jobs: usize, answer: impl Fn(T) -> A + Sync) -> Vec<A>
where
    T: Clone,
{
    let left = AtomicUsize::new(items.len());
    let answers: Mutex<Vec<Option<A>>> = Mutex::new(items.iter().map(|_| None).collect());
    std::thread::scope(|scope| {
        for _ in 0..jobs.max(1) {
            scope.spawn(|| {
                while let Ok(before) =
                    left.fetch_update(Ordering::Relaxed, Ordering::Relaxed, |left| left.checked_sub(1))
                {
                    let answered = answer(items[before - 1].clone());
                    answers.lock().expect("no answer panics")[before - 1] = Some(answered);
                }
            });
        }
    });
    answers
        .into_inner()
        .expect("no answer panics")
        .into_iter()
        .map(|answer| answer.expect("every item was answered"))
        .collect()
}
