//! Stands in for tokio: a clock of milliseconds that the judge sets, and a watched value that nobody changes.

pub mod time {
    use std::cell::Cell;
    use std::ops::Add;
    use std::time::Duration;

    thread_local! {
        static CLOCK: Cell<u64> = const { Cell::new(0) };
        static TICK: Cell<u64> = const { Cell::new(0) };
    }

    /// Sets what `Instant::now` answers from now on. It may run back.
    pub fn set_clock(milliseconds: u64) {
        CLOCK.set(milliseconds);
    }

    /// From now on the clock moves on by so much after each look at it. 0 unless told.
    pub fn set_tick(milliseconds: u64) {
        TICK.set(milliseconds);
    }

    /// Milliseconds, wide enough that start + grace is the sum in whole numbers, as document 01 has it.
    /// The real Instant panics where the sum leaves its range.
    #[derive(Clone, Copy, Debug, PartialEq, Eq, PartialOrd, Ord)]
    pub struct Instant(u128);

    impl Instant {
        pub fn now() -> Instant {
            let now = CLOCK.get();
            CLOCK.set(now.saturating_add(TICK.get()));
            Instant::at(now)
        }

        pub fn at(milliseconds: u64) -> Instant {
            Instant(milliseconds.into())
        }

        pub fn milliseconds(self) -> u64 {
            self.0.try_into().expect("a moment that was once the clock's")
        }
    }

    impl Add<Duration> for Instant {
        type Output = Instant;
        fn add(self, span: Duration) -> Instant {
            Instant(self.0 + span.as_millis())
        }
    }
}

pub mod sync {
    pub mod watch {
        pub struct Receiver<T>(T);

        impl<T> Receiver<T> {
            pub fn holding(value: T) -> Receiver<T> {
                Receiver(value)
            }

            pub fn borrow(&self) -> &T {
                &self.0
            }
        }
    }
}
