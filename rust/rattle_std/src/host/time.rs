//! The clock through a runtime.
use real::io::Result;
pub use real::time::Duration;

/// What has a clock.
pub trait Clock {}
impl Clock for crate::HostRuntime {}

/// A moment.
#[derive(Clone, Copy)]
pub struct Instant(real::time::Instant);

impl Instant {
    pub fn now(_: &impl Clock) -> Result<Instant> { Ok(Instant(real::time::Instant::now())) }
    pub fn elapsed(&self, _: &impl Clock) -> Result<Duration> { Ok(self.0.elapsed()) }
}
