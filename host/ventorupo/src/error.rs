//! What a setup that is refused hands back, and every error as the standard library
//! knows them.

use core::fmt;

use crate::Refusal;

/// A refused setup: why, and the memory back as it was. `?` takes it on as a
/// [`Refusal`], and under the feature `std`, of memory that is owned, as a boxed error.
///
/// ```
/// use std::error::Error;
/// use ventorupo::{Refusal, Settings, SetupError, Switch};
///
/// fn begin(bytes: usize) -> Result<Switch<Vec<u8>>, Refusal> {
///     Ok(Switch::setup(vec![0; bytes], Settings::ten_bytes())?)
/// }
///
/// fn main() -> Result<(), Box<dyn Error>> {
///     let settings = Settings::ten_bytes();
///     let switch = Switch::setup(vec![0; settings.size()], settings)?;
///     assert_eq!(switch.find(), None);
///
///     assert_eq!(begin(100).unwrap_err(), Refusal::ShortMemory);
///     let refused: SetupError<_> = Switch::setup([7; 100], settings).unwrap_err();
///     assert_eq!(refused.to_string(), "memory shorter than its settings need");
///     assert_eq!(refused.memory, [7; 100]);
///     Ok(())
/// }
/// ```
// Exhaustive: a setup that is refused has nothing else to hand back.
#[derive(Clone, Copy, PartialEq, Eq)]
pub struct SetupError<M> {
    /// 1 or 2.
    pub refusal: Refusal,
    /// The memory that was lent or handed over, not changed.
    pub memory: M,
}

impl<M> fmt::Display for SetupError<M> {
    fn fmt(&self, f: &mut fmt::Formatter<'_>) -> fmt::Result {
        self.refusal.fmt(f)
    }
}

/// Without the memory, which may be long.
impl<M> fmt::Debug for SetupError<M> {
    fn fmt(&self, f: &mut fmt::Formatter<'_>) -> fmt::Result {
        let mut shown = f.debug_struct("SetupError");
        shown
            .field("refusal", &self.refusal)
            .finish_non_exhaustive()
    }
}

impl<M> From<SetupError<M>> for Refusal {
    fn from(error: SetupError<M>) -> Refusal {
        error.refusal
    }
}

#[cfg(feature = "std")]
mod of_std {
    use crate::{Refusal, SetupError, Unfinished, WrongLength};
    use std::error::Error;

    impl Error for Refusal {}
    impl<M> Error for SetupError<M> {}
    impl Error for WrongLength {}
    impl Error for Unfinished {}
}
