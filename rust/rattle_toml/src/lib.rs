//! What disk1541 uses of the kit's toml, over Rust's.
use rattle_std::memory::unanswered;
use rattle_std::{String, alloc::Global};

/// Reading.
pub mod de {
    use std::fmt;

    /// Why a text isn't what was wanted. (never given back: a program says it once, and ends)
    #[derive(Clone, Copy, Debug)]
    pub struct Error(pub(crate) &'static str);

    impl Error {
        /// Want of memory has ended the program.
        pub fn is_memory(&self) -> bool {
            false
        }
    }

    impl fmt::Display for Error {
        fn fmt(&self, f: &mut fmt::Formatter<'_>) -> fmt::Result {
            f.write_str(self.0)
        }
    }

    impl std::error::Error for Error {}
}

/// Writing.
pub mod ser {
    /// Why a value can't be written as TOML.
    #[derive(Debug)]
    pub struct WriteError;
}

pub fn from_str<T: serde::de::DeserializeOwned>(_: Global, text: &str) -> Result<T, de::Error> {
    unanswered(|| real::from_str(text).map_err(|it| de::Error(it.to_string().leak())))
}

pub fn to_string<T: serde::Serialize>(_: Global, value: &T) -> Result<String, ser::WriteError> {
    unanswered(|| real::to_string(value)).map(String).map_err(|_| ser::WriteError)
}
