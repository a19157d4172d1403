//! Errors that say where they were.
use rignolda_machine::Refused;
use std::error::Error;
use std::fmt;

/// An error, and where it was: a file, an address, or a part of a program.
#[derive(Debug)]
pub struct ErrorAt {
    place: String,
    error: Box<dyn Error + Send + Sync>,
}

/// Says where an error was.
///
/// ```
/// let error = "no such file";
/// assert_eq!(rignoldactl::at("/etc/a")(error).to_string(), "/etc/a: no such file");
/// ```
pub fn at<E: Into<Box<dyn Error + Send + Sync>>>(
    place: impl fmt::Display,
) -> impl FnOnce(E) -> ErrorAt {
    move |error| ErrorAt { place: place.to_string(), error: error.into() }
}

impl fmt::Display for ErrorAt {
    fn fmt(&self, to: &mut fmt::Formatter<'_>) -> fmt::Result {
        write!(to, "{}: {}", self.place, self.error)
    }
}

impl Error for ErrorAt {
    fn source(&self) -> Option<&(dyn Error + 'static)> {
        Some(&*self.error)
    }
}

impl From<ErrorAt> for Refused {
    fn from(error: ErrorAt) -> Refused {
        Refused::Because(error.to_string())
    }
}
