//! src/search.rs and src/config.rs name an error.

#[derive(Debug)]
pub struct Error;

pub type Result<T> = std::result::Result<T, Error>;

impl From<regex::Error> for Error {
    fn from(_error: regex::Error) -> Error {
        Error
    }
}
