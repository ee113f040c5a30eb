use super::Record;
use core::error::Error;
use core::fmt::{self, Debug, Display, Formatter};

/// Why bytes cannot be read as a stored record.
///
/// It displays as a sentence without its end, and so does `Debug`, which the `?` of
/// `main` prints.
///
/// ```
/// let error = lufodimi::Record::from_bytes(&[]).unwrap_err();
/// assert_eq!(error.to_string(), "the bytes are no stored record");
/// ```
#[derive(Clone, Copy, PartialEq, Eq, Hash)]
#[non_exhaustive]
pub enum RecordError {
    /// The bytes do not begin as a stored record does.
    Magic,
    /// The record is stored in this form, which is neither 1 nor 2.
    Form(u16),
    /// The zero field of form 1 or the length is wrong.
    Layout,
}

impl Display for RecordError {
    fn fmt(&self, formatter: &mut Formatter) -> fmt::Result {
        match self {
            RecordError::Magic => formatter.write_str("the bytes are no stored record"),
            RecordError::Form(form) => write!(
                formatter,
                "the record is stored in form {form}, and only forms 1 and {} can be read",
                Record::FORM
            ),
            RecordError::Layout => {
                formatter.write_str("the stored record's zero field or length is wrong")
            }
        }
    }
}

impl Debug for RecordError {
    fn fmt(&self, formatter: &mut Formatter) -> fmt::Result {
        Display::fmt(self, formatter)
    }
}

impl Error for RecordError {}
