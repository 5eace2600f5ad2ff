//! The arguments of a program.

/// Why an argument isn't handed out.
#[derive(Clone, Copy, Debug, PartialEq, Eq)]
pub enum FillError {
    /// There are fewer arguments.
    NotPresent,
    /// It doesn't fit into the buffer.
    TooLong,
}

/// Copies the argument of this index into a buffer, and answers its length.
pub fn arg(index: usize, buffer: &mut [u8]) -> Result<usize, FillError> {
    let argument = std::env::args_os().nth(index).ok_or(FillError::NotPresent)?;
    let bytes = argument.as_encoded_bytes();
    buffer.get_mut(..bytes.len()).ok_or(FillError::TooLong)?.copy_from_slice(bytes);
    Ok(bytes.len())
}
