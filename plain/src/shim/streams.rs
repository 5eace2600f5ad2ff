//! The streams of a program: standard input and output. In tests of this crate both are texts of the thread, so that a
//! program can be run on what is stored for it.
use crate::shim::String;
use std::io;

/// All of the input, as a text.
pub fn read_to_string() -> io::Result<String> {
    io::read_to_string(reader()).map(String::from)
}

#[cfg(not(test))]
pub use self::standard::{reader, writer};
#[cfg(test)]
pub use self::stored::{reader, run_on, writer};

#[cfg(not(test))]
mod standard {
    use std::io;

    pub fn reader() -> io::StdinLock<'static> {
        io::stdin().lock()
    }

    pub fn writer() -> io::StdoutLock<'static> {
        io::stdout().lock()
    }
}

#[cfg(test)]
mod stored {
    use std::cell::RefCell;
    use std::io::{self, Cursor, Write};

    thread_local! {
        static INPUT: RefCell<Vec<u8>> = const { RefCell::new(Vec::new()) };
        static OUTPUT: RefCell<Vec<u8>> = const { RefCell::new(Vec::new()) };
    }

    /// What a program answers and writes that is run on this input.
    pub fn run_on<T>(input: &[u8], program: impl FnOnce() -> T) -> (T, Vec<u8>) {
        INPUT.set(input.to_vec());
        OUTPUT.take();
        let answer = program();
        (answer, OUTPUT.take())
    }

    pub fn reader() -> Cursor<Vec<u8>> {
        Cursor::new(INPUT.take())
    }

    pub fn writer() -> Writer {
        Writer
    }

    /// Appends to the output of the thread.
    pub struct Writer;

    impl Write for Writer {
        fn write(&mut self, bytes: &[u8]) -> io::Result<usize> {
            OUTPUT.with_borrow_mut(|output| output.write(bytes))
        }

        fn flush(&mut self) -> io::Result<()> {
            Ok(())
        }
    }
}
