//! Macros that answer a `Result`.

/// `format!` as a text, or want of memory.
macro_rules! try_format {
    ($($arguments:tt)*) => {{
        let mut text = $crate::shim::String::new();
        match text.write_fmt(::std::format_args!($($arguments)*)) {
            Ok(()) => Ok(text),
            Err(error) => Err(error),
        }
    }};
}

/// `vec!` as a list, or want of memory.
macro_rules! try_vec {
    ($item:expr; $len:expr) => {
        $crate::shim::Vec::filled($item, $len)
    };
    ($($item:expr),* $(,)?) => {
        $crate::shim::Vec::from_array([$($item),*])
    };
}

/// `print!`, which answers whether it is written.
macro_rules! try_print {
    ($($arguments:tt)*) => {
        ::std::io::Write::write_fmt(&mut $crate::shim::streams::writer(), ::std::format_args!($($arguments)*))
    };
}

/// `println!`, which answers whether it is written.
macro_rules! try_println {
    ($($arguments:tt)*) => {
        $crate::shim::try_print!("{}\n", ::std::format_args!($($arguments)*))
    };
}

/// `eprintln!`, which answers whether it is written.
macro_rules! try_eprintln {
    ($($arguments:tt)*) => {
        ::std::io::Write::write_fmt(&mut ::std::io::stderr(), ::std::format_args!("{}\n", ::std::format_args!($($arguments)*)))
    };
}

/// What a derive of `Clone, Copy, Debug, PartialEq, Eq, PartialOrd, Ord, Hash` would write for an id, if it didn't ask as
/// much of the marker of its sort.
macro_rules! derive_index {
    ($name:ident) => {
        impl<S> Clone for $name<S> {
            fn clone(&self) -> Self {
                *self
            }
        }

        impl<S> Copy for $name<S> {}

        impl<S> ::std::fmt::Debug for $name<S> {
            fn fmt(&self, f: &mut ::std::fmt::Formatter<'_>) -> ::std::fmt::Result {
                f.debug_struct(stringify!($name)).field("index", &self.index).finish_non_exhaustive()
            }
        }

        impl<S> PartialEq for $name<S> {
            fn eq(&self, other: &Self) -> bool {
                self.index == other.index
            }
        }

        impl<S> Eq for $name<S> {}

        impl<S> PartialOrd for $name<S> {
            fn partial_cmp(&self, other: &Self) -> Option<::std::cmp::Ordering> {
                Some(self.cmp(other))
            }
        }

        impl<S> Ord for $name<S> {
            fn cmp(&self, other: &Self) -> ::std::cmp::Ordering {
                self.index.cmp(&other.index)
            }
        }

        impl<S> ::std::hash::Hash for $name<S> {
            fn hash<H: ::std::hash::Hasher>(&self, state: &mut H) {
                self.index.hash(state);
            }
        }
    };
}

pub(crate) use {derive_index, try_eprintln, try_format, try_print, try_println, try_vec};
