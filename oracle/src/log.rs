//! Stands in for the crate `log`: nothing is logged and no argument is worked
//! out, as with that crate when no logger is set. The arguments are compiled.

macro_rules! silent {
    ($($argument:tt)*) => {
        if false {
            let _ = format_args!($($argument)*);
        }
    };
}

pub(crate) use {
    silent as debug, silent as error, silent as info, silent as trace, silent as warn,
};
