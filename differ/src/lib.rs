// The differential test's parts: random drawings and cuts, damage, and the comparison of library, program and twin.
#![forbid(unsafe_code)]

pub mod cases;
pub mod chance;
pub mod damage;
pub mod drawings;
pub mod expected;
pub mod junk;
pub mod networks;
pub mod programs;
pub mod sheets;
pub mod steps;
pub mod tally;

/// A difference between the two sides, in words.
pub type Same = Result<(), String>;

/// Fails with the text where the test does not hold.
#[macro_export]
macro_rules! hold {
    ($test:expr, $($text:tt)*) => {
        if !$test {
            return Err(format!($($text)*));
        }
    };
}

/// Fails where two things are not equal, and names them.
#[macro_export]
macro_rules! same {
    ($what:expr, $library:expr, $twin:expr) => {{
        let (library, twin) = (&$library, &$twin);
        if library != twin {
            return Err(format!("{}: library {:?}, twin {:?}", $what, library, twin));
        }
    }};
}
