//! Compares the crate's tables, over libbradawlet.a, with the same scan and judge as the calls themselves.

use outside::tables::families;
use outside::wrapped;
use std::process::ExitCode;

fn main() -> ExitCode {
    families::run(&wrapped::LIBRARY).report()
}
