//! Compares `bradawlet::meets` of the crate, over libbradawlet.a, with the exact computation.

use outside::comparison::Comparison;
use outside::families::WINDOWS;
use outside::question::Kind;
use outside::wrapped;
use std::process::ExitCode;

fn main() -> ExitCode {
    let ask = |question: &_| wrapped::meets(Kind::Window, question);
    Comparison { kind: Kind::Window, seed: 0x1000, ask }.run(WINDOWS).report()
}
