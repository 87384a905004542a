//! Compares `bradawlet::meets_moving` of the crate, over libbradawlet.a, with the exact computation.

use outside::comparison::Comparison;
use outside::families::MOVING;
use outside::question::Kind;
use outside::wrapped;
use std::process::ExitCode;

fn main() -> ExitCode {
    let ask = |question: &_| wrapped::meets(Kind::Moving, question);
    Comparison { kind: Kind::Moving, seed: 0x2000, ask }.run(MOVING).report()
}
