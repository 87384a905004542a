//! The desk program against a plain list of cells.

pub mod asking;
pub mod damage;
pub mod ends;
pub mod families;
pub mod limits;
pub mod line;
pub mod model;
pub mod program;
pub mod session;
pub mod worlds;
