//! Tables of words: what is sound, what a query must answer, what a report or a drop must leave, and how
//! the library is asked.

pub mod afresh;
pub mod builder;
pub mod changes;
pub mod chart;
pub mod damage;
pub mod families;
pub mod judge;
pub mod layout;
pub mod library;
pub mod lines;
pub mod model;
pub mod opened;
pub mod queries;
pub mod reading;
pub mod scan;
pub mod sheet;
pub mod track;
pub mod worlds;
pub mod writing;
