//! A rule table to look at: as text, as a graph in DOT, as a picture in SVG.

mod arcs;
mod curve;
mod dot;
mod layout;
mod svg;
mod table;

pub use arcs::Shown;
pub use dot::dot;
pub use svg::svg;
pub use table::text;
