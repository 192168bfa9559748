//! The independent raster program that Oboeridge is compared with.
//!
//! This program shares no code with the product. It is written from the rules alone, to be compared with it: where the two
//! differ, one of them is wrong. So it is slow and plain on purpose. A picture is a dense square of cells, and every question is
//! answered by looking at the cells.
//!
//! Read first `picture::read`, which judges a picture text, and `list::shortest`, which gives a picture's shortest list. For the
//! library's calls, read `product::Product`, which names them, `model::Model`, which answers them, and `cases::compare_cases`,
//! which compares another product with it.

pub mod answer;
pub mod cases;
pub mod compare;
pub mod generator;
pub mod list;
pub mod model;
pub mod patterns;
pub mod picture;
pub mod product;
pub mod random;
pub mod texts;
