//! Pictures and pages of schedules: nothing disappears, nothing jumps, nothing leaves the page.

#[path = "pictures/arrows.rs"]
mod arrows;
#[path = "pictures/columns.rs"]
mod columns;
#[path = "pictures/command.rs"]
mod command;
#[path = "pictures/marks.rs"]
mod marks;
#[path = "pictures/matter.rs"]
mod matter;
#[path = "common/newer.rs"]
mod newer;
#[path = "pictures/page.rs"]
mod page;
#[path = "pictures/rows.rs"]
mod rows;
#[path = "pictures/shapes.rs"]
mod shapes;
#[path = "pictures/whole.rs"]
mod whole;
