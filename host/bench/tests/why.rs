//! Why an operation is open: the promised number of deliveries, and every sentence printed.

#[path = "why/columns.rs"]
mod columns;
#[path = "why/everything.rs"]
mod everything;
#[path = "why/idle.rs"]
mod idle;
#[path = "why/promise.rs"]
mod promise;
#[path = "why/sentences.rs"]
mod sentences;
#[path = "why/verdicts.rs"]
mod verdicts;
#[path = "why/wander.rs"]
mod wander;
