//! A plain reference program for the engine, written from documents 01 and 02 alone.
//!
//! It follows the document's words and not the engine's code, so that a mistake in one is not a mistake in both. It is slow
//! and simple: what it answers is compared with what the engine answers.

pub mod bank;
pub mod border;
pub mod buffers;
pub mod chance;
pub mod child;
pub mod compiled;
pub mod estimate;
pub mod finishing;
pub mod finishing_examples;
pub mod frame_calls;
pub mod header;
pub mod holes;
pub mod kept;
pub mod low_band;
pub mod mosaic;
pub mod mosaics;
pub mod packet;
pub mod packet_examples;
pub mod planes_call;
pub mod program;
pub mod projection;
pub mod refusals;
pub mod rounds;
pub mod spot;
pub mod spot_examples;
pub mod stores;
pub mod text;
pub mod turns;
pub mod update;
pub mod worked_examples;

/// The programs of examples, and what each must write.
pub const EXAMPLES: [(&str, fn() -> String); 4] = [
    ("worked_examples", worked_examples::text),
    ("packet_examples", packet_examples::text),
    ("finishing_examples", finishing_examples::text),
    ("spot_examples", spot_examples::text),
];
