//! Random inputs: sound ones, nearly sound ones and any bytes at all.

mod buffers;
mod calls;
mod crossed;
mod crowded;
mod encode;
mod guards;
mod learn;
mod long;
mod parts;
mod recordings;
mod rejections;
mod rng;
mod ruled;
mod spoil;
mod spoil_tables;
mod tables;
mod unreached_states;
mod witnesses;

pub use buffers::{dirty, length_near};
pub use calls::calls;
pub use crossed::{busy_air, cross};
pub use crowded::crowded;
pub use encode::{encode_recording, encode_table, encode_witness};
pub use guards::{waiting_guard, Names};
pub use learn::{learn, learn_under};
pub use long::{late_time, long_handover, narrow_table};
pub use parts::writings;
pub use recordings::{any_rows, overheard, spoil_rows};
pub use rejections::{rejection, rejections};
pub use rng::Rng;
pub use ruled::{out_of_range, ruled, ruled_input};
pub use spoil::{any_bytes, spoil_bytes, spoil_witness_bytes};
pub use spoil_tables::{spoil_devices, spoil_layout, spoil_table};
pub use tables::{any_table, sound_table, Shape};
pub use unreached_states::unreached_states;
pub use witnesses::{guessed, spoil_witness};
