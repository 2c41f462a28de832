//! A brute-force search for small inputs, straight from the definitions: whole packet
//! traces, real clocks without upper limit, no situations. It shares the parts of tables,
//! recordings and witnesses with the program, and none of its reading or searching.

mod checker;
mod counts;
mod devices;
mod enumerate;
mod likely;
mod long;
mod monitor;
mod permitted;
mod preference;
mod reach;
mod readiness;
mod trace;
mod works;

pub use checker::expected_check;
pub use counts::counts;
pub use devices::{first_bad_kind, kinds_refused, kinds_told, with_devices, without_devices};
pub use enumerate::{first_dead_instant, possible_before, ruled_out, witnesses};
pub use likely::{is_likely, rule_refused, Sent};
pub use long::{judge_long, Judged};
pub use monitor::{largest_limit, Monitor};
pub use permitted::permitted_by_checker;
pub use preference::preference;
pub use reach::lowest_unreached;
pub use readiness::readiness;
pub use trace::{is_mutation, is_packet_trace, shares_the_air, traces, Trace};
pub use works::{work, works};
