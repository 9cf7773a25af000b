// The library: sheets, queues, labels, values, the stepper and the network of the outline, in plain Rust.
#![forbid(unsafe_code)]

pub mod labels;
pub mod network;
pub mod queues;
pub mod sheets;
pub mod stepper;
pub mod values;

pub use labels::{label, label_place, Found, Sheet};
pub use network::{Action, Canonical, Network};
pub use queues::{read_cut, read_cut_into, write_cut, Cut, Queues};
pub use sheets::{read_net, read_net_into, write_net, Net, Record, Refusal, Written};
pub use stepper::Stepper;
