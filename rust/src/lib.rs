//! Both ends of CIRI (ARINC 858 Part 3): safe calls on the proved libraries.
//!
//! An [`Endpoint`], the Airborne IPS System's end, works on words and on a memory that the caller owns; there is no heap and nothing is kept between two calls
//! but what stands in those. A refused call changes neither. [`station`] is the radio's end, in words alone. [`control`] and [`data`] read and write single
//! messages of either end.
//!
//! ```
//! use nespovarda::{words_for, Configuration, DatalinkId, Endpoint, FlowSequence, Handed, Handful, Heard, Kind, Next, Offered, Paced, Waits};
//!
//! let mut configuration = [0; Configuration::words_for(2)];
//! let configuration = Configuration::new(&mut configuration, DatalinkId(7), Waits { hello: 5000, limit: 9000 })
//!     .and_then(|configuration| configuration.channel(0, Kind::Plain, FlowSequence(0), 1500))
//!     .and_then(|configuration| configuration.channel(3, Kind::FlowControlled, FlowSequence(4294967230), 1500))
//!     .expect("the words are for two channels");
//! let mut words = vec![0; words_for(configuration.channels())];
//! let mut memory = vec![0; configuration.memory_length()];
//! let mut endpoint = Endpoint::start(&mut words, &mut memory, &configuration).expect("the configuration is within the limits");
//!
//! let mut packet = [0; 40];
//! packet[0] = 0x60;
//! assert_eq!(endpoint.offer(3, &packet, 9000, 1000), Offered::Taken);
//!
//! // Channels 0 and 3 have status 7, channel 3 the window 44.
//! let report = [0x10, 1, 0, 1, 7, 5, 0, 2, 0, 7, 5, 0, 2, 3, 7, 6, 0, 5, 3, 0, 0, 0, 44];
//! assert_eq!(endpoint.radio(1005, &report), Heard::Accepted);
//!
//! let mut out = [0; 100];
//! match endpoint.next(3, 1010, &mut out) {
//!     Next::Sent(message) => assert_eq!(message.len(), 60),
//!     other => panic!("{other:?}"),
//! }
//!
//! // Two at once, end to end in one buffer: there is no channel 9, which 12 says.
//! let handful = Handful { channels: &[0, 9], expiries: &[9000, 9000], lengths: &[40, 40], packets: &[packet, packet].concat(), time: 1020 };
//! match endpoint.offers(&handful, &mut [0; 2]) {
//!     Handed::Offered(answers) => assert_eq!(answers.as_bytes(), [0, 12]),
//!     Handed::Refused(refusal) => panic!("{refusal}"),
//! }
//!
//! // At 5000 a query is due: HelloTime has passed since 0.
//! assert_eq!(endpoint.pace(5000), Paced::QueryDue);
//! ```
#![no_std]
#![deny(unsafe_code)]
#![warn(missing_docs)]

#[cfg(not(target_pointer_width = "64"))]
compile_error!("the library's lengths are numbers of 64 bits");

mod answer;
mod configuration;
pub mod control;
pub mod data;
mod endpoint;
mod handful;
#[allow(unsafe_code)]
mod library;
mod quantity;
mod refusal;
pub mod station;

pub use answer::{Heard, Next, Offered, Paced, Read, Withdrawn, Written};
pub use configuration::{Configuration, Kind, NoRoom, Waits};
pub use endpoint::{words_for, Channel, Endpoint, Flow, Kept, Pacer, Waiting};
pub use handful::{Answers, Handed, Handful};
pub use quantity::{Context, DatalinkId, End, FlowSequence, FlowWindow, LinkInstance, StatusCodes};
pub use refusal::Refusal;
