//! The SRT receiver of Pursethistle for Rust: a safe type over the static library that is proved in Rattle.
//!
//! A [`Receiver`] takes data packets in any order, asks for those that are lost, and releases messages in order and
//! on time. Its rules are docs/01-scope.md of the repository. A call that breaks one is refused by its number
//! ([`Refusal`]). Then nothing has changed, except that refusals 7 to 10 of a data packet are counted. Every test is
//! the library's; this crate only lends memory and names the answers. It allocates in [`Receiver::new`] and never
//! again. Times are microseconds on one clock, 0 to 2^60 - 1.
//!
//! # Where data is lost without a word
//!
//! Five things to get right. docs/COLLECTING.md of the repository has the reasons and the figures;
//! examples/long_pass.rs there is a loop that does them.
//!
//! 1. **Make a clock call each second**, from before the first packet on, and also while no packet comes:
//!    `receiver.synchronize_clock(now, (now - start) as u32)`. Only this call moves the receiver's idea of the time
//!    on. Without it nothing is recovered from 2^31 microseconds (35 min 47 s) after the start on, or after the last
//!    adjustment: each packet is then due as soon as it comes, and each gap is given up at once, with packets that
//!    had arrived.
//! 2. **Never hand the sender's stamps to that call.** By the rules' sign an adjustment doubles a drift, with the
//!    first sample and again with each thousand: 100 microseconds are 102,400 after 9,001 samples. Then packets are
//!    refused, or gaps are given up too early. The stamp of 1. has no drift. So the receiver does not follow a sender
//!    whose clock drifts; if that matters, correct the stamps of its packets before you hand them in.
//! 3. **[`start`](Settings::start) is the reading that belongs to the sender's stamp 0**: when the first packet
//!    comes, `now` minus its stamp.
//! 4. **A late drop ([`MessageAnswer::Late`]) discards packets that had arrived.** If the first packet of a message is
//!    lost, the rest of it is discarded even long before it is due. [`Receiver::rescued`] gives them back, until the
//!    next packet is taken.
//! 5. **Without [`late_drop`](Settings::late_drop) a packet that never comes stops the stream for good.** Once the
//!    window is full, what comes is refused 7 or 8, and neither a drop request nor a clear helps.
//!
//! And a recorded trace has 32 slots at most: a pass that was collected with more cannot be replayed.
//!
//! # Building
//!
//! The library has to be built first: `tools/build library` at the repository's root, or name an archive in PURSETHISTLE_LIB.
//! The crate and its examples, examples/collector.rs and long_pass.rs of the repository, need Rust 1.80 or later.
//!
//! # The worked example of the rules
//!
//! Sequence numbers have 31 bits, so 0 comes after 2147483647. Here that one is lost and comes late, and 0 comes twice:
//!
//! ```
//! use pursethistle::*;
//!
//! let mut receiver = Receiver::new(Settings { start: 0, latency: 0, late_drop: true, first: 2147483646, capacity: 4 })?;
//! let whole = |number, stamp| DataPacket { number, message: 0, location: FIRST | LAST, stamp, payload: b"ten bytes." };
//!
//! let taken = receiver.handle_data_packet(1000, whole(2147483646, 0))?;
//! assert_eq!(taken, DataPacketAction::Received { lrsn: 2147483647, recovered: false });
//! let taken = receiver.handle_data_packet(2000, whole(0, 1000))?;
//! assert_eq!(taken, DataPacketAction::ReceivedWithLoss { first: 2147483647, last: 2147483647 });
//! let taken = receiver.handle_data_packet(3000, whole(2147483647, 500))?;
//! assert_eq!(taken, DataPacketAction::Received { lrsn: 1, recovered: true });
//! let refused = receiver.handle_data_packet(3100, whole(0, 1000)).unwrap_err();
//! assert_eq!(refused.number(), 10);
//!
//! let mut output = [0; 1456];
//! let popped = receiver.pop_next_message(4000, &mut output)?;
//! assert_eq!(popped, MessageAnswer::Message { time: 0, payload: b"ten bytes.", packets: 1 });
//! assert_eq!(receiver.room()?, 2);
//! # Ok::<(), Refusal>(())
//! ```
#![deny(missing_docs)]
#![deny(unsafe_op_in_unsafe_fn)]

mod answers;
mod counters;
pub mod raw;
mod receiver;
mod refusal;

pub use answers::{ClockAnswer, DataPacketAction, FullAck, MessageAnswer, Rtt};
pub use counters::Counters;
pub use receiver::{DataPacket, Receiver, Settings};
pub use refusal::Refusal;

/// Bit of a packet's location: the last of its message.
pub const LAST: u32 = 1;
/// Bit of a packet's location: the first of its message. A message of one packet has `FIRST | LAST`.
pub const FIRST: u32 = 2;
/// Bit of a word of a loss report: it is the first number of a run, and the next word is the last.
pub const LOSS_RUN: u32 = 0x8000_0000;
