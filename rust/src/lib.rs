//! The byte layer of the picture transfer protocol, over functions that are proved.
//!
//! Names and fields are those of the crate ptp 0.5.0 where they fit. Nothing is allocated: a reading borrows from the bytes that it reads,
//! and a writer writes into the buffer that it is lent. The feature `alloc` adds what is: `to_vec` of [`PtpArray`] and [`PtpDataType`],
//! `Vec::from` an array, `String::from` a [`PtpString`]. A call either gives its whole answer or a [`Refusal`]; a refused call leaves what
//! was lent as it was.
//!
//! What is proved is the archive that src/archive.rs calls: what it takes and refuses, each number, where each string, array and value
//! lies, each byte written. What stands in Rust takes these parts out of the caller's bytes and reads their integers.
#![no_std]
#![allow(non_snake_case)] // the fields' names are those of ptp 0.5.0
#![deny(missing_docs)]
#![deny(unsafe_code)] // archive.rs alone lifts this

#[cfg(feature = "alloc")]
extern crate alloc;

mod archive;
mod array;
#[cfg(feature = "alloc")]
mod builder;
mod changes;
mod code;
mod codes;
mod dataset;
#[cfg(feature = "alloc")]
mod exchange;
mod links;
mod listing;
mod mending;
mod network;
mod objects;
mod pad;
mod payload;
mod property;
mod reader;
mod record;
mod refusal;
mod session;
mod settings;
mod text;
mod tree;
mod value;
mod writer;

pub use array::{Items, PtpArray, PtpItem};
#[cfg(feature = "alloc")]
pub use builder::{OwnedTable, TableBuilder, Unbuilt};
pub use changes::{Added, ObjectTableMut};
pub use code::{CommandCode, ResponseCode, StandardCommandCode, StandardResponseCode};
pub use codes::{
    StandardAccessCapability, StandardAssociationType, StandardEventCode, StandardFilesystemType, StandardObjectFormat,
    StandardPropertyCode, StandardProtectionStatus, StandardStorageType,
};
pub use dataset::{PtpDeviceInfo, PtpObjectInfo, PtpStorageInfo};
#[cfg(feature = "alloc")]
pub use exchange::{Camera, Fault, Listener, Reply, Transport};
pub use links::{Links, LinksMut};
pub use listing::{list_recording, list_window, write_ending, write_heading, Listed, Tally};
pub use mending::{mend_recording, Dropped, Mended};
pub use network::{from_network, read_packet, to_network, DataDirection, PtpPacket};
pub use objects::Objects;
pub use payload::{object_count, object_handles, storage_ids, storage_info};
pub use property::{newer_value, tidy_property, Newer, PropLayout, PtpFormData, PtpPropInfo, PtpValues, Values};
pub use reader::{item, numbers, unit, units, PtpReader};
pub use record::{
    copy_recording, read_container, read_record, read_recording, records, write_container, write_record, Copied, LeftOut,
    PtpContainer, PtpContainerType, PtpRecord, RecordKind, Recorder, Records,
};
pub use refusal::Refusal;
pub use session::{find_answer, find_response, needed, Answer, Made, PtpResponse, Session};
pub use settings::{entry_bytes, write_entry, Edition, Entries, Kept, Serial, Setting, Settings};
pub use text::{utf8, utf8_len, Chars, PtpString};
pub use tree::{EachPath, EachPlacedPath, ObjectTable, Paths, PlacedPaths};
pub use value::{PtpDataType, PtpValue};
pub use writer::{tidy_device, tidy_object, tidy_storage, tidy_value, write_array, write_str, write_text};

// The example of README.md is run with the others.
#[cfg(doctest)]
#[doc = include_str!("../README.md")]
struct Readme;
