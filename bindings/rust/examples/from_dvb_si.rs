//! A program that listed where a reference's object stands with dvb-si's `Ior`, and the same with this crate.
//!
//! Before:
//!
//! ```text
//! use broadcast_common::{Parse, Serialize};
//! use dvb_si::carousel::biop::ior::{Ior, TaggedProfile};
//!
//! fn show(octets: &[u8]) -> Result<(), dvb_si::Error> {
//!     let ior = Ior::parse(octets)?;
//!     println!("{:?}", ior.object_kind());
//!     for profile in &ior.profiles {
//!         if let TaggedProfile::Biop(body) = profile {
//!             println!("module {} key {:02x?}", body.object_location.module_id, body.object_location.object_key);
//!             for tap in &body.conn_binder.taps {
//!                 println!("tap {} transaction {:?}", tap.association_tag, tap.transaction_id());
//!             }
//!         }
//!     }
//!     let mut anew = vec![0; ior.serialized_len()];
//!     ior.serialize_into(&mut anew)?;
//!     Ok(())
//! }
//! ```
//!
//! What changes: `parse` is `read_whole`, vectors are iterators, `object_location` and `conn_binder.taps` are calls, and the errors say the same in
//! numbers and words. Nothing is allocated by the crate.

use ior::{Reference, Refusal, TaggedProfile};

fn show(octets: &[u8]) -> Result<(), Refusal> {
    let ior = Reference::read_whole(octets)?;
    println!("{:?}", ior.object_kind());
    for profile in ior.profiles() {
        if let TaggedProfile::Biop(body) = profile {
            println!("module {} key {:02x?}", body.object_location().module_id, body.object_location().object_key);
            for tap in body.taps() {
                println!("tap {} transaction {:?}", tap.association_tag, tap.transaction_id());
            }
        }
    }
    let mut anew = vec![0; ior.length()?];
    ior.write(&mut anew)?;
    Ok(())
}

fn main() {
    let octets = [
        0, 0, 0, 4, b's', b'r', b'g', 0, 0, 0, 0, 1, 0x49, 0x53, 0x4F, 0x06, 0, 0, 0, 22, 0, 2, 0x49, 0x53, 0x4F, 0x50, 9, 0,
        0, 0, 1, 0, 2, 1, 0, 0, 0x49, 0x53, 0x4F, 0x40, 1, 0,
    ];
    show(&octets).expect("a reference");
    println!("{}", show(&octets[..41]).expect_err("cut off"));
}
