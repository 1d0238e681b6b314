//! Splicebell, a proved storage pool, called from Rust.
//!
//! One image holds one file, spread over P targets (drives) with N data, K parity and K spare units a group.
//! Every call takes any numbers and any lengths, and answers a value or a [`Refusal`]. The library tests
//! everything itself; nothing is tested on this side. So a refused read, look, listing, hex line, text, move or
//! replayed line leaves its output all zeros here too, and a refused call changes nothing else that was lent.
//!
//! ```
//! use splicebell::{Layout, Pool};
//!
//! let layout = Layout { n: 2, k: 1, p: 5, u: 8, t: 1, cookie: 7, edition: 1 };
//! let mut image = vec![0; layout.measure()?.image as usize];
//! let mut pool = Pool::new(layout, &mut image);
//! pool.write(3, b"a photograph")?;
//! pool.fail(2)?;
//! let mut seen = [0; 12];
//! pool.read(3, &mut seen)?;
//! assert_eq!(&seen, b"a photograph");
//! # Ok::<(), splicebell::Refusal>(())
//! ```
#![deny(missing_docs, unsafe_code)]

#[allow(unsafe_code)]
mod calls;
mod catalogue;
mod interface;
mod layout;
mod pool;
#[doc(hidden)]
pub mod raw;
mod refusal;
mod settings;

pub use catalogue::{Catalogue, Entry, Key, Page};
pub use interface::INTERFACE;
pub use layout::{Cursor, Layout, Mapped, Numbers, Place, Traced, Unit, Walk};
pub use pool::{Panel, Pool, Range, Record};
pub use refusal::{ListRefusal, Refusal, Result, TextRefusal};
pub use settings::{Settings, Version};
