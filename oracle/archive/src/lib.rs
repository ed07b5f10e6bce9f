//! The archive behind include/pudvirez.h. Without PUDVIREZ_ARCHIVE this is empty.

#[cfg(archive)]
mod calls;
#[cfg(archive)]
mod convert;
#[cfg(archive)]
#[path = "../../../bindings/rust/src/ffi.rs"]
pub mod ffi;
#[cfg(archive)]
mod side;

#[cfg(archive)]
pub use calls::{Handing, Named};
#[cfg(archive)]
pub use convert::{config, flag, own, plain_told, plain_waited, setting, shared, state};
#[cfg(archive)]
pub use side::{ROOM, Side};
