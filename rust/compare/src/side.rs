//! The two sides of the comparison: both have the calls of docs/HOST.md on a session's bytes.

/// The calls over the caller's bytes, with their result words.
pub trait Side: Sync {
    /// Bytes that a session record needs.
    fn session_size(&self) -> usize;
    /// Writes a fresh record.
    fn open(&self, session: &mut [u8]) -> u32;
    /// Starts a fresh session.
    fn start(&self, session: &mut [u8], terminal: &[u8], command: &mut [u8]) -> u32;
    /// Takes a card's answer.
    fn answer(&self, session: &mut [u8], card: &[u8], command: &mut [u8]) -> u32;
    /// Ends a running session because the link failed.
    fn link_failed(&self, session: &mut [u8], command: &mut [u8]) -> u32;
    /// Ends a running session because it is stopped.
    fn stop(&self, session: &mut [u8], command: &mut [u8]) -> u32;
    /// The count of commands handed out.
    fn count(&self, session: &[u8]) -> u32;
    /// Why the session made its choice.
    fn explain(&self, session: &[u8]) -> u32;
}

macro_rules! side {
    ($name:ident, $calls:path) => {
        impl Side for $name {
            fn session_size(&self) -> usize {
                use $calls as calls;
                calls::session_size()
            }
            fn open(&self, session: &mut [u8]) -> u32 {
                use $calls as calls;
                calls::open(session)
            }
            fn start(&self, session: &mut [u8], terminal: &[u8], command: &mut [u8]) -> u32 {
                use $calls as calls;
                calls::start(session, terminal, command)
            }
            fn answer(&self, session: &mut [u8], card: &[u8], command: &mut [u8]) -> u32 {
                use $calls as calls;
                calls::answer(session, card, command)
            }
            fn link_failed(&self, session: &mut [u8], command: &mut [u8]) -> u32 {
                use $calls as calls;
                calls::link_failed(session, command)
            }
            fn stop(&self, session: &mut [u8], command: &mut [u8]) -> u32 {
                use $calls as calls;
                calls::stop(session, command)
            }
            fn count(&self, session: &[u8]) -> u32 {
                use $calls as calls;
                calls::count(session)
            }
            fn explain(&self, session: &[u8]) -> u32 {
                use $calls as calls;
                calls::explain(session)
            }
        }
    };
}

/// The model.
pub struct Model;

side!(Model, model);

/// The static library.
#[cfg(feature = "library")]
pub struct Library;

#[cfg(feature = "library")]
side!(Library, tripodmoon::calls);

/// The side that is compared with the model.
#[cfg(feature = "library")]
pub static OTHER: Library = Library;

/// Without the library the model is compared with itself.
#[cfg(not(feature = "library"))]
pub static OTHER: Model = Model;
