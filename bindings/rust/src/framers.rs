//! Cutting a stream into messages.
use crate::error::answered;
use crate::raw::{self, HunterState, PortedState};
use crate::{Error, MESSAGE_BYTES, STORE_BYTES};

fn zeros(size: usize) -> Box<[u8]> {
    vec![0; size].into_boxed_slice()
}

/// The ported framer: it cuts a stream by the lengths that messages announce, as the Rust engine does. One damaged length loses the stream; see [`Hunter`].
///
/// ```
/// # fn main() -> Result<(), tinkoraba::Error> {
/// let mut framer = tinkoraba::Framer::new();
/// framer.push(b"8=FIX.4.4\x019=5\x0135=0\x0110=163\x018=FIX")?;
/// while let Some(message) = framer.take()? {
///     assert_eq!(message.len(), 26);
/// }
/// assert_eq!(framer.held(), 5); // `8=FIX` waits for more
/// # Ok(()) }
/// ```
#[derive(Debug, Clone)]
pub struct Framer {
    state: PortedState,
    store: Box<[u8]>,
    output: Box<[u8]>,
}

impl Default for Framer {
    fn default() -> Self {
        Self { state: PortedState::default(), store: zeros(STORE_BYTES), output: zeros(MESSAGE_BYTES) }
    }
}

impl Framer {
    /// A fresh one, which holds nothing.
    #[must_use]
    pub fn new() -> Self {
        Self::default()
    }

    /// Gives a chunk of the stream. With 25 nothing of it was kept: take what is ready and give it again.
    pub fn push(&mut self, chunk: &[u8]) -> Result<(), Error> {
        let (store, mut out) = (&mut self.store, [0; 4]);
        // SAFETY: each pointer goes with the length of what it comes from, state and `out` have their sizes; so in every call of this file.
        let number = unsafe { raw::gateway_ported_push(&mut self.state, store.as_mut_ptr(), store.len(), chunk.as_ptr(), chunk.len(), &mut out) };
        answered(number, &out, &[])
    }

    /// The next message, if one is whole. 20 where a length over 8,192 bytes was announced: every call but reset then gives 20.
    pub fn take(&mut self) -> Result<Option<&[u8]>, Error> {
        let (store, output, mut out) = (&mut self.store, &mut self.output, [0; 4]);
        // SAFETY: see `push`.
        let number =
            unsafe { raw::gateway_ported_take(&mut self.state, store.as_mut_ptr(), store.len(), output.as_mut_ptr(), output.len(), &mut out) };
        answered(number, &out, &[])?;
        Ok(Some(&self.output[..out[1] as usize]).filter(|message| !message.is_empty()))
    }

    /// Tells the stream's end: a chunk after it is refused with 26.
    pub fn end(&mut self) -> Result<(), Error> {
        let mut out = [0; 4];
        // SAFETY: see `push`.
        let number = unsafe { raw::gateway_ported_end(&mut self.state, self.store.as_ptr(), self.store.len(), &mut out) };
        answered(number, &out, &[])
    }

    /// Makes it fresh and empty, after 20 or for the next connection.
    pub fn reset(&mut self) {
        // SAFETY: see `push`.
        unsafe { raw::gateway_ported_reset(&mut self.state, &mut [0; 4]) };
    }

    /// How many bytes it holds.
    #[must_use]
    pub fn held(&self) -> usize {
        self.state.used
    }
}

/// The hunting framer: it finds the whole frames of a damaged stream and counts what it drops. Give it chunks of at most 8,192 bytes and take
/// until nothing is ready after each; then every frame behind the damage is handed out, and 25 never comes.
///
/// ```
/// # fn main() -> Result<(), tinkoraba::Error> {
/// let mut hunter = tinkoraba::Hunter::new();
/// hunter.push(b"8=FIX.4.4\x019=5\x0135=0\x0110=162\x018=FIX.4.4\x019=5\x0135=0\x0110=163\x01")?;
/// while let Some(frame) = hunter.take() {
///     println!("{}", tinkoraba::Bars(frame));
/// }
/// assert_eq!(hunter.dropped(), 26);
/// # Ok(()) }
/// ```
#[derive(Debug, Clone)]
pub struct Hunter {
    state: HunterState,
    store: Box<[u8]>,
    output: Box<[u8]>,
}

impl Default for Hunter {
    fn default() -> Self {
        Self { state: HunterState::default(), store: zeros(STORE_BYTES), output: zeros(MESSAGE_BYTES) }
    }
}

impl Hunter {
    /// A fresh one, which holds nothing.
    #[must_use]
    pub fn new() -> Self {
        Self::default()
    }

    /// Gives a chunk of the stream. With 25 nothing of it was kept: take what is ready and give it again.
    pub fn push(&mut self, chunk: &[u8]) -> Result<(), Error> {
        let (store, mut out) = (&mut self.store, [0; 4]);
        // SAFETY: see `Framer::push`.
        let number = unsafe { raw::gateway_hunter_push(&mut self.state, store.as_mut_ptr(), store.len(), chunk.as_ptr(), chunk.len(), &mut out) };
        answered(number, &out, &[])
    }

    /// The next frame, if one is ready. Nothing can be refused here: store and output have their sizes.
    pub fn take(&mut self) -> Option<&[u8]> {
        let (store, output, mut out) = (&mut self.store, &mut self.output, [0; 4]);
        // SAFETY: see `Framer::push`.
        unsafe { raw::gateway_hunter_take(&mut self.state, store.as_mut_ptr(), store.len(), output.as_mut_ptr(), output.len(), &mut out) };
        Some(&self.output[..out[1] as usize]).filter(|frame| !frame.is_empty())
    }

    /// Tells the stream's end: what still waits is dropped by the takes that follow, and frames behind it are handed out.
    pub fn end(&mut self) -> Result<(), Error> {
        let mut out = [0; 4];
        // SAFETY: see `Framer::push`.
        let number = unsafe { raw::gateway_hunter_end(&mut self.state, self.store.as_ptr(), self.store.len(), &mut out) };
        answered(number, &out, &[])
    }

    /// Makes it fresh and empty.
    pub fn reset(&mut self) {
        // SAFETY: see `Framer::push`.
        unsafe { raw::gateway_hunter_reset(&mut self.state, &mut [0; 4]) };
    }

    /// How many bytes it holds.
    #[must_use]
    pub fn held(&self) -> usize {
        self.state.used
    }

    /// How many places were dropped since it was fresh, mod 2^64.
    #[must_use]
    pub fn dropped(&self) -> u64 {
        self.state.dropped
    }
}
