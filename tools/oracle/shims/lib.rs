//! The Rust that the port is held to, built unchanged, and the few names of the emulator around it that its three files
//! ask for. `build` lays `sgb.rs`, `sgb/state.rs` and `ppu/screen.rs` beside this file, byte for byte.
//! README.md says of each stand-in why it is there.

// `missingno_core` and `rgb` are crates that we don't have: this one answers to their names.
extern crate self as missingno_core;
extern crate self as rgb;

pub mod sgb;

pub mod ppu {
    pub mod screen;
    pub mod types {
        pub mod palette {
            /// As in `ppu/types/palette.rs`.
            #[derive(Clone, Copy, Debug)]
            pub struct PaletteIndex(pub u8);
        }
    }
}

/// What `Screen` offers to the emulator's front ends.
pub trait ScreenBuffer {
    type Pixel;
    fn draw_pixel(&mut self, x: u8, y: u8, pixel: Self::Pixel);
    fn present(&mut self) -> bool;
    fn blank(&mut self);
    fn to_greyscale_bytes(&self) -> Vec<u8>;
    fn restore(&mut self, bytes: &[u8]);
}

/// A colour of eight bits a part.
#[derive(Clone, Copy, Debug, PartialEq, Eq)]
pub struct RGB8 {
    pub r: u8,
    pub g: u8,
    pub b: u8,
}

impl RGB8 {
    pub const fn new(r: u8, g: u8, b: u8) -> Self {
        Self { r, g, b }
    }
}

pub mod state {
    /// The named fields of a saved state, in the order in which they were set.
    #[derive(Default)]
    pub struct StateRecord(Vec<(&'static str, StateValue)>);

    pub enum StateValue {
        Null,
        Int(u32),
        Bool(bool),
    }

    impl From<u8> for StateValue {
        fn from(v: u8) -> Self {
            StateValue::Int(v.into())
        }
    }

    impl From<bool> for StateValue {
        fn from(v: bool) -> Self {
            StateValue::Bool(v)
        }
    }

    impl StateRecord {
        pub fn set(&mut self, name: &'static str, value: impl Into<StateValue>) -> &mut Self {
            self.0.push((name, value.into()));
            self
        }

        pub fn get(&self, name: &str) -> Option<&StateValue> {
            self.0.iter().find(|(n, _)| *n == name).map(|(_, v)| v)
        }
    }
}

pub mod system {
    #[derive(Clone, Copy, Debug, PartialEq, Eq)]
    pub enum StateError {
        Corrupt,
    }
}
