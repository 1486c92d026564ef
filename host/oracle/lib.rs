//! The oracle: live.rs, select.rs, params.rs and algorithms.rs, unchanged, from the folder that
//! FIPS_SRC names. `host/run` links them, this file and its neighbours into one tree under target/.
//!
//! Stand-ins (document 01): the clock of time.rs, every `node_fault!` false, EWMA_LONG_ALPHA 1/32.
//! The other constants and types stand in files that are not compiled; `host/run` holds each to
//! its source's text.
#![allow(dead_code, unexpected_cfgs)]

extern crate alloc;

/// No fault is ever switched on.
macro_rules! node_fault {
    ($name:ident) => {
        false
    };
}

pub mod time;

/// What `Pin` names. Document 01 leaves `Pin` out: nothing compared reads it.
pub mod transport {
    #[derive(Clone, Copy, Debug, PartialEq, Eq)]
    pub struct TransportId(pub u32);

    #[derive(Clone, Debug, PartialEq, Eq)]
    pub struct TransportAddr(pub u32);
}

pub mod proto {
    pub mod bloom {
        pub const V1_SIZE_CLASS: usize = 1;
    }

    pub mod fmp {
        pub mod wire {
            const ESTABLISHED_HEADER_SIZE: usize = 16;
            const INNER_HEADER_SIZE: usize = 5;
            const TAG_SIZE: usize = 16;
            pub const FRAME_OVERHEAD: usize =
                ESTABLISHED_HEADER_SIZE + (INNER_HEADER_SIZE - 1) + TAG_SIZE;
        }
    }

    pub mod mmp {
        mod algorithms;

        pub use algorithms::quality_index;

        pub const EWMA_LONG_ALPHA: f64 = 1.0 / 32.0;
        pub const EWMA_SHORT_ALPHA: f64 = 1.0 / 4.0;
        // In no file of the folder, and read by nothing that is compared.
        pub const MIN_OWD_WINDOW_SIZE: usize = 2;
        pub const MAX_OWD_WINDOW_SIZE: usize = 1024;
    }

    pub mod path {
        pub mod choice;
        pub mod eventfile;
        pub mod live;
        pub mod params;
        pub mod record;
        pub mod script;
        pub mod select;
        pub mod standing;

        use set::Medium;

        pub mod wire {
            pub const PATH_PROBE_MIN_SIZE: usize = 27;
        }

        pub mod set {
            pub const PATH_MAX_PER_PEER: usize = 8;

            #[derive(Clone, Copy, Debug, PartialEq, Eq)]
            pub enum Medium {
                Ble,
                Wired,
                Wireless,
                Unknown,
            }
        }

        #[derive(Clone, Copy, Debug, PartialEq, Eq)]
        pub enum Role {
            Never,
            Backup,
            Normal,
            Preferred,
        }

        /// For `Pin` alone.
        #[derive(Clone, Debug, PartialEq, Eq)]
        pub struct PathRef {
            pub transport: crate::transport::TransportId,
            pub addr: crate::transport::TransportAddr,
        }

        /// select.rs says that this frame has 1,071 bytes: it fixes V1_SIZE_CLASS.
        const _: () = assert!(select::FILTER_FRAME == 1071);
    }
}
