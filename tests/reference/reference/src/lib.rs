//! slots.rs, unchanged, over stand-ins for what it leans on.

pub mod frame {
    #[derive(Debug, Clone, Copy)]
    pub struct Local {
        pub size: u32,
        pub align: u32,
    }
}

include!(concat!(env!("OUT_DIR"), "/module.rs"));
