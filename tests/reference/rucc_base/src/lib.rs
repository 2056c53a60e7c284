//! Stand-in: names and hash tables, as far as slots.rs uses them.

/// Joins the two parts of an opcode's name. Opcodes are numbers here, and 1 is `lea`.
#[derive(Default)]
pub struct Interner;

impl Interner {
    pub fn join(&mut self, _prefix: &str, _name: &str) -> u32 {
        1
    }
}

pub mod hash {
    use std::collections::{HashMap, HashSet};
    use std::hash::{BuildHasherDefault, Hasher};

    /// A fast hash of small keys.
    #[derive(Default, Clone, Copy)]
    pub struct Fast(u64);

    impl Hasher for Fast {
        fn finish(&self) -> u64 {
            self.0
        }
        fn write(&mut self, bytes: &[u8]) {
            for &b in bytes {
                self.write_u64(u64::from(b));
            }
        }
        fn write_u32(&mut self, x: u32) {
            self.write_u64(u64::from(x));
        }
        fn write_u64(&mut self, x: u64) {
            self.0 = (self.0.rotate_left(5) ^ x).wrapping_mul(0x517c_c1b7_2722_0a95);
        }
        fn write_usize(&mut self, x: usize) {
            self.write_u64(x as u64);
        }
    }

    pub type Map<K, V> = HashMap<K, V, BuildHasherDefault<Fast>>;
    pub type Set<K> = HashSet<K, BuildHasherDefault<Fast>>;
}
