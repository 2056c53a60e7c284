//! Stand-in: the name of the instruction that takes an address.

#[derive(Debug, Clone, Copy, Default)]
pub struct FrameInsts {
    pub prefix: &'static str,
    pub lea: &'static str,
}
