//! What calls answer in several numbers, as C has it.

#[repr(C)]
#[derive(Debug, Default, PartialEq, Eq)]
pub struct Measured {
    pub segments: u64,
    pub work: u64,
    pub span: u64,
}

#[repr(C)]
pub struct Analysed {
    pub work: u64,
    pub span: u64,
    pub path_length: u64,
}

#[repr(C)]
#[derive(Debug, Default, PartialEq, Eq)]
pub struct Bounded {
    pub least: u64,
    pub greatest: u64,
}

#[repr(C)]
pub struct Accounted {
    pub busy: u64,
    pub delayed: u64,
    pub starved: u64,
    pub outside: u64,
}

#[repr(C)]
pub struct Certified {
    pub segments: u64,
    pub ends_at: u64,
}
