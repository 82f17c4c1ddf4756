// packaging/calls wrote this from the header: do not edit it.

#[repr(C)]
pub(crate) struct Progress {
    pub(crate) read: usize,
    pub(crate) written: usize,
    pub(crate) status: u32,
    pub(crate) error_len: u32,
}

#[repr(C)]
pub(crate) struct Validity {
    pub(crate) valid_up_to: usize,
    pub(crate) status: u32,
    pub(crate) error_len: u32,
}

#[repr(C)]
pub(crate) struct Inspection {
    pub(crate) valid_up_to: usize,
    pub(crate) chars: usize,
    pub(crate) repertoire: u32,
    pub(crate) status: u32,
    pub(crate) error_len: u32,
}

#[repr(C)]
pub(crate) struct Bom {
    pub(crate) len: usize,
    pub(crate) byte_order: u32,
    pub(crate) status: u32,
}
