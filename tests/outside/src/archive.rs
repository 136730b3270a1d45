//! The exported functions, by the header's signatures. One that the archive lacks is `None`: the run script passes
//! `--cfg have_NAME` for each that is there.

#[repr(C)]
#[derive(Clone, Copy)]
pub struct Two {
    pub refusal: u64,
    pub value: u64,
}

#[repr(C)]
#[derive(Clone, Copy)]
pub struct Three {
    pub refusal: u64,
    pub value: u64,
    pub third: u64,
}

#[repr(C)]
#[derive(Clone, Copy)]
pub struct Four {
    pub refusal: u64,
    pub value: u64,
    pub third: u64,
    pub fourth: u64,
}

impl From<Two> for Vec<u64> {
    fn from(r: Two) -> Vec<u64> {
        vec![r.refusal, r.value]
    }
}

impl From<Three> for Vec<u64> {
    fn from(r: Three) -> Vec<u64> {
        vec![r.refusal, r.value, r.third]
    }
}

impl From<Four> for Vec<u64> {
    fn from(r: Four) -> Vec<u64> {
        vec![r.refusal, r.value, r.third, r.fourth]
    }
}

macro_rules! exported {
    ($($have:tt $slot:ident = $name:ident($($argument:ty),*) -> $result:ty;)*) => { $(
        #[cfg($have)]
        pub const $slot: Option<unsafe extern "C" fn($($argument),*) -> $result> = {
            extern "C" { fn $name($(_: $argument),*) -> $result; }
            Some($name)
        };
        #[cfg(not($have))]
        pub const $slot: Option<unsafe extern "C" fn($($argument),*) -> $result> = None;
    )* };
}

pub type Join = unsafe extern "C" fn(*const u8, usize, *const u32, usize, *mut u32, usize) -> Four;
pub type Convert = unsafe extern "C" fn(*const u32, usize, *mut u32, usize) -> Three;

exported! {
    have_check CHECK = naburain_check(*const u8, usize) -> Two;
    have_lookup LOOKUP = naburain_lookup(*const u8, usize, *const u8, usize) -> Three;
    have_word WORD = naburain_word(*const u8, usize, u32) -> Four;
    have_probe PROBE = naburain_probe(*const u8, usize, u32, u32, u32) -> Four;
    have_union_scan_line UNION_SCAN_LINE = naburain_union_scan_line(*const u8, usize, *const u32, usize, *mut u32, usize) -> Four;
    have_union_active_interval UNION_ACTIVE_INTERVAL = naburain_union_active_interval(*const u8, usize, *const u32, usize, *mut u32, usize) -> Four;
    have_intersection_twin_heap INTERSECTION_TWIN_HEAP = naburain_intersection_twin_heap(*const u8, usize, *const u32, usize, *mut u32, usize) -> Four;
    have_intersection_probing INTERSECTION_PROBING = naburain_intersection_probing(*const u8, usize, *const u32, usize, *mut u32, usize) -> Four;
    have_ask ASK = naburain_ask(*const u8, usize, u32, *const u8, usize, *mut u32, usize) -> Four;
    have_to_intervals TO_INTERVALS = naburain_to_intervals(*const u32, usize, *mut u32, usize) -> Three;
    have_to_numbers TO_NUMBERS = naburain_to_numbers(*const u32, usize, *mut u32, usize) -> Three;
    have_build BUILD = naburain_build(u32, *const u8, usize, *const u32, usize, *const u32, usize, *mut u8, usize) -> Three;
}
