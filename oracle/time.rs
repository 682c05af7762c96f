//! The crate asks for the time in its trace lines only.

pub struct Timespec {
    pub sec: i64,
    pub nsec: i32,
}

pub fn get_time() -> Timespec {
    Timespec { sec: 0, nsec: 0 }
}
