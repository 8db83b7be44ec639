pub fn getrandom(_: &mut [u8], _: bool) -> bool {
    false
}

pub fn quick_random() -> u32 {
    0
}
