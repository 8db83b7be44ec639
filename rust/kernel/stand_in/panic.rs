pub fn backtrace(_: bool, _: Option<()>) {}
