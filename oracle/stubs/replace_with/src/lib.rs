//! Stands in for the crate `replace_with`.

struct AbortOnUnwind;

impl Drop for AbortOnUnwind {
    fn drop(&mut self) {
        std::process::abort();
    }
}

/// Replaces `place` by what `new_from_old` makes of it; a panic in there aborts.
pub fn replace_with_or_abort<T>(place: &mut T, new_from_old: impl FnOnce(T) -> T) {
    let guard = AbortOnUnwind;
    // SAFETY: the value is moved out and another moved in; nothing sees the place in between, as a panic aborts.
    unsafe { std::ptr::write(place, new_from_old(std::ptr::read(place))) };
    std::mem::forget(guard);
}
