//! Stand-in for the crate `lazy_static`: the one form that the given files use.
//! The value is computed at its first use, as there.

#[macro_export]
macro_rules! lazy_static {
    ($($vis:vis static ref $name:ident : $ty:ty = $value:expr;)*) => {
        $($vis static $name: std::sync::LazyLock<$ty> = std::sync::LazyLock::new(|| $value);)*
    };
}
