#[macro_export]
macro_rules! codecs {
    ($($t:ty)*) => {
        $(impl $crate::Codec for $t {})*
    };
}
