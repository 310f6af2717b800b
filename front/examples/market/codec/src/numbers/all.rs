codecs! { u8 u16 u32 u64 }
