// packaging/calls wrote this from the header: do not edit it.
calls! {
    conversions {
        to_utf8(utf16: u8) -> utf8: u8 = dethrux_to_utf8;
        to_utf8_lossy(utf16: u8) -> utf8: u8 = dethrux_to_utf8_lossy;
        to_utf8_partial(utf16: u8) -> utf8: u8 = dethrux_to_utf8_partial;
        from_utf8(utf8: u8) -> utf16: u8 = dethrux_from_utf8;
        from_utf8_lossy(utf8: u8) -> utf16: u8 = dethrux_from_utf8_lossy;
        from_utf8_partial(utf8: u8) -> utf16: u8 = dethrux_from_utf8_partial;
        to_utf32(utf16: u8) -> utf32: u32 = dethrux_to_utf32;
        to_utf32_lossy(utf16: u8) -> utf32: u32 = dethrux_to_utf32_lossy;
        from_utf32(utf32: u32) -> utf16: u8 = dethrux_from_utf32;
        from_utf32_lossy(utf32: u32) -> utf16: u8 = dethrux_from_utf32_lossy;
        to_latin1(utf16: u8) -> latin1: u8 = dethrux_to_latin1;
        from_latin1(latin1: u8) -> utf16: u8 = dethrux_from_latin1;
        to_wtf8(utf16: u8) -> wtf8: u8 = dethrux_to_wtf8;
        to_wtf8_partial(utf16: u8) -> wtf8: u8 = dethrux_to_wtf8_partial;
        from_wtf8(wtf8: u8) -> utf16: u8 = dethrux_from_wtf8;
        from_wtf8_partial(wtf8: u8) -> utf16: u8 = dethrux_from_wtf8_partial;
    }
    others {
        version() -> u32 = dethrux_version();
        kernel() -> *const u8 = dethrux_kernel();
        validate(byte_order: ByteOrder, utf16: *const u8, len: usize) -> Validity = dethrux_validate(byte_order as u32, input(utf16, len));
        count_chars(byte_order: ByteOrder, utf16: *const u8, len: usize) -> usize = dethrux_count_chars(byte_order as u32, input(utf16, len));
        is_ascii(byte_order: ByteOrder, utf16: *const u8, len: usize) -> bool = dethrux_is_ascii(byte_order as u32, input(utf16, len));
        to_utf8_lossy_len(byte_order: ByteOrder, utf16: *const u8, len: usize) -> usize = dethrux_to_utf8_lossy_len(byte_order as u32, input(utf16, len));
        from_utf8_len(utf8: *const u8, len: usize) -> usize = dethrux_from_utf8_len(input(utf8, len));
        from_utf8_lossy_len(utf8: *const u8, len: usize) -> usize = dethrux_from_utf8_lossy_len(input(utf8, len));
        to_utf8_replacements(byte_order: ByteOrder, utf16: *const u8, len: usize) -> usize = dethrux_to_utf8_replacements(byte_order as u32, input(utf16, len));
        from_utf8_replacements(utf8: *const u8, len: usize) -> usize = dethrux_from_utf8_replacements(input(utf8, len));
        inspect(byte_order: ByteOrder, utf16: *const u8, len: usize) -> Inspection = dethrux_inspect(byte_order as u32, input(utf16, len));
        to_utf32_lossy_len(byte_order: ByteOrder, utf16: *const u8, len: usize) -> usize = dethrux_to_utf32_lossy_len(byte_order as u32, input(utf16, len));
        validate_utf32(utf32: *const u32, len: usize) -> Validity = dethrux_validate_utf32(input(utf32, len));
        from_utf32_lossy_len(utf32: *const u32, len: usize) -> usize = dethrux_from_utf32_lossy_len(input(utf32, len));
        to_wtf8_len(byte_order: ByteOrder, utf16: *const u8, len: usize) -> usize = dethrux_to_wtf8_len(byte_order as u32, input(utf16, len));
        wtf8_decoder_feed(decoder: *mut State, byte_order: ByteOrder, chunk: *const u8, len: usize, to: *mut u8, capacity: usize) -> Progress = dethrux_wtf8_decoder_feed(stream(decoder), byte_order as u32, input(chunk, len), output(to, capacity));
        wtf8_decoder_finish(decoder: *mut State, byte_order: ByteOrder, to: *mut u8, capacity: usize) -> Progress = dethrux_wtf8_decoder_finish(stream(decoder), byte_order as u32, output(to, capacity));
        from_wtf8_len(wtf8: *const u8, len: usize) -> usize = dethrux_from_wtf8_len(input(wtf8, len));
        wtf8_encoder_feed(encoder: *mut State<6>, byte_order: ByteOrder, chunk: *const u8, len: usize, to: *mut u8, capacity: usize) -> Progress = dethrux_wtf8_encoder_feed(stream(encoder), byte_order as u32, input(chunk, len), output(to, capacity));
        wtf8_encoder_finish(encoder: *mut State<6>, byte_order: ByteOrder, to: *mut u8, capacity: usize) -> Progress = dethrux_wtf8_encoder_finish(stream(encoder), byte_order as u32, output(to, capacity));
        decoder_feed(decoder: *mut State, byte_order: ByteOrder, chunk: *const u8, len: usize, to: *mut u8, capacity: usize) -> Progress = dethrux_decoder_feed(stream(decoder), byte_order as u32, input(chunk, len), output(to, capacity));
        decoder_finish(decoder: *mut State, byte_order: ByteOrder, to: *mut u8, capacity: usize) -> Progress = dethrux_decoder_finish(stream(decoder), byte_order as u32, output(to, capacity));
        encoder_feed(encoder: *mut State, byte_order: ByteOrder, chunk: *const u8, len: usize, to: *mut u8, capacity: usize) -> Progress = dethrux_encoder_feed(stream(encoder), byte_order as u32, input(chunk, len), output(to, capacity));
        encoder_finish(encoder: *mut State, byte_order: ByteOrder, to: *mut u8, capacity: usize) -> Progress = dethrux_encoder_finish(stream(encoder), byte_order as u32, output(to, capacity));
        is_char_boundary(byte_order: ByteOrder, utf16: *const u8, len: usize, at: usize) -> bool = dethrux_is_char_boundary(byte_order as u32, input(utf16, len), at);
        floor_char_boundary(byte_order: ByteOrder, utf16: *const u8, len: usize, at: usize) -> usize = dethrux_floor_char_boundary(byte_order as u32, input(utf16, len), at);
        floor_char_boundary_around(byte_order: ByteOrder, around: *const u8, len: usize, at: u64) -> u64 = dethrux_floor_char_boundary_around(byte_order as u32, input(around, len), at);
        shard_offset(len: u64, count: u64, index: u64) -> u64 = dethrux_shard_offset(len, count, index);
        find(byte_order: ByteOrder, utf16: *const u8, len: usize, pattern: *const u8, pattern_len: usize) -> usize = dethrux_find(byte_order as u32, input(utf16, len), input(pattern, pattern_len));
        rfind(byte_order: ByteOrder, utf16: *const u8, len: usize, pattern: *const u8, pattern_len: usize) -> usize = dethrux_rfind(byte_order as u32, input(utf16, len), input(pattern, pattern_len));
        nul_offset(utf16: *const u8, len: usize) -> usize = dethrux_nul_offset(input(utf16, len));
        swap_byte_order(utf16: *mut u8, len: usize) = dethrux_swap_byte_order(output(utf16, len));
        make_well_formed(byte_order: ByteOrder, utf16: *mut u8, len: usize) -> usize = dethrux_make_well_formed(byte_order as u32, output(utf16, len));
        compare(first_order: ByteOrder, first: *const u8, first_len: usize, second_order: ByteOrder, second: *const u8, second_len: usize) -> i32 = dethrux_compare(first_order as u32, input(first, first_len), second_order as u32, input(second, second_len));
        detect_bom(default_order: ByteOrder, bytes: *const u8, len: usize) -> Bom = dethrux_detect_bom(default_order as u32, input(bytes, len));
    }
}
