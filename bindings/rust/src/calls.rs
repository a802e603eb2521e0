//! The proved functions, each behind a safe one. A slice goes as a pointer and a length; what the functions owe is proved, for every
//! length and all contents (crates/capi/src/lib.rt).

#[link(name = "capi", kind = "static")]
extern "C" {
    fn gigboda_property_section(
        text: *const u8,
        text_len: usize,
        tokens: *mut u32,
        tokens_len: usize,
        events: *mut u32,
        events_len: usize,
        answer: *mut usize,
        answer_len: usize,
    );
    fn gigboda_property_tree(
        text: *const u8,
        text_len: usize,
        tokens: *mut u32,
        tokens_len: usize,
        events: *mut u32,
        events_len: usize,
        records: *mut u32,
        records_len: usize,
        answer: *mut usize,
        answer_len: usize,
    );
    fn gigboda_association_value(
        text: *const u8,
        text_len: usize,
        tokens: *mut u32,
        tokens_len: usize,
        events: *mut u32,
        events_len: usize,
        number: usize,
        answer: *mut usize,
        answer_len: usize,
    ) -> i64;
    fn gigboda_tokenize(text: *const u8, text_len: usize, tokens: *mut u32, tokens_len: usize, answer: *mut usize, answer_len: usize);
    fn gigboda_clean(taken: usize, tokens: *const u32, tokens_len: usize, events: *const u32, events_len: usize) -> u32;
    fn gigboda_token_text(
        text: *const u8,
        text_len: usize,
        words: *const u32,
        words_len: usize,
        number: usize,
        part: *mut usize,
        part_len: usize,
    );
    fn gigboda_number_parts(
        text: *const u8,
        text_len: usize,
        words: *const u32,
        words_len: usize,
        number: usize,
        parts: *mut usize,
        parts_len: usize,
    );
}

/// Number, place, tokens, taken, events.
pub type Answer = [usize; 5];

pub fn section(text: &[u8], tokens: &mut [u32], events: &mut [u32]) -> Answer {
    let mut answer = [0; 5];
    // Each pointer comes with its own slice's length, and the slices do not overlap.
    unsafe {
        gigboda_property_section(
            text.as_ptr(),
            text.len(),
            tokens.as_mut_ptr(),
            tokens.len(),
            events.as_mut_ptr(),
            events.len(),
            answer.as_mut_ptr(),
            answer.len(),
        )
    }
    answer
}

/// An answer's numbers, and then how many records there are.
pub fn tree(text: &[u8], tokens: &mut [u32], events: &mut [u32], records: &mut [u32]) -> [usize; 6] {
    let mut answer = [0; 6];
    // As above.
    unsafe {
        gigboda_property_tree(
            text.as_ptr(),
            text.len(),
            tokens.as_mut_ptr(),
            tokens.len(),
            events.as_mut_ptr(),
            events.len(),
            records.as_mut_ptr(),
            records.len(),
            answer.as_mut_ptr(),
            answer.len(),
        )
    }
    answer
}

/// The value, and an answer's numbers.
pub fn value(text: &[u8], tokens: &mut [u32], events: &mut [u32], number: usize) -> (i64, Answer) {
    let mut answer = [0; 5];
    // As above.
    let value = unsafe {
        gigboda_association_value(
            text.as_ptr(),
            text.len(),
            tokens.as_mut_ptr(),
            tokens.len(),
            events.as_mut_ptr(),
            events.len(),
            number,
            answer.as_mut_ptr(),
            answer.len(),
        )
    };
    (value, answer)
}

pub fn tokens(text: &[u8], tokens: &mut [u32]) -> Answer {
    let mut answer = [0; 5];
    // As above.
    unsafe { gigboda_tokenize(text.as_ptr(), text.len(), tokens.as_mut_ptr(), tokens.len(), answer.as_mut_ptr(), answer.len()) }
    answer
}

/// Of the words that an answer counts.
pub fn is_clean(taken: usize, tokens: &[u32], events: &[u32]) -> bool {
    // As above.
    let clean = unsafe { gigboda_clean(taken, tokens.as_ptr(), tokens.len(), events.as_ptr(), events.len()) };
    clean == 1
}

/// Start and length.
pub fn token_part(text: &[u8], words: &[u32], number: usize) -> [usize; 2] {
    let mut part = [0; 2];
    // As above.
    unsafe { gigboda_token_text(text.as_ptr(), text.len(), words.as_ptr(), words.len(), number, part.as_mut_ptr(), part.len()) }
    part
}

/// Kind, length, begin and end of the base, begin and end of the inner digits, closed, exponent.
pub fn number_parts(text: &[u8], words: &[u32], number: usize) -> [usize; 8] {
    let mut parts = [0; 8];
    // As above.
    unsafe { gigboda_number_parts(text.as_ptr(), text.len(), words.as_ptr(), words.len(), number, parts.as_mut_ptr(), parts.len()) }
    parts
}
