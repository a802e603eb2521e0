//! Texts from words in any order, mostly those that make chains and openers; the same in every run.

const WORDS: [&str; 30] = [
    "1", "2 ms", "a", "a::b", "1.5", "\"s\"", "+", "*", "-", "/", "..", "delta", "not", "(", ")", "[", "]", "[b =>", "; ]", ",", ";",
    ";\nA =>", "in modes (m)", "applies to x.y[1]", "classifier (p::q (r => in data s))", "reference (x)", "0x1F", "-- note\n", "ä",
    "\"€ 😀\u{301}\"\r\n",
];

pub fn texts(count: usize) -> Vec<String> {
    let mut state = 7_u64;
    let mut any = move |below: usize| {
        state = state.wrapping_mul(6_364_136_223_846_793_005).wrapping_add(1_442_695_040_888_963_407);
        (state >> 33) as usize % below
    };
    let mut text = || (0..any(60)).fold("properties A =>".to_string(), |text, _| text + " " + WORDS[any(WORDS.len())]);
    (0..count).map(|_| text()).collect()
}
