//! Lines of a section as people write them, drawn at random from a seed, no two alike: comments, and associations with names, numbers,
//! strings, lists, records, references and what they apply to.
use std::collections::HashSet;
use texts::lexer::one_of;
use texts::random::Rng;

/// None of them is a keyword.
const STEMS: &str =
    "Actual Alarm Base Board Cabinet Cell Clock Control Deadline Dispatch Execution Field Gateway Heap Input Line \
    Modem Output Paint Period Plant Poll Press Queue Rate Report Sensor Text Time Uplink Yard Zone";

const UNITS: &str = "ms us ns sec Bytes KByte MHz kbps";

pub struct Varied {
    rng: Rng,
    given: HashSet<String>,
}

impl Varied {
    pub fn new(seed: u64) -> Varied {
        Varied { rng: Rng::new(seed), given: HashSet::new() }
    }

    /// A line that was not given before.
    pub fn line(&mut self) -> String {
        loop {
            let line = if self.rng.once_in(8) { comment(&mut self.rng) } else { association(&mut self.rng) };
            if self.given.insert(line.clone()) {
                return line;
            }
        }
    }
}

/// Some pieces, so many as there can be at most and at least one, with something between them.
fn several(rng: &mut Rng, most: usize, between: &str, piece: fn(&mut Rng) -> String) -> String {
    let pieces: Vec<String> = (0..1 + rng.below(most)).map(|_| piece(rng)).collect();
    pieces.join(between)
}

fn stem(rng: &mut Rng) -> String {
    let stem = one_of(rng, STEMS);
    if rng.once_in(3) {
        stem.to_lowercase()
    } else {
        stem.to_string()
    }
}

fn name(rng: &mut Rng) -> String {
    let name = several(rng, 3, "_", stem);
    if rng.once_in(4) {
        format!("{name}_{}", rng.below(100))
    } else {
        name
    }
}

/// One or two names, with their mark.
fn scoped(rng: &mut Rng) -> String {
    several(rng, 2, "::", name)
}

fn integer(rng: &mut Rng) -> String {
    let digits = 1 + rng.below(6) as u32;
    rng.below(10_usize.pow(digits)).to_string()
}

fn number(rng: &mut Rng) -> String {
    match rng.below(6) {
        0 => format!("{}.{}", integer(rng), integer(rng)),
        1 => format!("{}.{}e-{}", integer(rng), integer(rng), rng.below(10)),
        2 => format!("16#{:X}_{:04X}#", rng.below(65_536), rng.below(65_536)),
        3 => format!("{}_{:03}", 1 + rng.below(99), rng.below(1_000)),
        _ => integer(rng),
    }
}

fn quantity(rng: &mut Rng) -> String {
    let number = number(rng);
    if rng.once_in(3) {
        number
    } else {
        format!("{number} {}", one_of(rng, UNITS))
    }
}

fn range(rng: &mut Rng) -> String {
    format!("{} .. {}", quantity(rng), quantity(rng))
}

fn string(rng: &mut Rng) -> String {
    format!("\"{}\"", several(rng, 4, " ", stem))
}

/// A part, with a subscript or not.
fn part(rng: &mut Rng) -> String {
    let name = name(rng);
    if rng.once_in(4) {
        format!("{name}[{}]", rng.below(16))
    } else {
        name
    }
}

fn path(rng: &mut Rng) -> String {
    several(rng, 3, ".", part)
}

fn single(rng: &mut Rng) -> String {
    match rng.below(10) {
        0 => string(rng),
        1 => range(rng),
        2 | 3 => format!("reference ({})", path(rng)),
        4 => format!("classifier ({})", scoped(rng)),
        5 => rng.pick(&["true", "false", "not true"]).to_string(),
        6 => format!("-{} + {} * {}", quantity(rng), quantity(rng), scoped(rng)),
        7 => scoped(rng),
        _ => quantity(rng),
    }
}

fn field(rng: &mut Rng) -> String {
    format!("{} => {};", name(rng), single(rng))
}

fn value(rng: &mut Rng) -> String {
    match rng.below(6) {
        0 => format!("({})", several(rng, 4, ", ", single)),
        1 => format!("[ {} ]", several(rng, 3, " ", field)),
        2 => format!("{} in modes ({})", single(rng), several(rng, 3, ", ", name)),
        _ => single(rng),
    }
}

fn association(rng: &mut Rng) -> String {
    let arrow = if rng.once_in(8) { "+=>" } else { "=>" };
    let mut line = format!("  {} {arrow} {}", scoped(rng), value(rng));
    if rng.once_in(2) {
        line += &format!(" applies to {}", several(rng, 2, ", ", path));
    }
    if rng.once_in(10) {
        line += &format!(" in binding ({}.{})", scoped(rng), name(rng));
    }
    line + ";\n"
}

fn comment(rng: &mut Rng) -> String {
    format!("  -- {}\n", several(rng, 8, " ", stem))
}
