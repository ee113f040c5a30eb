/// How many times more cases the long mode compares.
const LONG: u64 = 20;

/// What the arguments ask for.
pub struct Request {
    /// Each kind's number of cases is multiplied by this.
    pub factor: u64,
    /// Only kinds and named cases of this name, or all.
    name: Option<String>,
    /// Only the case with this seed, or all.
    pub seed: Option<u64>,
}

impl Request {
    /// The arguments, or nothing if they cannot be read.
    pub fn read(arguments: &[String]) -> Option<Request> {
        let long = arguments.first().is_some_and(|first| first == "long");
        let rest = &arguments[usize::from(long)..];
        let seed = match rest.get(1) {
            Some(digits) => Some(read_seed(digits)?),
            None => None,
        };
        (rest.len() <= 2).then(|| Request {
            factor: if long { LONG } else { 1 },
            name: rest.first().cloned(),
            seed,
        })
    }

    /// Whether a kind or named case of this name is asked for.
    pub fn asks_for(&self, name: &str) -> bool {
        self.name.as_deref().is_none_or(|asked| {
            name.strip_prefix(asked)
                .is_some_and(|rest| rest.is_empty() || rest.starts_with('-'))
        })
    }
}

/// A seed as differences print it.
fn read_seed(digits: &str) -> Option<u64> {
    u64::from_str_radix(digits.strip_prefix("0x")?, 16).ok()
}
