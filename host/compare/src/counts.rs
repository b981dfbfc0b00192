//! How often each thing was drawn.

/// The things to be drawn, each with the fewest times and the times so far.
pub struct Counts(Vec<(String, u64, u64)>);

impl Counts {
    /// Each thing with the fewest times in 10,000 cases.
    pub fn new(cases: u64, things: impl IntoIterator<Item = (impl Into<String>, u64)>) -> Self {
        Self(things.into_iter().map(|(name, fewest)| (name.into(), fewest * cases / 10_000, 0)).collect())
    }

    /// Counts one of the things.
    pub fn add(&mut self, name: &str) {
        let thing = self.0.iter_mut().find(|thing| thing.0 == name);
        thing.unwrap_or_else(|| panic!("{name} is not among what is counted")).2 += 1;
    }

    /// Counts one of the things where it came up.
    pub fn add_if(&mut self, came: bool, name: &str) {
        if came {
            self.add(name);
        }
    }

    /// The counts as text; it is an error where something hardly came up.
    pub fn told(&self) -> Result<String, String> {
        let told: Vec<String> = self.0.iter().map(|(name, _, times)| format!("{name}: {times}")).collect();
        let told = told.join(", ");
        match self.0.iter().find(|(_, fewest, times)| times < fewest) {
            Some((name, fewest, _)) => Err(format!("fewer than {fewest} of {name}: {told}")),
            None => Ok(told),
        }
    }
}
