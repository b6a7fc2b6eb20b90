//! Classes of cases, each with the test that tells it, and how often it was reached.

use std::fmt::Write;

struct Class<Case> {
    name: String,
    holds: Box<dyn Fn(&Case) -> bool>,
    count: u64,
}

pub struct Tally<Case>(Vec<Class<Case>>);

impl<Case> Tally<Case> {
    pub fn new() -> Tally<Case> {
        Tally(vec![])
    }

    pub fn add(&mut self, name: String, holds: impl Fn(&Case) -> bool + 'static) {
        self.0.push(Class { name, holds: Box::new(holds), count: 0 });
    }

    pub fn count(&mut self, case: &Case) {
        for class in &mut self.0 {
            class.count += u64::from((class.holds)(case));
        }
    }

    /// What was never reached.
    pub fn missing(&self) -> Vec<&str> {
        self.0.iter().filter(|class| class.count == 0).map(|class| class.name.as_str()).collect()
    }

    pub fn report(&self) -> String {
        let mut text = String::new();
        for class in &self.0 {
            let _ = writeln!(text, "{}: {}", class.name, class.count);
        }
        let least = self.0.iter().min_by_key(|class| class.count).expect("there are classes");
        let _ = writeln!(text, "least reached of {} classes: {}, {} times", self.0.len(), least.name, least.count);
        let missing = self.missing();
        if !missing.is_empty() {
            let _ = writeln!(text, "not reached: {}", missing.join(", "));
        }
        text
    }
}
