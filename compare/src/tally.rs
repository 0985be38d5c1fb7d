//! How often each thing was met that a run must meet.

use std::fmt;

/// Things of one sort, each with its name.
struct Group {
    title: &'static str,
    names: Vec<String>,
    counts: Vec<u64>,
    /// Whether each is told, or only how many there are.
    told: bool,
}

#[derive(Default)]
pub struct Tally {
    inputs: u64,
    groups: Vec<Group>,
}

impl Tally {
    /// Adds a group; it is spoken of by its place among the groups, from 0.
    pub fn with(mut self, title: &'static str, names: Vec<String>, told: bool) -> Self {
        self.groups.push(Group {
            title,
            counts: vec![0; names.len()],
            names,
            told,
        });
        self
    }

    /// One more input.
    pub fn count(&mut self) {
        self.inputs += 1;
    }

    pub fn inputs(&self) -> u64 {
        self.inputs
    }

    /// One more of what stands at a place of a group.
    pub fn mark(&mut self, group: usize, place: usize) {
        self.groups[group].counts[place] += 1;
    }

    /// What was never met.
    pub fn missing(&self) -> Vec<String> {
        let mut missing = Vec::new();
        for Group { names, counts, .. } in &self.groups {
            let never = names.iter().zip(counts).filter(|(_, count)| **count == 0);
            missing.extend(never.map(|(name, _)| name.clone()));
        }
        missing
    }
}

impl fmt::Display for Tally {
    fn fmt(&self, f: &mut fmt::Formatter) -> fmt::Result {
        write!(f, "{} inputs", self.inputs)?;
        for group in &self.groups {
            let (title, all) = (group.title, group.counts.len());
            let least = group.counts.iter().min().unwrap_or(&0);
            write!(f, "\n{title}: {all}, each met {least} times or more")?;
            for (name, count) in group.names.iter().zip(&group.counts) {
                if group.told {
                    write!(f, "\n{count:8}  {name}")?;
                }
            }
        }
        Ok(())
    }
}

#[cfg(test)]
mod tests {
    use super::*;

    #[test]
    fn what_was_never_met_is_told() {
        let names = |names: [&str; 2]| names.map(String::from).to_vec();
        let mut tally = Tally::default()
            .with("answers", names(["accepted", "refused 1"]), true)
            .with("pairs", names(["1 and 2", "1 and 3"]), false);
        tally.count();
        tally.mark(0, 0);
        tally.mark(1, 0);
        tally.mark(1, 1);
        assert_eq!(tally.missing(), ["refused 1"]);
        let told = tally.to_string();
        assert!(told.starts_with("1 inputs\nanswers: 2, each met 0 times or more\n"));
        assert!(told.ends_with("\npairs: 2, each met 1 times or more"));
    }
}
