//! Paths: the types along them, and their prefixes.

use crate::syntax::*;

impl Job {
    /// The type of a path, if each of its steps can be taken.
    pub fn step_through(&self, path: &Path) -> Option<Ty> {
        let variable = self.variables[path.base].clone();
        path.steps.iter().try_fold(variable, |ty, &field| ty.step(&self.structs, field))
    }

    /// The type of a path of an accepted job.
    pub fn path_type(&self, path: &Path) -> Ty {
        self.step_through(path).expect("refusal 8 leaves no such step")
    }

    /// The prefixes of a path from itself towards its base. They end after the first step, counted
    /// from the end of the path, that leaves a type at which `stops` holds.
    fn prefixes_until(&self, path: &Path, stops: impl Fn(&Ty) -> bool) -> Vec<Path> {
        let mut prefix = path.clone();
        let mut found = vec![prefix.clone()];
        while prefix.steps.pop().is_some() {
            if stops(&self.path_type(&prefix)) {
                break;
            }
            found.push(prefix.clone());
        }
        found
    }

    /// They stop after a Shared deref.
    pub fn supporting_prefixes(&self, path: &Path) -> Vec<Path> {
        self.prefixes_until(path, |ty| matches!(ty, Ty::Ref(BorrowKind::Shared, _, _)))
    }

    /// They stop after any deref.
    pub fn frozen_prefixes(&self, path: &Path) -> Vec<Path> {
        self.prefixes_until(path, |ty| matches!(ty, Ty::Ref(..)))
    }
}

impl Path {
    /// Whether this is `other` or a prefix of it.
    pub fn is_prefix_of(&self, other: &Path) -> bool {
        self.base == other.base && other.steps.starts_with(&self.steps)
    }
}
