//! Who may do what (document 02, (n)): the roles, and the calls of each. Calls are named as in call.rs; seal, check and the
//! dose counts take no role.

pub const PHARMACIST: u32 = 1;
pub const CARER: u32 = 2;
pub const SERVICE: u32 = 3;

/// "Role 2, carer: dated show, standing, survey."
pub const OF_CARER: &[&str] = &["show-dated", "standing", "survey"];

/// "Role 3, service: fresh, save, load, closing, standing, survey." Closing with a summary is closing.
pub const OF_SERVICE: &[&str] = &[
    "fresh",
    "save",
    "load",
    "close",
    "summary-close",
    "standing",
    "survey",
];

/// Roles that are unknown, at the edges of those that are not.
pub const UNKNOWN: &[u32] = &[0, 4, u32::MAX];

/// Whether a role may make a call. "Role 1, pharmacist: every call"; an unknown role may make none.
pub fn may(role: u32, call: &str) -> bool {
    match role {
        PHARMACIST => true,
        CARER => OF_CARER.contains(&call),
        SERVICE => OF_SERVICE.contains(&call),
        _ => false,
    }
}

/// The roles that may make a call.
pub fn admitted(call: &str) -> Vec<u32> {
    let roles = [PHARMACIST, CARER, SERVICE].into_iter();
    roles.filter(|role| may(*role, call)).collect()
}

/// Roles that may not: those of the three, and unknown ones.
pub fn turned_away(call: &str) -> Vec<u32> {
    let known = [CARER, SERVICE].into_iter();
    let known = known.filter(|role| !may(*role, call));
    known.chain(UNKNOWN.iter().copied()).collect()
}

#[cfg(test)]
mod tests {
    use super::*;
    use crate::call::orders;
    use crate::rows::Row;

    /// The table, call by call: who may make it, of the roles 1, 2 and 3.
    #[test]
    fn the_table_of_roles() {
        for (call, roles) in [
            ("fresh", &[1, 3][..]),
            ("search", &[1]),
            ("survey", &[1, 2, 3]),
            ("reserve", &[1]),
            ("reserve-placed", &[1]),
            ("offer", &[1]),
            ("accept", &[1]),
            ("put", &[1]),
            ("grow", &[1]),
            ("complete", &[1]),
            ("pause", &[1]),
            ("resume", &[1]),
            ("release", &[1]),
            ("close", &[1, 3]),
            ("show", &[1]),
            ("show-dated", &[1, 2]),
            ("standing", &[1, 2, 3]),
            ("summary-reserve", &[1]),
            ("summary-placed", &[1]),
            ("summary-accept", &[1]),
            ("summary-grow", &[1]),
            ("summary-release", &[1]),
            ("summary-close", &[1, 3]),
            ("summary-build", &[1]),
            ("summary-check", &[1]),
            ("save", &[1, 3]),
            ("load", &[1, 3]),
        ] {
            assert!(orders().any(|(name, _)| name == call), "{call}");
            assert_eq!(admitted(call), roles, "{call}");
            for role in (0..300).chain([1 << 16, 1 << 31, u32::MAX - 1, u32::MAX]) {
                assert_eq!(may(role, call), roles.contains(&role), "{role} {call}");
                let others = turned_away(call);
                assert!(!others.contains(&role) || !may(role, call));
            }
        }
        assert_eq!(orders().count(), 27);
    }

    /// "21 [..]; before all other numbers."
    #[test]
    fn row_21_comes_first() {
        for (call, rows) in orders() {
            assert_eq!(rows[0], Row::Role, "{call}");
            assert!(rows[1..].iter().all(|row| row.number() != 21), "{call}");
        }
    }
}
