//! Roles: who makes a call on a book or a cue.

/// Who makes a call on a book or a cue, with the role's number. A call that the role may not make meets [`Refusal::NotAllowed`](crate::Refusal), ahead of
/// every other test.
#[derive(Clone, Copy, Debug, PartialEq, Eq, Hash)]
#[repr(u32)]
pub enum Role {
    /// May make every call.
    Operator = 0,
    /// May have a title replaced, by [`retitle`](crate::retitle), and no more.
    Translator = 1,
    /// May resolve a book, by [`resolve`](crate::resolve), which passes over the cues that are house only, and no more.
    Guest = 2,
}

impl Role {
    /// All roles, in the order of their numbers.
    pub const ALL: [Role; 3] = [Role::Operator, Role::Translator, Role::Guest];

    /// The role's number.
    ///
    /// ```
    /// assert_eq!(libretto::Role::Guest.number(), 2);
    /// ```
    pub const fn number(self) -> u32 {
        self as u32
    }

    /// The role of this number, if there is one.
    ///
    /// ```
    /// use libretto::Role;
    /// assert_eq!(Role::from_number(1), Some(Role::Translator));
    /// assert_eq!(Role::from_number(3), None);
    /// ```
    pub const fn from_number(number: u32) -> Option<Role> {
        match number {
            0 => Some(Role::Operator),
            1 => Some(Role::Translator),
            2 => Some(Role::Guest),
            _ => None,
        }
    }
}
