//! Document 02 (xiv): who may do what with a book or a cue.

/// What is done with a book or a cue.
#[derive(Clone, Copy, PartialEq, Eq)]
pub enum Act {
    Retitle,
    Resolve,
    Other,
}

/// 19, unless this role may do this: 0, the operator, may do all; 1, a translator, may have a title replaced; 2, a guest, may resolve.
pub fn permit(role: u32, act: Act) -> Result<(), u32> {
    match (role, act) {
        (0, _) | (1, Act::Retitle) | (2, Act::Resolve) => Ok(()),
        _ => Err(19),
    }
}
