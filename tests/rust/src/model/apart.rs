//! Steps far apart (document 02, request 9): what is asked of two allowed steps of stations that meet.

use super::net::Step;

#[derive(Clone, Copy)]
pub struct Asked {
    /// Of the stations that they name.
    pub apart: fn(Step, Step) -> bool,
    /// "each alone leaves the net in form".
    pub form: bool,
}

/// The request's own conditions.
pub const FAR_APART: Asked = Asked { apart: have_none_in_common, form: true };

/// "name no station in common".
pub fn have_none_in_common(s: Step, t: Step) -> bool {
    let named = [s.sender, s.receiver];
    !named.contains(&t.sender) && !named.contains(&t.receiver)
}
