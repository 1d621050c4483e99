// In place of the original listener.rs: nobody listens. The original panics on a key whose first character has
// several bytes even when nobody listens, and document 01 leaves listeners out. The crate judge-listener mounts
// the original file instead.

#[derive(Default, Clone)]
pub(crate) struct Listeners;

impl Listeners {
    pub(crate) fn trigger_event(&mut self, _event: crate::KeyChangeEvent) {}
}
