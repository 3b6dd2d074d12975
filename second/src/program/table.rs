//! The whole table of an interface: a line for each method that it has or inherits.

use super::accepted::Accepted;
use super::questions::{Kind, Lookup};

impl Accepted<'_> {
    /// The table of the interface of this key.
    pub fn table(&self, namespace: &[u8], name: &[u8]) -> Lookup<Vec<u8>> {
        self.interface_by_key(namespace, name).map(|index| self.rows(index))
    }

    /// Its lines, those of the topmost ancestor first. On an incomplete chain another line comes
    /// before them, and no slot is known.
    fn rows(&self, index: usize) -> Vec<u8> {
        let mut chain = self.chain(index);
        let mut owners: Vec<_> = chain.by_ref().collect();
        owners.reverse();
        let first = chain.unresolved.map(|index| format!("undetermined {index}\n"));
        let mut lines = first.unwrap_or_default().into_bytes();
        let mut slots = 0..;
        for (owner, descriptor) in owners {
            let (namespace, name) = self.key(owner);
            let namespace = if namespace.is_empty() { b"-" } else { namespace };
            let mut walk = self.walk(descriptor);
            for slot in slots.by_ref().take(walk.pair().into()) {
                let (flags, method, arguments) = walk.method();
                let slot: String = chain.unresolved.map_or(u64::to_string(&slot), |_| "?".into());
                let (kind, arguments) = (Kind::of(flags).word(), arguments.to_string());
                let method = walk.identifier(method);
                let [slot, kind, arguments] = [&slot[..], kind, &arguments].map(str::as_bytes);
                lines.extend([slot, namespace, name, kind, method, arguments].join(&b' '));
                lines.push(b'\n');
            }
        }
        lines
    }
}
