//! Site overrides (document 02, ticket 10): one node in form, read together with a node of the table. The calls on them are the node rules, without 2.

use crate::local::{Refused, Scheduled};
use crate::table::{MOST_KEY, Node, Table};

/// Overrides are written as a table of this one node would be.
const OWN: u64 = 0;

#[derive(Clone)]
pub struct Overrides {
    pub number: u64,
    held: Table,
}

/// Where a value is.
#[derive(Clone, Debug, PartialEq, Eq)]
pub enum Over {
    Overrides(Vec<u8>),
    Node(Vec<u8>),
    None,
}

impl Overrides {
    pub fn new(number: u64) -> Overrides {
        Overrides { number, held: holding(Node::default()) }
    }

    pub fn to_bytes(&self) -> Vec<u8> {
        Table::node_bytes(self.number, self.node())
    }

    /// None: number 14.
    pub fn from_bytes(bytes: &[u8]) -> Option<Overrides> {
        let (number, node) = Table::node_of(bytes)?;
        Some(Overrides { number, held: holding(node) })
    }

    fn node(&self) -> &Node {
        &self.held.nodes[&OWN]
    }

    pub fn write(&mut self, key: &[u8], value: &[u8], wanted: u64, now: u64) -> Result<(), Refused> {
        self.held.write(0, OWN, key, value, wanted, now)
    }

    pub fn delete(&mut self, key: &[u8], now: u64, how: Scheduled) -> Result<(), Refused> {
        self.held.delete(0, OWN, key, now, how)
    }

    pub fn gc(&mut self, now: u64, grace: u64) {
        self.held.gc(now, grace);
    }

    /// The override's value if its record is there and unhidden, else the node's.
    pub fn get(&self, table: &Table, party: u64, number: u64, key: &[u8]) -> Result<Over, Refused> {
        let shared = table.get(party, number, key)?;
        let own = self.held.get(0, OWN, key)?;
        Ok(match (own, shared) {
            (Some(value), _) => Over::Overrides(value.to_vec()),
            (None, Some(value)) => Over::Node(value.to_vec()),
            (None, None) => Over::None,
        })
    }

    /// Each key once, in key order: 128 and the place in the overrides, or the place among the node's records that the party sees. Of a shared table the party's own
    /// keys alone.
    pub fn list(&self, table: &Table, party: u64, number: u64, prefix: &[u8], places: u64) -> Result<Vec<u8>, Refused> {
        let node = table.node(number)?;
        if prefix.len() > MOST_KEY {
            return Err(1);
        }
        let keys: std::collections::BTreeSet<&Vec<u8>> = self.node().records.keys().chain(node.records.keys()).collect();
        let own = |key: &Vec<u8>| self.node().records.iter().position(|(other, record)| other == key && !record.hidden()).map(|place| 128 + place as u8);
        let below = |key: &Vec<u8>| table.profile.seen(party, node).position(|(other, record)| other == key && !record.hidden()).map(|place| place as u8);
        let named = keys.into_iter().filter(|key| key.starts_with(prefix) && table.profile.sees(party, key));
        let hits: Vec<u8> = named.filter_map(|key| own(key).or_else(|| below(key))).collect();
        if hits.len() as u64 > places { Err(8) } else { Ok(hits) }
    }
}

fn holding(node: Node) -> Table {
    Table { nodes: [(OWN, node)].into(), ..Table::default() }
}
