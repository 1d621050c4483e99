//! The node rules: document 01, "Node rules" and the local part of "Order".

use crate::table::{MOST_KEY, MOST_NODES, MOST_REMOVED, MOST_VALUE, Node, Record, Status, Table};

/// A refusal's number.
pub type Refused = u8;

/// Why bytes cannot be read: a number, or 9 with how many bytes the field lacks in which they end.
pub enum Unread {
    Refused(Refused),
    Cut(usize),
}

pub enum Scheduled {
    Delete,
    AfterTtl,
}

fn check_text(len: usize, most: usize) -> Result<(), Refused> {
    if len > most { Err(1) } else { Ok(()) }
}

/// One more than a version or a heartbeat.
fn risen(number: u64) -> Result<u64, Refused> {
    number.checked_add(1).ok_or(6)
}

impl Table {
    pub fn node(&self, number: u64) -> Result<&Node, Refused> {
        self.nodes.get(&number).ok_or(2)
    }

    fn node_mut(&mut self, number: u64) -> Result<&mut Node, Refused> {
        self.nodes.get_mut(&number).ok_or(2)
    }

    /// Adding a node held already changes nothing.
    pub fn add(&mut self, number: u64) -> Result<(), Refused> {
        if self.nodes.contains_key(&number) {
            return Ok(());
        }
        if self.nodes.len() == MOST_NODES {
            return Err(4);
        }
        self.nodes.insert(number, Node::default());
        self.removed.retain(|&(other, _)| other != number);
        Ok(())
    }

    pub fn remove(&mut self, number: u64) -> Result<(), Refused> {
        let node = self.nodes.remove(&number).ok_or(2)?;
        if self.removed.len() == MOST_REMOVED {
            self.removed.remove(0);
        }
        self.removed.push((number, node.heartbeat));
        Ok(())
    }

    /// The last heartbeat of a removed node (document 02, ticket 2).
    pub fn last_heartbeat(&self, number: u64) -> Option<u64> {
        self.removed.iter().find(|&&(other, _)| other == number).map(|&(_, heartbeat)| heartbeat)
    }

    /// The one write (document 02, ticket 6): the wanted status by its number, Set or TTL.
    pub fn write(&mut self, party: u64, number: u64, key: &[u8], value: &[u8], wanted: u64, now: u64) -> Result<(), Refused> {
        let (status, start) = match wanted {
            0 => (Status::Set, 0),
            2 => (Status::Ttl, now),
            _ => return Err(10),
        };
        let profile = self.profile;
        let node = self.node_mut(number)?;
        check_text(key.len(), MOST_KEY)?;
        check_text(value.len(), MOST_VALUE)?;
        if !profile.sees(party, key) || !profile.takes(key, value, status) {
            return Err(profile.number());
        }
        let held = node.records.get(key);
        if held.is_some_and(|record| record.value == value && record.status == status) {
            return Ok(());
        }
        if profile.falls(key, value, held) {
            return Err(18);
        }
        if held.is_none() && profile.full(party, node) {
            return Err(5);
        }
        let version = risen(node.max)?;
        node.max = version;
        node.records.insert(key.to_vec(), Record { value: value.to_vec(), version, status, start });
        Ok(())
    }

    pub fn delete(&mut self, party: u64, number: u64, key: &[u8], now: u64, how: Scheduled) -> Result<(), Refused> {
        let profile = self.profile;
        let node = self.node_mut(number)?;
        check_text(key.len(), MOST_KEY)?;
        if !profile.sees(party, key) {
            return Err(19);
        }
        let record = node.records.get_mut(key).ok_or(3)?;
        let version = risen(node.max)?;
        node.max = version;
        record.version = version;
        record.start = now;
        match how {
            Scheduled::Delete => {
                record.value.clear();
                record.status = Status::Delete;
            }
            Scheduled::AfterTtl => record.status = Status::Ttl,
        }
        Ok(())
    }

    /// Yes or no.
    pub fn offer(&mut self, number: u64, heartbeat: u64) -> Result<bool, Refused> {
        let node = self.node_mut(number)?;
        if node.heartbeat == 0 {
            node.heartbeat = heartbeat;
            return Ok(false);
        }
        let greater = heartbeat > node.heartbeat;
        if greater {
            node.heartbeat = heartbeat;
        }
        Ok(greater)
    }

    pub fn beat(&mut self, number: u64) -> Result<(), Refused> {
        let node = self.node_mut(number)?;
        node.heartbeat = risen(node.heartbeat)?;
        Ok(())
    }

    pub fn get(&self, party: u64, number: u64, key: &[u8]) -> Result<Option<&[u8]>, Refused> {
        let node = self.node(number)?;
        check_text(key.len(), MOST_KEY)?;
        if !self.profile.sees(party, key) {
            return Err(19);
        }
        Ok(node.records.get(key).filter(|record| !record.hidden()).map(|record| &record.value[..]))
    }

    /// Ranks of the hits among all records of the node that the party sees.
    pub fn list(&self, party: u64, number: u64, prefix: &[u8], places: u64) -> Result<Vec<usize>, Refused> {
        let node = self.node(number)?;
        check_text(prefix.len(), MOST_KEY)?;
        let ranked = self.profile.seen(party, node).enumerate();
        let hits = ranked.filter(|(_, (key, record))| key.starts_with(prefix) && !record.hidden());
        let ranks: Vec<usize> = hits.map(|(rank, _)| rank).collect();
        if ranks.len() as u64 > places { Err(8) } else { Ok(ranks) }
    }

    /// Removal, over all nodes.
    pub fn gc(&mut self, now: u64, grace: u64) {
        self.remove_records(|_, record| record.over(now, grace));
    }

    /// The records of a node that go, by its number. The largest version among them is the node's last_gc, if that grows by it.
    pub fn remove_records(&mut self, goes: impl Fn(u64, &Record) -> bool) {
        for (&number, node) in &mut self.nodes {
            let removed = node.records.values().filter(|record| goes(number, record)).map(|record| record.version).max();
            node.last_gc = node.last_gc.max(removed.unwrap_or(0));
            node.records.retain(|_, record| !goes(number, record));
        }
    }
}
