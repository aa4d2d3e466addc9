//! The stack that an operation touches: the resident pages of a fresh thread's stack after it, over those of an idle one.

use std::fs;
use std::sync::mpsc::{self, Receiver, Sender};
use std::sync::Arc;
use std::thread;
use std::time::Duration;

use crate::asking::{Operation, Side, Subject};
use crate::files::MIB;
use crate::speeds::{Kind, Speed};
use crate::table::Table;

/// The stack of each thread.
const STACK: usize = 2 << 20;

/// What is not measured, said under the table.
pub const NOTE: &str = "\
KiB of stack that one run on a file of 1 MiB touches, in whole pages of 4 KiB, beyond the pages that an idle thread has touched: \
0 means that it stays within those. The heap, on which the second reader keeps rows and names, is not part of it, and of heap by \
operation nothing is measured. A dash: the system does not tell. Under an emulator the figures are not those of the program alone.";

/// A thread that works when told to; it stays until it is dropped, so that its stack is not used again.
struct Probe {
    go: Sender<()>,
    worked: Receiver<usize>,
}

impl Probe {
    fn new(work: impl FnOnce() + Send + 'static) -> Probe {
        let (go, start) = mpsc::channel();
        let (done, worked) = mpsc::channel();
        let whole = move || {
            let local = 0_u8;
            if start.recv().is_err() {
                return;
            }
            work();
            // If nobody listens, the work was given up; if nobody tells any more, the thread is to end.
            let _ = done.send(std::ptr::addr_of!(local) as usize);
            let _ = start.recv();
        };
        thread::Builder::new().stack_size(STACK).spawn(whole).expect("a thread");
        Probe { go, worked }
    }

    /// A thread that runs an operation.
    fn of(subject: &Arc<Subject>, side: Side, operation: Operation) -> Probe {
        let subject = Arc::clone(subject);
        Probe::new(move || {
            subject.ask(side, operation, &mut subject.lent(operation));
        })
    }

    /// Works and gives the KiB that the stack then has resident, if the system tells; an error if it takes too long.
    fn resident(&self, limit: Duration) -> Result<Option<u64>, ()> {
        self.go.send(()).map_err(|_| ())?;
        let address = self.worked.recv_timeout(limit).map_err(|_| ())?;
        let maps = fs::read_to_string("/proc/self/smaps").unwrap_or_default();
        Ok(resident_at(&maps, address))
    }
}

/// The KiB resident of the mapping around an address; nothing where it cannot be a stack's own small pages.
fn resident_at(maps: &str, address: usize) -> Option<u64> {
    let range = |line: &str| {
        let (start, end) = line.split_once(' ')?.0.split_once('-')?;
        let place = |text| usize::from_str_radix(text, 16).ok();
        Some(place(start)?..place(end)?)
    };
    let mut lines = maps.lines();
    let stack = lines.by_ref().filter_map(range).find(|range| range.contains(&address))?;
    let own: Vec<&str> = lines.take_while(|line| range(line).is_none()).collect();
    let kib = |name: &str| {
        let value = own.iter().find_map(|line| line.strip_prefix(name))?;
        value.trim().strip_suffix(" kB")?.parse::<u64>().ok()
    };
    let apart = stack.len() <= STACK + STACK / 8 && kib("AnonHugePages:").unwrap_or(0) == 0;
    kib("Rss:").filter(|&resident| apart && resident > 0)
}

/// The stacks of all operations.
pub struct Stacks {
    /// A row for each operation.
    pub table: Table,
    /// The KiB that an idle thread has touched, if the system tells.
    pub idle: Option<u64>,
}

/// Looks at each operation's stack; what the first table found over the limit is not run.
pub fn measured(speeds: &[Speed], limit: Duration, over: &str) -> Stacks {
    let mut table = Table::new(2, &["file", "operation", "proved KiB", "second KiB"]);
    // The first keeps the others' stacks apart from whatever is mapped above them.
    let [_spacer, idle] = [(), ()].map(|()| Probe::new(|| ()));
    let probes = probes(speeds);
    let idle = idle.resident(limit).unwrap_or_default();
    for (speed, [proved, second]) in &probes {
        eprintln!("bench: stack of {} on a {}", speed.operation, speed.kind.name());
        let cell = |probe: &Probe| match (probe.resident(limit), idle) {
            (Err(()), _) => over.to_string(),
            (Ok(Some(own)), Some(idle)) => own.saturating_sub(idle).to_string(),
            (Ok(_), _) => "-".to_string(),
        };
        let proved = speed.times.proved.map_or(over.to_string(), |_| cell(proved));
        table.add([speed.kind.name().into(), speed.operation.to_string(), proved, cell(second)]);
    }
    Stacks { table, idle }
}

/// A thread for each operation and side; all are there before the first one works, so that nothing is mapped between.
fn probes(speeds: &[Speed]) -> Vec<(&Speed, [Probe; 2])> {
    let mut probes = Vec::new();
    for kind in [Kind::Board, Kind::Library] {
        let subject = Arc::new(kind.subject(MIB));
        for speed in speeds.iter().filter(|speed| speed.kind == kind && speed.size == MIB) {
            let of = |side| Probe::of(&subject, side, speed.operation);
            probes.push((speed, [Side::Proved, Side::Second].map(of)));
        }
    }
    probes
}

/// The most memory that the process has had, in KiB.
pub fn peak_memory() -> Option<u64> {
    let status = fs::read_to_string("/proc/self/status").ok()?;
    let line = status.lines().find_map(|line| line.strip_prefix("VmHWM:"))?;
    line.trim().strip_suffix(" kB")?.parse().ok()
}

#[cfg(test)]
mod tests {
    use super::*;

    const MAPS: &str = "\
1000-3000 rw-p 00000000 00:00 0 \nSize: 8 kB\nRss:                   4 kB\nAnonHugePages:         0 kB\n\
3000-203000 rw-p 00000000 00:00 0 \nRss:                  12 kB\nAnonHugePages:         0 kB\n\
400000-600000 rw-p 00000000 00:00 0 \nRss:                2048 kB\nAnonHugePages:      2048 kB\n";

    #[test]
    fn what_a_thread_touches_is_seen() {
        let large = || {
            std::hint::black_box([1_u8; 400 << 10]);
        };
        let [_spacer, idle] = [(), ()].map(|()| Probe::new(|| ()));
        let probe = Probe::new(large);
        let limit = Duration::from_secs(10);
        // An emulator has mappings of its own.
        if std::env::var_os("QUAY_RUNNER").is_some() {
            return;
        }
        if let (Ok(Some(idle)), Ok(Some(own))) = (idle.resident(limit), probe.resident(limit)) {
            assert!((396..900).contains(&own.saturating_sub(idle)), "{idle} {own}");
        }
    }

    #[test]
    fn the_mapping_around_an_address_is_found() {
        assert_eq!(resident_at(MAPS, 0x2FFF), Some(4));
        assert_eq!(resident_at(MAPS, 0x3000), Some(12));
    }

    #[test]
    fn what_is_not_told_is_not_made_up() {
        assert_eq!(resident_at(MAPS, 0x203000), None, "no mapping");
        assert_eq!(resident_at(MAPS, 0x400000), None, "a huge page");
        assert_eq!(resident_at("", 0x3000), None);
    }
}
