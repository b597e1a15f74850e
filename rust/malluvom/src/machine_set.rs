use std::fmt;

/// A set of machines, as one byte of a log has it: bit i - 1 is set for machine i.
///
/// ```
/// use malluvom::MachineSet;
///
/// let breaker = MachineSet::of([3, 1]).expect("machines 1 to 8 have a bit");
/// assert_eq!((breaker.bits(), breaker.to_string()), (0b101, "1, 3".to_string()));
/// assert!(breaker.contains(3) && !breaker.contains(2));
/// ```
#[derive(Clone, Copy, Debug, Default, PartialEq, Eq, Hash)]
pub struct MachineSet(u8);

impl MachineSet {
    /// No machine.
    pub const EMPTY: MachineSet = MachineSet(0);

    /// The set of a byte.
    pub const fn from_bits(bits: u8) -> MachineSet {
        MachineSet(bits)
    }

    /// The byte.
    pub const fn bits(self) -> u8 {
        self.0
    }

    /// The set of these machines, or nothing if one of them has no bit: machine 0, or one above 8.
    pub fn of(machines: impl IntoIterator<Item = u8>) -> Option<MachineSet> {
        machines.into_iter().try_fold(MachineSet::EMPTY, |set, machine| Some(set.union(MachineSet::one(machine)?)))
    }

    /// The set of one machine, or nothing if it has no bit.
    pub fn one(machine: u8) -> Option<MachineSet> {
        (1..=8).contains(&machine).then(|| MachineSet(1 << (machine - 1)))
    }

    /// The machines of both.
    pub const fn union(self, other: MachineSet) -> MachineSet {
        MachineSet(self.0 | other.0)
    }

    /// Whether a machine is in the set.
    pub fn contains(self, machine: u8) -> bool {
        MachineSet::one(machine).is_some_and(|one| self.0 & one.0 != 0)
    }

    /// Whether there is none in it.
    pub const fn is_empty(self) -> bool {
        self.0 == 0
    }

    /// How many there are.
    pub const fn len(self) -> usize {
        self.0.count_ones() as usize
    }

    /// The machines, rising.
    pub fn iter(self) -> impl Iterator<Item = u8> {
        (1..=8).filter(move |&machine| self.contains(machine))
    }
}

/// The machines, rising, as a crash in the text form names them.
impl fmt::Display for MachineSet {
    fn fmt(&self, f: &mut fmt::Formatter) -> fmt::Result {
        let machines: Vec<String> = self.iter().map(|machine| machine.to_string()).collect();
        f.write_str(&machines.join(", "))
    }
}
