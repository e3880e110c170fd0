//! Privileges and sets of them.

/// One of the 32 privileges.
#[derive(Clone, Copy, Debug, PartialEq, Eq)]
pub struct Privilege(u8);

impl Privilege {
    /// Privilege `k`, if there is one: 0 to 31.
    pub fn new(k: u8) -> Option<Self> {
        (k < 32).then_some(Self(k))
    }

    /// The same of a number of which all 32 bits count.
    pub fn of_number(k: u32) -> Option<Self> {
        u8::try_from(k).ok().and_then(Self::new)
    }

    pub fn number(self) -> u8 {
        self.0
    }
}

/// A set of privileges. Bit k, worth 2^k, stands for privilege k.
#[derive(Clone, Copy, Debug, Default, PartialEq, Eq)]
pub struct Set(u32);

impl Set {
    pub const EMPTY: Self = Self(0);

    pub fn from_bits(bits: u32) -> Self {
        Self(bits)
    }

    pub fn bits(self) -> u32 {
        self.0
    }

    pub fn contains(self, privilege: Privilege) -> bool {
        self.0 >> privilege.0 & 1 == 1
    }

    pub fn with(self, privilege: Privilege) -> Self {
        Self(self.0 | 1 << privilege.0)
    }

    pub fn without(self, privilege: Privilege) -> Self {
        Self(self.0 & !(1 << privilege.0))
    }

    pub fn union(self, other: Self) -> Self {
        Self(self.0 | other.0)
    }

    pub fn meet(self, other: Self) -> Self {
        Self(self.0 & other.0)
    }

    pub fn is_within(self, other: Self) -> bool {
        self.0 & !other.0 == 0
    }
}

#[cfg(test)]
mod tests {
    use super::*;

    #[test]
    fn privileges_are_0_to_31() {
        assert!(Privilege::new(31).is_some());
        assert!(Privilege::new(32).is_none());
    }

    #[test]
    fn bit_k_is_privilege_k() {
        let highest = Privilege::new(31).unwrap();
        assert_eq!(Set::EMPTY.with(highest).bits(), 0x8000_0000);
        assert!(Set::from_bits(0x8000_0000).contains(highest));
        assert_eq!(
            Set::from_bits(u32::MAX).without(highest).bits(),
            0x7FFF_FFFF
        );
    }

    #[test]
    fn inclusion() {
        assert!(Set::from_bits(0b010).is_within(Set::from_bits(0b110)));
        assert!(!Set::from_bits(0b011).is_within(Set::from_bits(0b110)));
    }
}
