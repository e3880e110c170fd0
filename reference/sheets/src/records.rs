//! The tables of a sheet as raw records, right or wrong, and their bytes.

#[derive(Clone, Copy, Debug, Default, PartialEq, Eq)]
pub struct TypeRecord {
    pub kind: u8,
    pub zero: u8,
    pub argument: u16,
    pub result: u16,
    pub latent: u32,
}

#[derive(Clone, Copy, Debug, Default, PartialEq, Eq)]
pub struct TermRecord {
    pub kind: u8,
    pub small: u8,
    /// First, second and third.
    pub parts: [u16; 3],
}

/// The version and, where there is a tag 5, its content: a byte for each
/// channel, which version 2 has and version 1 has not.
#[derive(Clone, Debug, PartialEq, Eq)]
pub struct Format {
    pub version: u16,
    pub guards: Option<Vec<u8>>,
}

#[derive(Clone, Debug, PartialEq, Eq)]
pub struct Records {
    pub format: Format,
    pub principals: Vec<u32>,
    pub types: Vec<TypeRecord>,
    pub terms: Vec<TermRecord>,
}

pub const BOOL: u16 = 0;
pub const NUMBER: u16 = 1;

/// How many channels version 2 has.
pub const CHANNELS: usize = 16;

/// The byte of a channel that nothing guards.
pub const UNGUARDED: u8 = 255;

/// A byte for each channel.
pub type Guards = [u8; CHANNELS];

impl Format {
    pub fn version_1() -> Self {
        Self {
            version: 1,
            guards: None,
        }
    }

    pub fn version_2(guards: &Guards) -> Self {
        Self {
            version: 2,
            guards: Some(guards.to_vec()),
        }
    }
}

impl TypeRecord {
    const FUNCTION_KIND: u8 = 2;

    pub fn bool() -> Self {
        Self::default()
    }

    pub fn number() -> Self {
        Self {
            kind: 1,
            ..Self::default()
        }
    }

    pub fn function(argument: u16, result: u16, latent: u32) -> Self {
        Self {
            kind: Self::FUNCTION_KIND,
            zero: 0,
            argument,
            result,
            latent,
        }
    }

    pub fn is_function(self) -> bool {
        self.kind == Self::FUNCTION_KIND
    }

    fn append_to(self, bytes: &mut Vec<u8>) {
        bytes.extend([self.kind, self.zero]);
        bytes.extend(self.argument.to_be_bytes());
        bytes.extend(self.result.to_be_bytes());
        bytes.extend(self.latent.to_be_bytes());
    }
}

impl TermRecord {
    fn append_to(self, bytes: &mut Vec<u8>) {
        bytes.extend([self.kind, self.small]);
        bytes.extend(self.parts.iter().flat_map(|part| part.to_be_bytes()));
    }
}

impl Records {
    pub fn to_bytes(&self) -> Vec<u8> {
        let mut principals = Vec::new();
        for set in &self.principals {
            principals.extend(set.to_be_bytes());
        }
        let mut types = Vec::new();
        for record in &self.types {
            record.append_to(&mut types);
        }
        let mut terms = Vec::new();
        for record in &self.terms {
            record.append_to(&mut terms);
        }
        let mut fields = vec![
            field(1, &self.format.version.to_be_bytes()),
            field(2, &principals),
            field(3, &types),
            field(4, &terms),
        ];
        fields.extend(self.format.guards.iter().map(|guards| field(5, guards)));
        fields.concat()
    }
}

/// A field with the length that its content has.
pub fn field(tag: u8, content: &[u8]) -> Vec<u8> {
    let length = content.len() as u16;
    let mut bytes = vec![tag];
    bytes.extend(length.to_be_bytes());
    bytes.extend(content);
    bytes
}
