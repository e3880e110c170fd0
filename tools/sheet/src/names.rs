//! Names for privileges and principals, which stand where a number would.

const COUNT: usize = 32;

/// Words for sets of privileges, which are no names.
const NOTHING: &str = "nothing";
pub const ALL: &str = "all";
pub const NO_GUARD: &str = "no guard";

#[derive(Debug, Default)]
pub struct Names {
    privileges: Table,
    principals: Table,
}

#[derive(Debug, Default)]
struct Table([Option<String>; COUNT]);

impl Names {
    /// Reads lines such as `privilege 0 stamp` and `principal 1 inspector`. A `#` begins a comment.
    pub fn parse(text: &str) -> Result<Self, String> {
        let mut names = Self::default();
        for (index, line) in text.lines().enumerate() {
            let line = line.split('#').next().unwrap_or("").trim();
            if !line.is_empty() {
                names
                    .add(line)
                    .map_err(|why| format!("line {}: {why}", index + 1))?;
            }
        }
        Ok(names)
    }

    fn add(&mut self, line: &str) -> Result<(), String> {
        let (what, rest) = line.split_once(char::is_whitespace).unwrap_or((line, ""));
        let table = match what {
            "privilege" => &mut self.privileges,
            "principal" => &mut self.principals,
            _ => return Err("a line is 'privilege NUMBER NAME' or 'principal NUMBER NAME'".into()),
        };
        let (number, name) = rest
            .trim()
            .split_once(char::is_whitespace)
            .ok_or("a number or a name is missing")?;
        let number = number.parse().ok().filter(|&number: &usize| number < COUNT);
        let number = number.ok_or("the number is not one of 0 to 31")?;
        table.add(number, name.trim())
    }

    pub fn privilege(&self, number: u32) -> String {
        self.privileges.name(number)
    }

    pub fn principal(&self, number: u32) -> String {
        self.principals.name(number)
    }

    /// A privilege by its name or its number, which may be one that there is not.
    pub fn privilege_number(&self, word: &str) -> Option<u32> {
        self.privileges.number(word)
    }

    pub fn principal_number(&self, word: &str) -> Option<u32> {
        self.principals.number(word)
    }

    /// The members of a set, with runs of four and more privileges without names drawn together.
    fn members(&self, set: u32) -> String {
        let mut words = Vec::new();
        let mut next = 0;
        while next < COUNT as u32 {
            let run = self.run(set, next);
            match run {
                0 => {}
                1..=3 => words.extend((next..next + run).map(|number| self.privilege(number))),
                _ => words.push(format!("{} to {}", next, next + run - 1)),
            }
            next += run.max(1);
        }
        words.join(", ")
    }

    /// How many privileges from this one on are in the set, all without names; of one with a name it is that one.
    fn run(&self, set: u32, first: u32) -> u32 {
        let holds = |number: u32| set >> number & 1 == 1;
        let plain = |number: u32| self.privileges.0[number as usize].is_none();
        if holds(first) && !plain(first) {
            return 1;
        }
        (first..COUNT as u32)
            .take_while(|&number| holds(number) && plain(number))
            .count() as u32
    }

    /// `{stamp, 3}`.
    pub fn set(&self, set: u32) -> String {
        format!("{{{}}}", self.members(set))
    }

    /// The set, or "nothing".
    pub fn in_words(&self, set: u32) -> String {
        if set == 0 {
            NOTHING.into()
        } else {
            self.set(set)
        }
    }

    /// `stamp`, or `privilege 0` of one without a name.
    pub fn privilege_in_words(&self, number: u32) -> String {
        self.privileges.in_words("privilege", number)
    }

    pub fn principal_in_words(&self, number: u32) -> String {
        self.principals.in_words("principal", number)
    }
}

impl Table {
    fn add(&mut self, number: usize, name: &str) -> Result<(), String> {
        if name.starts_with(char::is_numeric) {
            return Err(format!("'{name}' begins with a digit, as a number does"));
        }
        if name.contains([',', ':', '{', '}']) || !is_printed(name) {
            return Err("a name has no ',', ':', '{' or '}', and nothing that is not seen".into());
        }
        if is_taken(name) {
            return Err(format!("'{name}' would be read as something else"));
        }
        if self.0[number].is_some() {
            return Err(format!("{number} has a name already"));
        }
        if self.0.iter().flatten().any(|other| other == name) {
            return Err(format!("'{name}' is the name of another"));
        }
        self.0[number] = Some(name.to_string());
        Ok(())
    }

    fn name(&self, number: u32) -> String {
        let name = self.0.get(number as usize).and_then(Option::as_ref);
        name.cloned().unwrap_or_else(|| number.to_string())
    }

    fn in_words(&self, what: &str, number: u32) -> String {
        let name = self.name(number);
        if name == number.to_string() {
            format!("{what} {name}")
        } else {
            name
        }
    }

    fn number(&self, word: &str) -> Option<u32> {
        let named = self.0.iter().position(|name| name.as_deref() == Some(word));
        named.map(|number| number as u32).or_else(|| decimal(word))
    }
}

/// Whether each character of a name is seen, or is a plain blank.
fn is_printed(name: &str) -> bool {
    // A backslash itself is doubled, and a name has no brace.
    !name.escape_debug().to_string().contains("\\u{") && !name.contains(char::is_control)
}

/// Whether the tool says such words of something else.
fn is_taken(name: &str) -> bool {
    let name = name.to_lowercase();
    let words: Vec<&str> = name.split_whitespace().collect();
    matches!(words[..], ["privilege" | "principal", ..])
        || [NOTHING, ALL, NO_GUARD].contains(&words.join(" ").as_str())
}

/// A number in decimal digits alone.
pub fn decimal(word: &str) -> Option<u32> {
    word.bytes()
        .all(|byte| byte.is_ascii_digit())
        .then(|| word.parse().ok())?
}

#[cfg(test)]
mod tests {
    use super::*;

    #[test]
    fn names_stand_for_numbers() {
        let names = Names::parse(
            "# of page.hex\nprivilege 0 release\n\n principal 1  plate maker # two words\n",
        )
        .unwrap();
        assert_eq!(names.set(0b111), "{release, 1, 2}");
        assert_eq!(names.principal(1), "plate maker");
        assert_eq!(names.principal_in_words(0), "principal 0");
        assert_eq!(names.privilege_number("release"), Some(0));
        assert_eq!(names.privilege_number("40"), Some(40));
        assert_eq!(names.privilege_number("+4"), None);
        assert_eq!(names.privilege_number(""), None);
    }

    #[test]
    fn runs_are_drawn_together() {
        let names = Names::parse("privilege 9 stamp").unwrap();
        assert_eq!(names.set(0), "{}");
        assert_eq!(names.set(u32::MAX), "{0 to 8, stamp, 10 to 31}");
        assert_eq!(names.set(0b1011), "{0, 1, 3}");
    }

    #[test]
    fn faults_are_reported_with_their_lines() {
        let faulty = [
            "privilege 32 stamp",
            "privilege stamp",
            "privilege 1",
            "page 1 release",
            "privilege 1 7",
            "privilege 1 0 to 31",
            "privilege 1 privilege 0",
            "privilege 1 Privilege  0",
            "principal 1 principal 0",
            "principal 1 privilege 0",
            "privilege 1 nothing",
            "privilege 1 Nothing",
            "privilege 1 all",
            "privilege 1 no guard",
            "privilege 1 \u{200b}0",
            "privilege 1 privilege\u{a0}0",
            "privilege 1 a,b",
            "privilege 1 a\nprivilege 1 b",
            "principal 1 a\nprincipal 2 a",
        ];
        for text in faulty {
            let why = Names::parse(text).unwrap_err();
            let last = text.lines().count();
            assert!(
                why.starts_with(&format!("line {last}: ")),
                "{text:?}: {why}"
            );
        }
    }
}
